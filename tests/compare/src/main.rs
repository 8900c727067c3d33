//! Compares every entry with the second program on random, damaged and extreme inputs.
//!
//!     compare [CASES [SEED]]
//!     compare --program PATH [CASES [SEED]]
//!
//! The first compares the C interface: every lent buffer is filled with a pattern before each call and compared whole
//! after it. The second compares what the program scancheck at PATH prints. Both end with status 1 at the first
//! difference, which they print with the seed of its case. Case k has seed SEED + k, so two runs share no case if their
//! seeds are further apart than CASES.

mod calls;
mod program;
mod runs;
mod tally;

use calls::Told;
use second::code::Code;
use second::random::{self, JudgingCase, Random};
use second::refusal::Refusal;
use second::requirement::Which;
use second::{inputs, judging, number, requirement, sheet, table, translation};
use tally::Tally;

/// What every refusal number of the readers and writers must have shown by the end of a run of full length.
const MUST_REACH: &[(&str, &[u64])] = &[
    ("read number", &[0, 1]),
    ("write number", &[0, 10]),
    ("check requirement", &[0, 1, 3, 4]),
    ("read requirement", &[0, 1, 3, 4, 10]),
    ("write requirement", &[0, 1, 3, 4, 10]),
    ("read table", &[0, 1, 2, 10]),
    ("write table", &[0, 1, 2, 10]),
    ("read inputs", &[0, 1, 2, 10]),
    ("write inputs", &[0, 1, 2, 10]),
    ("find", &[0, 1, 2, 11]),
    ("translate", &[0, 1, 3, 4, 10]),
    ("judge", &[0, 1, 3, 4, 9, 10]),
    ("run", &[0, 1, 2, 5, 6, 7, 8, 10]),
    ("judge a run's trace", &[0, 10]),
];

/// What must have been met besides by the end of a run of full length.
const MUST_MEET: &[&str] = &[
    runs::FULL_TABLE,
    runs::FULL_TABLE_CLOSED,
    runs::ALL_SCANS,
    runs::ALL_SCANS_CLOSED,
    runs::ALL_INPUTS_CLOSED,
    runs::MOST_POSITIONS,
    runs::BYTE_SHORT,
    runs::EXACT_ROOM,
    runs::MORE_ROOM,
];

/// A run of full length has so many cases: of the C interface, and of the program.
const FULL_LENGTH: u64 = 100_000;
const FULL_LENGTH_OF_PROGRAM: u64 = 5_000;

fn main() {
    let mut words = std::env::args().skip(1).peekable();
    let path = words.next_if(|word| word == "--program").map(|_| words.next().expect("PATH after --program"));
    let usual = if path.is_some() { FULL_LENGTH_OF_PROGRAM } else { FULL_LENGTH };
    let cases: u64 = words.next().map_or(usual, |word| word.parse().expect("CASES is a number"));
    let seed: u64 = words.next().map_or_else(from_clock, |word| word.parse().expect("SEED is a number"));
    println!("seed {seed}");
    let mut tally = Tally::default();
    for case in 0..cases {
        let mut random = Random::new(seed.wrapping_add(case));
        let compared = match &path {
            Some(path) => program::compare_one(path, &mut random, &mut tally),
            None => compare_one(&mut random, &mut tally),
        };
        if let Err(difference) = compared {
            println!("DIFFERENT with seed {}: {difference}", seed.wrapping_add(case));
            std::process::exit(1);
        }
    }
    tally.print();
    if cases >= usual {
        match path {
            Some(_) => check_reached(&tally, program::MUST_REACH, program::MUST_MEET),
            None => check_reached(&tally, MUST_REACH, MUST_MEET),
        }
    }
    println!("{} comparisons of {cases} cases, 0 differences", tally.cases);
}

fn check_reached(tally: &Tally, must_reach: &[(&str, &[u64])], must_meet: &[&str]) {
    for (entry, numbers) in must_reach {
        for number in *numbers {
            assert!(tally.reached(entry, *number), "{entry} never answered {number}");
        }
    }
    for what in must_meet {
        assert!(tally.has_met(what), "{what}: never met");
    }
}

fn from_clock() -> u64 {
    std::time::UNIX_EPOCH.elapsed().map_or(1, |time| time.as_nanos() as u64)
}

/// The kinds of a case, the last three of them runs.
const KINDS: usize = 15;

fn compare_one(random: &mut Random, tally: &mut Tally) -> Result<(), String> {
    match random.below(KINDS) {
        12..=14 => runs::runs(random, tally),
        9..=11 => judgings(random, tally),
        8 => translations(random, tally),
        0 => numbers(random, tally),
        1 | 2 => requirements(random, tally),
        3..=5 => tables(random, tally),
        6 => inputs_records(random, tally),
        _ => sheets(random, tally),
    }
}

/// An answer of the second program in the interface's form.
fn told(answer: Result<(u64, u64), Refusal>) -> Told {
    match answer {
        Ok((first, second)) => Told { refusal: 0, first, second },
        Err(refusal) => Told { refusal: refusal.number() as u64, first: refusal.place as u64, second: 0 },
    }
}

fn counted(answer: Result<usize, Refusal>) -> Told {
    told(answer.map(|count| (count as u64, 0)))
}

fn same<T: PartialEq + std::fmt::Debug>(what: &str, given: &T, wanted: &T, input: &dyn std::fmt::Debug) -> Result<(), String> {
    if given == wanted {
        return Ok(());
    }
    Err(format!("{what} gave {given:?}, the second program {wanted:?}, for {input:?}"))
}

/// A buffer with a pattern, twice: one for each program.
fn byte_buffers(random: &mut Random, needed: usize) -> (Vec<u8>, Vec<u8>) {
    let length = random::buffer_length(random, needed);
    let buffer = random.bytes(length);
    (buffer.clone(), buffer)
}

fn number_buffers(random: &mut Random, needed: usize) -> (Vec<u16>, Vec<u16>) {
    let length = random::buffer_length(random, needed);
    let buffer: Vec<u16> = (0..length).map(|_| random.next() as u16).collect();
    (buffer.clone(), buffer)
}

/// The bytes of a code: as they should be, damaged, or any bytes.
fn bytes_of(random: &mut Random, numbers: &[u16]) -> Vec<u8> {
    let pieces = random::pieces_of_numbers(numbers);
    match random.below(8) {
        0..=2 => random::bytes_of_pieces(&pieces),
        7 => {
            let count = random.below(40);
            random.bytes(count)
        }
        _ => random::damaged_bytes(random, &pieces),
    }
}

/// The numbers of a code: as they should be, or damaged.
fn numbers_of(random: &mut Random, numbers: &[u16]) -> Vec<u16> {
    if random.below(8) < 3 {
        return numbers.to_vec();
    }
    random::damaged_numbers(random, numbers)
}

fn numbers(random: &mut Random, tally: &mut Tally) -> Result<(), String> {
    let count = random.below(6);
    let code = match random.below(4) {
        0 => random.bytes(count),
        1 => random::too_large_spelling(random),
        2 => {
            let value = random.any_number();
            random::longer_spelling(random, value)
        }
        _ => number::spelled(random.any_number()),
    };
    let mut places: Vec<usize> = (0..code.len() + 2).collect();
    places.push(usize::MAX - random.below(4));
    for at in places {
        let given = calls::read_number(&code, at);
        let wanted = told(number::read_number(&code, at).map(|found| (found.value as u64, found.after as u64)));
        same("read number", &given, &wanted, &(&code, at))?;
        tally.note("read number", given.refusal);
    }
    let value = random.any_number();
    let bytes = number::spelled(value);
    let (mut mine, mut theirs) = byte_buffers(random, bytes.len());
    let given = calls::write_number(value, &mut mine);
    let wanted = counted(second::code::fill(&bytes, &mut theirs));
    same("write number", &(given, mine), &(wanted, theirs), &value)?;
    tally.note("write number", given.refusal);
    Ok(())
}

fn requirements(random: &mut Random, tally: &mut Tally) -> Result<(), String> {
    let made_as = random.pick(&[Which::Untranslated, Which::Translated]);
    let read_as = if random.once_in(6) { random.pick(&[Which::Untranslated, Which::Translated]) } else { made_as };
    let translated = read_as == Which::Translated;
    let made =
        if random.once_in(6) { random::requirement_past_limit(random, made_as) } else { random::requirement(random, made_as) };

    let code = bytes_of(random, &made);
    let given = calls::check_requirement(translated, &code);
    let checked = requirement::check_requirement(Code::Bytes(&code), read_as);
    let wanted = told(checked.map(|found| (found.node_count as u64, found.depth as u64)));
    same("check requirement", &given, &wanted, &(read_as, &code))?;
    tally.note("check requirement", given.refusal);

    let (mut mine, mut theirs) = number_buffers(random, made.len());
    let given = calls::read_requirement(translated, &code, &mut mine);
    let wanted = counted(requirement::read_requirement(&code, read_as, &mut theirs));
    same("read requirement", &(given, mine), &(wanted, theirs), &(read_as, &code))?;
    tally.note("read requirement", given.refusal);

    let row = numbers_of(random, &made);
    let needed = second::code::bytes_of_numbers(&row).len();
    let (mut mine, mut theirs) = byte_buffers(random, needed);
    let given = calls::write_requirement(translated, &row, &mut mine);
    let wanted = counted(requirement::write_requirement(&row, read_as, &mut theirs));
    same("write requirement", &(given, mine), &(wanted, theirs), &(read_as, &row))?;
    tally.note("write requirement", given.refusal);
    Ok(())
}

/// A table of numbers: mostly small, now and then full, or with one process too many; one field may be struck.
fn made_table(random: &mut Random) -> Vec<u16> {
    let mut made = match random.below(40) {
        0 => random::full_table(random, table::MOST_PROCESSES),
        1 => random::table(random, table::MOST_PROCESSES + 1),
        _ => random::table(random, table::MOST_PROCESSES),
    };
    if random.once_in(2) {
        random::damage_table_field(random, &mut made);
    }
    made
}

fn tables(random: &mut Random, tally: &mut Tally) -> Result<(), String> {
    let made = made_table(random);
    let code = bytes_of(random, &made);
    let (mut mine, mut theirs) = number_buffers(random, made.len());
    let given = calls::read_table(&code, &mut mine);
    let wanted = counted(table::read_table(&code, &mut theirs));
    same("read table", &(given, mine), &(wanted, theirs), &code)?;
    tally.note("read table", given.refusal);

    let row = numbers_of(random, &made);
    let needed = second::code::bytes_of_numbers(&row).len();
    let (mut mine, mut theirs) = byte_buffers(random, needed);
    let given = calls::write_table(&row, &mut mine);
    let wanted = counted(table::write_table(&row, &mut theirs));
    same("write table", &(given, mine), &(wanted, theirs), &row)?;
    tally.note("write table", given.refusal);
    Ok(())
}

fn inputs_records(random: &mut Random, tally: &mut Tally) -> Result<(), String> {
    let made_for = random::input_count(random);
    let made = if random.once_in(40) { random::inputs_of(random, 1365, made_for) } else { random::inputs(random, made_for) };
    let inputs_told = match random.below(12) {
        0 => random.any_number() as usize,
        1 => random.between(30, 35),
        _ => made_for,
    };
    let code = bytes_of(random, &made);
    let (mut mine, mut theirs) = number_buffers(random, made.len());
    let given = calls::read_inputs(inputs_told as u16, &code, &mut mine);
    let wanted = counted(inputs::read_inputs(&code, inputs_told, &mut theirs));
    same("read inputs", &(given, mine), &(wanted, theirs), &(inputs_told, &code))?;
    tally.note("read inputs", given.refusal);

    let row = numbers_of(random, &made);
    let needed = second::code::bytes_of_numbers(&row).len();
    let (mut mine, mut theirs) = byte_buffers(random, needed);
    let given = calls::write_inputs(inputs_told as u16, &row, &mut mine);
    let wanted = counted(inputs::write_inputs(&row, inputs_told, &mut theirs));
    same("write inputs", &(given, mine), &(wanted, theirs), &(inputs_told, &row))?;
    tally.note("write inputs", given.refusal);
    Ok(())
}

fn sheets(random: &mut Random, tally: &mut Tally) -> Result<(), String> {
    let entries = random::entries(random);
    let pieces = random::pieces_of_entries(&entries);
    let bytes = match random.below(8) {
        0..=3 => random::bytes_of_pieces(&pieces),
        7 => {
            let count = random.below(60);
            random.bytes(count)
        }
        _ => random::damaged_bytes(random, &pieces),
    };
    for _ in 0..3 {
        let name = random::name_to_ask(random, &entries);
        let given = calls::find(&bytes, &name);
        let wanted = told(sheet::look_up(&bytes, &name).map(|body| (body.begin as u64, body.end as u64)));
        same("find", &given, &wanted, &(&bytes, &name))?;
        tally.note("find", given.refusal);
    }
    Ok(())
}

/// A translation, and that it is accepted as a translated requirement.
fn translations(random: &mut Random, tally: &mut Tally) -> Result<(), String> {
    let made = if random.once_in(6) {
        random::requirement_past_limit(random, Which::Untranslated)
    } else {
        random::requirement(random, Which::Untranslated)
    };
    let code = bytes_of(random, &made);
    let (mut mine, mut theirs) = byte_buffers(random, translation::ROOM);
    let given = calls::translate(&code, &mut mine);
    let wanted = counted(translation::translate(&code, &mut theirs));
    same("translate", &(given, mine.clone()), &(wanted, theirs), &code)?;
    tally.note("translate", given.refusal);
    if given.refusal == 0 {
        let read = calls::check_requirement(true, &mine[..given.first as usize]);
        same("check of a translation", &read.refusal, &0, &code)?;
    }
    Ok(())
}

/// A judging on a made trace: mostly small, some damaged, now and then on 4,096 positions.
fn judgings(random: &mut Random, tally: &mut Tally) -> Result<(), String> {
    let case = match random.below(2000) {
        0 => random::long_judging_case(random),
        1..=600 => random::damaged_judging_case(random),
        _ => random::judging_case(random),
    };
    judge_both("judge", &case, random, tally)
}

/// A judging of either kind; where it is accepted and untranslated, the translation's judging too must say the same.
fn judge_both(entry: &'static str, case: &JudgingCase, random: &mut Random, tally: &mut Tally) -> Result<(), String> {
    let (mut my_work, mut my_list) = (case.work.clone(), case.list.clone());
    let (mut their_work, mut their_list) = (case.work.clone(), case.list.clone());
    let translated = case.which == Which::Translated;
    let given = calls::judge(translated, &case.code, &case.trace, case.loop_start, &mut my_work, &mut my_list);
    let answer = judging::judge(case.which, &case.code, &case.trace, case.loop_start, &mut their_work, &mut their_list);
    let wanted = told(answer.map(|judged| (judged.holds as u64, judged.findings as u64)));
    let input = (case.which, &case.code, &case.trace, case.loop_start, case.work.len(), case.list.len());
    same(entry, &(given, my_work, my_list.clone()), &(wanted, their_work, their_list), &input)?;
    tally.note(entry, given.refusal);
    if given.refusal == 0 && !translated {
        judge_translation(case, &(given, my_list), random)?;
    }
    Ok(())
}

/// The requirement's translation on the same trace. Its judging is held against the checker's own judging of the
/// requirement, and on purpose: the translation must be answered as the requirement is.
fn judge_translation(case: &JudgingCase, judged: &(Told, Vec<u8>), random: &mut Random) -> Result<(), String> {
    let mut plain = random.bytes(translation::ROOM);
    let mut their_plain = plain.clone();
    let given = calls::translate(&case.code, &mut plain);
    let wanted = counted(translation::translate(&case.code, &mut their_plain));
    same("translate, before a judging,", &(given, &plain), &(wanted, &their_plain), &case.code)?;

    // The work that the deepest translation needs on the longest trace.
    let mut work = random.bytes(76 * 512);
    let mut list = case.list.clone();
    let code = &plain[..given.first as usize];
    let again = calls::judge(true, code, &case.trace, case.loop_start, &mut work, &mut list);
    let input = (&case.code, &case.trace, case.loop_start, case.list.len());
    same("judge of the translation", &(again, list), judged, &input)?;
    let left = work.iter().position(|byte| *byte != 0);
    same("judge of the translation, at the first byte of work that is not zero,", &left, &None, &input)
}
