//! Writes what the program `vectors_judging` is run on and what it must print, by the second program alone.
//!
//!     vectors_judging FOLDER      writes FOLDER/stdin and FOLDER/stdout
//!
//! First document 01's marked cases; then its operators, slips and refusals, sentence by sentence; then random and damaged
//! cases. A case that is written out here carries the answer that its sentence gives, and the second program must give it
//! too.

use std::fmt::Write;

use second::code::bytes_of_numbers;
use second::judging::{judge, list_needed, work_needed};
use second::random::{self, JudgingCase, Random, Shape};
use second::requirement::Which::{Translated, Untranslated};
use second::requirement::{check_requirement, Which};
use second::trace::{EXE, INPUT, OUTPUT};
use second::translation::{translate, translated_bytes, ROOM as TRANSLATING_ROOM};
use second::{Code, Refusal};

const SEED: u64 = 2;
const SMALL_CASES: usize = 110;
const DAMAGED_CASES: usize = 90;
const TRANSLATING_CASES: usize = 30;
const MIDDLE_CASES: usize = 30;
const LONG_CASES: usize = 6;

fn main() {
    let folder = std::env::args().nth(1).expect("FOLDER");
    let mut vectors = Vectors::default();
    marked_cases(&mut vectors);
    every_operator(&mut vectors);
    slips(&mut vectors);
    atoms(&mut vectors);
    trace_refusals(&mut vectors);
    requirement_refusals(&mut vectors);
    rooms(&mut vectors);
    deep_requirements(&mut vectors);
    translations(&mut vectors);
    longest_traces(&mut vectors);
    let written_out = vectors.cases;
    random_cases(&mut vectors);
    assert!(vectors.stdin.len() <= 240_000, "the program's input is that long at most");
    std::fs::write(format!("{folder}/stdin"), &vectors.stdin).expect("stdin is written");
    std::fs::write(format!("{folder}/stdout"), &vectors.stdout).expect("stdout is written");
    println!("{} cases, {written_out} of them written out; {} bytes", vectors.cases, vectors.stdin.len());
}

// ---------------------------------------------------------------------------------------------------------------------
// Records and lines
// ---------------------------------------------------------------------------------------------------------------------

/// The size of the program's buffers, the most room that it lends.
const ROOM: usize = 8192;
/// What stands in its buffers before they are lent.
const BEFORE: u8 = 165;
/// Of so many findings or bytes all are printed, of more none.
const SHOWN: usize = 40;

fn which_words(which: Which) -> &'static str {
    match which {
        Untranslated => "requirement",
        Translated => "translated",
    }
}

fn refused(number: u16, place: usize) -> String {
    format!("refused {number} at {place}")
}

fn refusal_words(refusal: Refusal) -> String {
    refused(refusal.number(), refusal.place)
}

/// A verdict, and the positions of the findings.
fn found(holds: bool, findings: &[usize]) -> String {
    let verdict = if holds { "holds" } else { "fails" };
    format!("{verdict}, findings {}:{}", findings.len(), row_words(findings))
}

fn accepted(bytes: &[u8]) -> String {
    let row: Vec<usize> = bytes.iter().map(|byte| *byte as usize).collect();
    format!("accepted {}:{}", row.len(), row_words(&row))
}

fn row_words(row: &[usize]) -> String {
    let mut words = String::new();
    if row.len() <= SHOWN {
        for value in row {
            write!(words, " {value}").expect("a string takes all");
        }
    }
    words
}

/// Changes with every byte of a buffer and with its place.
fn checksum(buffer: &[u8]) -> u64 {
    buffer.iter().fold(0, |sum, byte| (sum * 257 + *byte as u64) % 4294967291)
}

/// The records, and the line for each.
#[derive(Default)]
struct Vectors {
    stdin: Vec<u8>,
    stdout: String,
    cases: usize,
}

impl Vectors {
    fn record(&mut self, command: u8, numbers: [usize; 3], code: &[u8], trace: &[u8], line: String) {
        self.stdin.push(command);
        for number in numbers.into_iter().chain([code.len(), trace.len()]) {
            self.stdin.extend(u16::try_from(number).expect("two bytes").to_le_bytes());
        }
        self.stdin.extend(code);
        self.stdin.extend(trace);
        self.stdout.push_str(&line);
        self.stdout.push('\n');
        self.cases += 1;
    }

    /// A judging with so many bytes of work and of list.
    fn judge(&mut self, which: Which, code: &[u8], lasso: &Lasso, room: (usize, usize)) -> String {
        let mut work = [BEFORE; ROOM];
        let mut list = [BEFORE; ROOM];
        let (lent, lent_list) = (room.0.min(ROOM), room.1.min(ROOM));
        let (trace, start) = (&lasso.trace, lasso.start);
        let judged = judge(which, code, trace, start, &mut work[..lent], &mut list[..lent_list]);
        let answer = match judged {
            Ok(judged) => found(judged.holds, &positions(&list[..2 * judged.findings])),
            Err(refusal) => refusal_words(refusal),
        };
        let asked = format!("judge {} loop {start} work {lent} list {lent_list}", which_words(which));
        let line = format!("{asked}: {answer}; work {} list {}", checksum(&work), checksum(&list));
        let (command, along) = match which {
            Untranslated if start > usize::MAX / 2 => (2, usize::MAX - start),
            Untranslated => (0, start),
            Translated => (1, start),
        };
        self.record(command, [along, room.0, room.1], code, trace, line);
        answer
    }

    /// A judging with all the room that there is.
    fn ask(&mut self, which: Which, code: &[u8], lasso: &Lasso) -> String {
        self.judge(which, code, lasso, (ROOM, ROOM))
    }

    /// A judging of the requirement and of its translation, which must give the same.
    fn hold_or_find(&mut self, code: &[u8], lasso: &Lasso, holds: bool, findings: &[usize]) {
        assert_eq!(self.ask(Untranslated, code, lasso), found(holds, findings), "{code:?} {lasso:?}");
        assert_eq!(self.ask(Translated, &translation(code), lasso), found(holds, findings), "{code:?} {lasso:?}");
    }

    /// A judging that is refused, with the work and the list that are lent.
    fn refuse(&mut self, code: &[u8], lasso: &Lasso, room: (usize, usize), number: u16, place: usize) {
        assert_eq!(self.judge(Untranslated, code, lasso, room), refused(number, place), "{code:?} {lasso:?}");
    }

    fn translate(&mut self, room: usize, code: &[u8]) -> String {
        let mut buffer = [BEFORE; ROOM];
        let lent = room.min(ROOM);
        let answer = match translate(code, &mut buffer[..lent]) {
            Ok(count) => accepted(&buffer[..count]),
            Err(refusal) => refusal_words(refusal),
        };
        let line = format!("translate room {lent}: {answer}; buffer {}", checksum(&buffer));
        self.record(3, [0, room, 0], code, &[], line);
        answer
    }
}

/// "the list holds 2-byte positions, low byte first"
fn positions(list: &[u8]) -> Vec<usize> {
    list.chunks(2).map(|pair| pair[0] as usize + 256 * pair[1] as usize).collect()
}

fn translation(code: &[u8]) -> Vec<u8> {
    translated_bytes(&check_requirement(Code::Bytes(code), Untranslated).expect("well-formed").tree)
}

#[derive(Clone, Debug)]
struct Lasso {
    trace: Vec<u8>,
    start: usize,
}

impl Lasso {
    fn new(trace: &[u8], start: usize) -> Lasso {
        Lasso { trace: trace.to_vec(), start }
    }

    /// Each position by its phase and its atoms 0 to 7.
    fn of(positions: &[(u8, u8)], start: usize) -> Lasso {
        Lasso { trace: positions.iter().flat_map(|(phase, atoms)| [*phase, *atoms, 0, 0, 0]).collect(), start }
    }

    fn of_phases(phases: &[u8], start: usize) -> Lasso {
        let positions: Vec<(u8, u8)> = phases.iter().map(|phase| (*phase, 0)).collect();
        Lasso::of(&positions, start)
    }

    fn count(&self) -> usize {
        self.trace.len() / 5
    }

    /// The lasso of the run that begins at that position: from there to the end, then the loop.
    fn from(&self, position: usize) -> Lasso {
        let trace = [&self.trace[5 * position..], &self.trace[5 * self.start..]].concat();
        Lasso { trace, start: self.count() - position }
    }
}

// ---------------------------------------------------------------------------------------------------------------------
// Document 01's marked cases
// ---------------------------------------------------------------------------------------------------------------------

/// "Twelve positions, loop start 4; Input at 1, 5, 9; Output at 0, 4, 8; atom 0 at 5 to 8, atom 1 at 8 to 11."
const BENCH: [(u8, u8); 12] = [
    (OUTPUT, 0),
    (INPUT, 0),
    (EXE, 0),
    (EXE, 0),
    (OUTPUT, 0),
    (INPUT, 1),
    (EXE, 1),
    (EXE, 1),
    (OUTPUT, 3),
    (INPUT, 2),
    (EXE, 2),
    (EXE, 2),
];

fn bench() -> Lasso {
    Lasso::of(&BENCH, 4)
}

/// "not(a0 and not a1)"
const M1: [u8; 7] = [1, 2, 0, 0, 1, 0, 1];
/// Its work on the bench trace: depth 4, rows of 2 bytes. Its list: three Inputs.
const M1_ROOM: (usize, usize) = (8, 6);
const X: u8 = 8;

/// The requirement at that position of the bench trace: so many plain X in front of it.
fn later(position: usize, code: &[u8]) -> Vec<u8> {
    [vec![X; position], code.to_vec()].concat()
}

fn marked_cases(vectors: &mut Vectors) {
    // "verdict holds", "fails 1", "at 5": "M1 that finding."
    vectors.hold_or_find(&M1, &bench(), true, &[5]);
    assert_eq!(vectors.judge(Untranslated, &M1, &bench(), M1_ROOM), found(true, &[5]));
    // "M2 G^i not(a0 and not X^i a1) holds at 0."
    vectors.hold_or_find(&[18, 1, 2, 0, 0, 1, 16, 0, 1], &bench(), true, &[]);
    // "M3 plain G of M1's requirement fails at 0;"
    vectors.hold_or_find(&[&[10], &M1[..]].concat(), &bench(), false, &[1, 5, 9]);
    // "M4 its G^o holds."
    vectors.hold_or_find(&[&[22], &M1[..]].concat(), &bench(), true, &[]);
    // "M5 X^i a1 at 6 fails." "M6 X^i a1 at 5 holds."
    vectors.hold_or_find(&[16, 0, 1], &bench(), false, &[1, 9]);
    marked_at(vectors, &[16, 0, 1], 6, false);
    marked_at(vectors, &[16, 0, 1], 5, true);
    // "M7 G^e a0 at 5 fails; M8 at 6 holds." "M9 G^e a0 at 8 holds,"
    vectors.hold_or_find(&[14, 0, 0], &bench(), true, &[1, 5, 9]);
    marked_at(vectors, &[14, 0, 0], 5, false);
    marked_at(vectors, &[14, 0, 0], 6, true);
    marked_at(vectors, &[14, 0, 0], 8, true);
    // M9 "F^e a0 at 8 fails."
    vectors.hold_or_find(&[13, 0, 0], &bench(), false, &[1, 9]);
    marked_at(vectors, &[13, 0, 0], 8, false);
    // "M10 X^e a0 at 4 fails."
    vectors.hold_or_find(&[12, 0, 0], &bench(), false, &[1, 9]);
    marked_at(vectors, &[12, 0, 0], 4, false);
    // "M11 X^i a1 translates to 11 1 3 2 3 8 11 1 3 2 3 0 1."
    let m11 = [11, 1, 3, 2, 3, 8, 11, 1, 3, 2, 3, 0, 1];
    assert_eq!(vectors.translate(TRANSLATING_ROOM, &[16, 0, 1]), accepted(&m11));
    assert_eq!(vectors.ask(Translated, &m11, &bench()), found(false, &[1, 9]));
}

/// The verdict at a position of the bench trace, asked in two ways: by so many X, and of the run that begins there.
fn marked_at(vectors: &mut Vectors, code: &[u8], position: usize, holds: bool) {
    for (code, lasso) in [(later(position, code), bench()), (code.to_vec(), bench().from(position))] {
        let answer = vectors.ask(Untranslated, &code, &lasso);
        assert_eq!(answer.starts_with("holds"), holds, "{answer} {code:?}");
        assert_eq!(vectors.ask(Translated, &translation(&code), &lasso), answer);
    }
}

// ---------------------------------------------------------------------------------------------------------------------
// Operators
// ---------------------------------------------------------------------------------------------------------------------

/// For each operator where it is true on the bench trace, of a0 or of a0 and a1, by its sentence.
const OPERATORS: [(&[u8], &str); 24] = [
    // "plain X, F, G, U 8 to 11": "as in 000"
    (&[8, 0, 0], "0000 1111 0000"),
    (&[9, 0, 0], "1111 1111 1111"),
    (&[10, 0, 0], "0000 0000 0000"),
    (&[11, 0, 0, 0, 1], "0000 0111 1111"),
    // "e operators 12 to 15": "the e operators look below the first Output at or after the moment". "At an Output, G^e
    // holds and F^e, U^e and X^e fail. At an Input, G^e and U^e fail and F^e may hold."
    (&[12, 0, 0], "0000 0110 0000"),
    (&[13, 0, 0], "0000 0111 0000"),
    (&[14, 0, 0], "1000 1011 1000"),
    (&[15, 0, 0, 0, 1], "0000 0000 0011"),
    // "For i operators the input sequence begins at the first Input at or after the moment; X^i is the second of that
    // sequence."
    (&[16, 0, 0], "1100 0011 1100"),
    (&[17, 0, 0], "1111 1111 1111"),
    (&[18, 0, 0], "0000 0000 0000"),
    (&[19, 0, 0, 0, 1], "0011 1111 1111"),
    // "o likewise with Output."
    (&[20, 0, 0], "0111 1000 0111"),
    (&[21, 0, 0], "1111 1111 1111"),
    (&[22, 0, 0], "0000 0000 0000"),
    (&[23, 0, 0, 0, 1], "0000 0111 1000"),
    // F of (a0 and a1), which is at the Output 8 alone, and G of its contrary, in each family
    (&[9, 2, 0, 0, 0, 1], "1111 1111 1111"),
    (&[10, 1, 2, 0, 0, 0, 1], "0000 0000 0000"),
    (&[13, 2, 0, 0, 0, 1], "0000 0000 0000"),
    (&[14, 1, 2, 0, 0, 0, 1], "1011 1011 1011"),
    (&[17, 2, 0, 0, 0, 1], "0000 0000 0000"),
    (&[18, 1, 2, 0, 0, 0, 1], "1111 1111 1111"),
    (&[21, 2, 0, 0, 0, 1], "1111 1111 1111"),
    (&[22, 1, 2, 0, 0, 0, 1], "0000 0000 0000"),
];

/// "Position 0 may have any phase": the run from each position of the bench trace on.
fn every_operator(vectors: &mut Vectors) {
    for (code, digits) in OPERATORS {
        let truth: Vec<bool> = digits.chars().filter(|digit| *digit != ' ').map(|digit| digit == '1').collect();
        for position in 0..BENCH.len() {
            let stored: Vec<usize> = (position..BENCH.len()).chain(bench().start..BENCH.len()).collect();
            let failing = |index: &usize| BENCH[stored[*index]].0 == INPUT && !truth[stored[*index]];
            let findings: Vec<usize> = (0..stored.len()).filter(failing).collect();
            let answer = vectors.ask(Untranslated, code, &bench().from(position));
            assert_eq!(answer, found(truth[position], &findings), "{code:?} at {position}");
        }
    }
    // "Boolean": the marks, not and and. "The two are independent"
    vectors.hold_or_find(&[3], &bench(), false, &[]);
    vectors.hold_or_find(&[4], &bench(), false, &[1, 5, 9]);
    vectors.hold_or_find(&[5], &bench(), true, &[1, 5, 9]);
    vectors.hold_or_find(&[1, 2, 3, 5], &bench(), true, &[]);
    vectors.hold_or_find(&[2, 3, 5], &bench(), false, &[1, 5, 9]);
    vectors.hold_or_find(&[10, 1, 2, 3, 5], &bench(), true, &[]);
    vectors.hold_or_find(&[0, 0], &bench(), false, &[1, 9]);
    vectors.hold_or_find(&[1, 0, 0], &bench(), true, &[5]);
}

// ---------------------------------------------------------------------------------------------------------------------
// Slips
// ---------------------------------------------------------------------------------------------------------------------

fn slips(vectors: &mut Vectors) {
    // "An until that is granted by going round the loop for ever.": a0 is everywhere, a1 nowhere
    let for_ever = Lasso::of(&[(OUTPUT, 1), (INPUT, 1), (EXE, 1)], 0);
    for until in [11, 15, 19, 23] {
        vectors.hold_or_find(&[until, 0, 0, 0, 1], &for_ever, false, &[1]);
    }
    // The same, but for a1 at the Input before the loop: fulfilled there, and never in the loop.
    let once = Lasso::of(&[(OUTPUT, 1), (INPUT, 3), (EXE, 1), (OUTPUT, 1), (INPUT, 1), (EXE, 1)], 3);
    for (until, holds, findings) in [(11, true, &[4][..]), (15, false, &[1, 4]), (19, true, &[4]), (23, false, &[1, 4])]
    {
        vectors.hold_or_find(&[until, 0, 0, 0, 1], &once, holds, findings);
    }
    // "X^i from an Exe state taken as the nearest Input.": with Inputs at 1 and 4, X^i at 0 is that at 4
    let two = Lasso::of(&[(EXE, 0), (OUTPUT, 0), (INPUT, 1), (EXE, 0), (OUTPUT, 0), (INPUT, 0), (EXE, 0)], 1);
    vectors.hold_or_find(&[16, 0, 0], &two, false, &[2]);
    vectors.hold_or_find(&[16, 1, 0, 0], &two, true, &[5]);
    join_slips(vectors);
}

/// "Walking the loop once only, so that F misses what lies before the join."
fn join_slips(vectors: &mut Vectors) {
    // a0 at the Output alone, which the Input meets across the join only
    let output = Lasso::of(&[(OUTPUT, 1), (INPUT, 0), (EXE, 0)], 0);
    for (finally, findings) in [(9, &[][..]), (13, &[1]), (17, &[1]), (21, &[])] {
        vectors.hold_or_find(&[finally, 0, 0], &output, finally == 9 || finally == 21, findings);
    }
    // a0 at the first of two Inputs: in the loop the second meets it across the join, and not if the loop begins after it
    let scans = [(OUTPUT, 0), (INPUT, 1), (EXE, 0), (OUTPUT, 0), (INPUT, 0), (EXE, 0)];
    for finally in [9, 17] {
        vectors.hold_or_find(&[finally, 0, 0], &Lasso::of(&scans, 0), true, &[]);
        vectors.hold_or_find(&[finally, 0, 0], &Lasso::of(&scans, 3), true, &[4]);
    }
    // The join inside a scan: the Exe at 5 is followed by that at 2, which alone has a0.
    let inside = Lasso::of(&[(INPUT, 0), (EXE, 0), (EXE, 1), (OUTPUT, 0), (INPUT, 0), (EXE, 0)], 2);
    vectors.hold_or_find(&[13, 0, 0], &inside, true, &[]);
    vectors.hold_or_find(&[8, 14, 0, 0], &inside, false, &[0, 4]);
    vectors.hold_or_find(&[8, 8, 14, 0, 0], &inside, true, &[]);
    vectors.hold_or_find(&[8, 15, 4, 0, 0], &inside, true, &[]);
    // "X^i may go round the loop: with one Input in the loop the second of the sequence is the same stored position a lap
    // later."
    let one = Lasso::of(&[(OUTPUT, 0), (INPUT, 1), (EXE, 0)], 0);
    vectors.hold_or_find(&[16, 0, 0], &one, true, &[]);
    vectors.hold_or_find(&[16, 1, 0, 0], &one, false, &[1]);
    vectors.hold_or_find(&[16, 16, 16, 0, 0], &one, true, &[]);
    vectors.hold_or_find(&[20, 0, 0], &one, false, &[1]);
    // Before the loop an Input without a0, in it one with a0.
    let one_later = Lasso::of(&[(OUTPUT, 0), (INPUT, 0), (EXE, 0), (OUTPUT, 0), (INPUT, 1), (EXE, 0)], 3);
    vectors.hold_or_find(&[16, 0, 0], &one_later, true, &[]);
    vectors.hold_or_find(&[0, 0], &one_later, false, &[1]);
}

/// "then 32 atoms, atom 0 the lowest bit, low byte first"; "Atom bits without a test in a lent trace are taken as they
/// are."
fn atoms(vectors: &mut Vectors) {
    for atom in 0..32 {
        let bits = (1u32 << atom).to_le_bytes();
        let lasso = Lasso::new(&[&[INPUT], &bits[..], &[EXE, 0, 0, 0, 0, OUTPUT], &[255; 4]].concat(), 0);
        vectors.hold_or_find(&[0, atom], &lasso, true, &[]);
        vectors.hold_or_find(&[0, (atom + 1) % 32], &lasso, false, &[0]);
    }
}

// ---------------------------------------------------------------------------------------------------------------------
// Refusals
// ---------------------------------------------------------------------------------------------------------------------

const ALL: (usize, usize) = (ROOM, ROOM);
const NONE: (usize, usize) = (0, 0);

/// "9 | in this order: ..."
fn trace_refusals(vectors: &mut Vectors) {
    // "trace length 0, over 20,480 or not a multiple of 5 (place: length)"
    let whole = bench();
    vectors.refuse(&M1, &Lasso::new(&[], 0), ALL, 9, 0);
    for length in [1, 4, 6, 56, 57, 58, 59] {
        vectors.refuse(&M1, &Lasso::new(&whole.trace[..length], 4), ALL, 9, length);
    }
    vectors.refuse(&M1, &Lasso::new(&[2; 20485], 0), NONE, 9, 20485);
    // "loop start not below the position count (place: that count)"
    for start in [12, 13, 59, 60, 65535, usize::MAX, usize::MAX - 1, usize::MAX - 11] {
        vectors.refuse(&M1, &Lasso { start, ..whole.clone() }, ALL, 9, 12);
    }
    phase_refusals(vectors);
    // "no Output in the loop (loop start)"
    for (phases, start) in [(&[OUTPUT, INPUT, EXE, EXE][..], 2), (&[OUTPUT, INPUT, EXE, EXE], 3), (&[EXE], 0)] {
        vectors.refuse(&M1, &Lasso::of_phases(phases, start), ALL, 9, start);
    }
    vectors.refuse(&M1, &Lasso { start: 10, ..whole.clone() }, ALL, 9, 10);
    vectors.refuse(&M1, &Lasso { start: 11, ..whole.clone() }, ALL, 9, 11);
    // The order: length, loop start, phases, Output.
    vectors.refuse(&M1, &Lasso::new(&[9; 7], 9), NONE, 9, 7);
    vectors.refuse(&M1, &Lasso::new(&[9; 10], 2), NONE, 9, 2);
    vectors.refuse(&M1, &Lasso::of_phases(&[OUTPUT, OUTPUT, EXE], 2), NONE, 9, 0);
    vectors.refuse(&M1, &Lasso::of_phases(&[EXE, EXE, INPUT], 2), NONE, 9, 1);
}

/// "bad phase or followed by a phase not allowed (first such position)"
fn phase_refusals(vectors: &mut Vectors) {
    // "Output is followed by Input, Input by Exe, Exe by Exe or Output, at the join too": position 0 is followed by
    // position 1, and that by what makes a loop of it
    for phase in [INPUT, EXE, OUTPUT] {
        for next in [INPUT, EXE, OUTPUT, 3] {
            let mut phases = vec![phase, next];
            phases.extend(rest_of_scan(next));
            let start = phases.len() - 3;
            let allowed = [(OUTPUT, INPUT), (INPUT, EXE), (EXE, EXE), (EXE, OUTPUT)].contains(&(phase, next));
            let answer = vectors.ask(Untranslated, &[3], &Lasso::of_phases(&phases, start));
            assert_eq!(answer == refused(9, 0), !allowed, "{phases:?}");
            // The same two at the join: the last position, and the loop start.
            let mut joined = vec![next];
            joined.extend(rest_of_scan(next));
            joined.extend(way_to(joined[joined.len() - 1], phase));
            if next <= OUTPUT {
                let last = joined.len() - 1;
                let answer = vectors.ask(Untranslated, &[3], &Lasso::of_phases(&joined, 0));
                assert_eq!(answer == refused(9, last), !allowed, "{joined:?}");
            }
        }
    }
    // "a bad phase at p > 0 is found at p - 1, which it follows; phases 2, 0, 7 with loop start 0 give 1."
    vectors.refuse(&M1, &Lasso::of_phases(&[2, 0, 7], 0), ALL, 9, 1);
    for bad in [3, 7, 128, 255] {
        for position in 1..BENCH.len() {
            let mut lasso = bench();
            lasso.trace[5 * position] = bad;
            vectors.refuse(&M1, &lasso, ALL, 9, position - 1);
        }
        // "Only a bad phase at position 0 is found at 0."
        let mut lasso = bench();
        lasso.trace[0] = bad;
        vectors.refuse(&M1, &lasso, ALL, 9, 0);
        vectors.refuse(&M1, &Lasso::of_phases(&[bad], 0), ALL, 9, 0);
    }
    // "The last position is followed by the loop start.": an Exe by an Input
    for start in [1, 5, 9] {
        vectors.refuse(&M1, &Lasso { start, ..bench() }, ALL, 9, 11);
    }
    vectors.refuse(&M1, &Lasso::new(&bench().trace[..50], 4), ALL, 9, 9);
    vectors.refuse(&M1, &Lasso::of_phases(&[INPUT], 0), ALL, 9, 0);
    vectors.refuse(&M1, &Lasso::of_phases(&[OUTPUT], 0), ALL, 9, 0);
}

/// What may follow that phase, up to the end of a scan of which the last three positions are a loop.
fn rest_of_scan(phase: u8) -> Vec<u8> {
    match phase {
        INPUT => vec![EXE, OUTPUT, INPUT, EXE],
        OUTPUT => vec![INPUT, EXE, OUTPUT, INPUT, EXE],
        _ => vec![OUTPUT, INPUT, EXE],
    }
}

/// From an Exe to that phase.
fn way_to(from: u8, phase: u8) -> Vec<u8> {
    assert_eq!(from, EXE);
    match phase {
        INPUT => vec![OUTPUT, INPUT],
        OUTPUT => vec![OUTPUT],
        _ => vec![EXE],
    }
}

/// "Judging checks: requirement, trace, work buffer [...], list buffer": each with all the later faults as well.
fn requirement_refusals(vectors: &mut Vectors) {
    let deep = [vec![1; 16], vec![3]].concat();
    let wide = [vec![2; 7], vec![3]].concat();
    let faults: [(&[u8], u16, usize); 10] = [
        // "1 | number cut short or missing, not shortest, over 65,535; [...] bytes left over"
        (&[], 1, 0),
        (&[2, 0, 0], 1, 3),
        (&[1, 0x80, 0x00], 1, 1),
        (&[1, 0x80, 0x80, 0x04], 1, 1),
        (&[3, 3], 1, 1),
        (&wide, 1, 8),
        // "3 | requirement: tag unknown or not allowed, atom above 31"
        (&[24], 3, 0),
        (&[2, 3, 7], 3, 2),
        (&[1, 0, 32], 3, 2),
        // "4 | node or depth limit passed, at that node's tag"
        (&deep, 4, 16),
    ];
    let traces = [Lasso::new(&[], 0), Lasso { start: 12, ..bench() }, Lasso { start: 10, ..bench() }, bench()];
    for (code, number, place) in faults {
        for lasso in &traces {
            vectors.refuse(code, lasso, NONE, number, place);
        }
        vectors.refuse(code, &bench(), ALL, number, place);
        assert_eq!(vectors.translate(TRANSLATING_ROOM, code), refused(number, place));
        // "Translating checks: room under 1,408 bytes, requirement."
        assert_eq!(vectors.translate(TRANSLATING_ROOM - 1, code), refused(10, TRANSLATING_ROOM));
    }
    // "A translated requirement has tags up to 11 only, at most 704 nodes, depth 76; the caller says which"
    assert_eq!(vectors.ask(Translated, &[1, 12, 3], &bench()), refused(3, 1));
    assert_eq!(vectors.ask(Translated, &deep, &bench()), found(false, &[]));
    assert_eq!(vectors.ask(Translated, &[vec![1; 76], vec![3]].concat(), &bench()), refused(4, 76));
    assert_eq!(vectors.judge(Translated, &[16, 3], &Lasso::new(&[], 0), NONE), refused(3, 0));
}

/// "10 | a lent buffer too short | bytes needed"
fn rooms(vectors: &mut Vectors) {
    // "work buffer under depth times row bytes (positions over 8, rounded up)": "the requirement's own depth (not the limit)"
    for (code, depth) in [(&M1[..], 4), (&[3], 1), (&[8, 8, 8, 8, 8, 8, 8, 8, 8, 8, 8, 8, 8, 8, 8, 3], 16)] {
        let work = 2 * depth;
        for short in [0, 1, work - 1] {
            vectors.refuse(code, &bench(), (short, 6), 10, work);
            vectors.refuse(code, &bench(), (short, 0), 10, work);
        }
        // "list buffer under 2 bytes per Input position": "whether or not it fails"
        for short in [0, 1, 4, 5] {
            vectors.refuse(code, &bench(), (work, short), 10, 6);
        }
        for enough in [(work, 6), (work + 1, 7), (ROOM, 6), (work, ROOM)] {
            assert!(!vectors.judge(Untranslated, code, &bench(), enough).starts_with("refused"));
        }
    }
    // "positions over 8, rounded up": 7, 8 and 9 positions, and so on
    for count in [3, 7, 8, 9, 15, 16, 17, 31, 32, 33, 39, 40, 41, 63, 64, 65] {
        let lasso = one_scan(count);
        let row = (count + 7) / 8;
        vectors.refuse(&[8, 13, 0, 0], &lasso, (3 * row - 1, 2), 10, 3 * row);
        vectors.refuse(&[8, 13, 0, 0], &lasso, (3 * row, 1), 10, 2);
        // Only the last position has a0: F^e meets it from the Input and from the Exe after that.
        assert_eq!(vectors.judge(Untranslated, &[8, 13, 0, 0], &lasso, (3 * row, 2)), found(true, &[]));
        vectors.hold_or_find(&[14, 1, 0, 0], &lasso, true, &[1]);
        vectors.hold_or_find(&[11, 1, 0, 0, 0, 0], &lasso, true, &[]);
        vectors.hold_or_find(&[11, 1, 0, 0, 5], &lasso, true, &[1]);
        vectors.hold_or_find(&[9, 2, 0, 0, 8, 5], &lasso, true, &[]);
        vectors.hold_or_find(&[9, 2, 0, 0, 8, 4], &lasso, false, &[1]);
    }
}

/// An Output, an Input and otherwise Exe, all of it the loop; a0 at the last position alone.
fn one_scan(count: usize) -> Lasso {
    let mut positions = vec![(EXE, 0); count];
    positions[0] = (OUTPUT, 0);
    positions[1] = (INPUT, 0);
    positions[count - 1] = (EXE, 1);
    Lasso::of(&positions, 0)
}

// ---------------------------------------------------------------------------------------------------------------------
// Depth, translations and length
// ---------------------------------------------------------------------------------------------------------------------

/// "depth 16", "depth 76", with work that is exactly enough.
fn deep_requirements(vectors: &mut Vectors) {
    let lasso = bench();
    // Fifteen X^i: at the Inputs 1, 5 and 9 the fifteenth Input after it is that at 5, 9 and 5.
    let next = [vec![16; 15], vec![0, 1]].concat();
    assert_eq!(vectors.judge(Untranslated, &next, &lasso, (32, 6)), found(false, &[1, 9]));
    let depth = check_requirement(Code::Bytes(&translation(&next)), Translated).expect("well-formed").depth;
    assert_eq!(depth, 76);
    assert_eq!(vectors.judge(Translated, &translation(&next), &lasso, (152, 6)), found(false, &[1, 9]));
    assert_eq!(vectors.judge(Translated, &translation(&next), &lasso, (151, 6)), refused(10, 152));
    assert!(vectors.translate(TRANSLATING_ROOM, &next).starts_with("accepted 167:"));
    // a0 U (a0 U ( .. a1)) and ((a0 U a1) U .. ) U a1 are both a0 U a1.
    let right = [[11, 0, 0].repeat(15), vec![0, 1]].concat();
    let left = [vec![11; 15], vec![0, 0], [0, 1].repeat(15)].concat();
    for code in [right, left] {
        for which in [Untranslated, Translated] {
            assert_eq!(vectors.judge(which, &code, &lasso, (32, 6)), found(false, &[1]));
        }
    }
    // 75 times not, and 75 times and, over a0.
    let nots = [vec![1; 75], vec![0, 0]].concat();
    assert_eq!(vectors.judge(Translated, &nots, &lasso, (152, 6)), found(true, &[5]));
    let ands = [[2, 0, 0].repeat(75), vec![0, 0]].concat();
    assert_eq!(vectors.judge(Translated, &ands, &lasso, (152, 6)), found(false, &[1, 9]));
    // "at most 64 nodes": 63 operators in six levels over 64 marks are too many, 31 over 32 are not.
    let full =
        |levels: usize| -> Vec<u8> { (0..levels).fold(vec![5], |below, _| [vec![23], below.clone(), below].concat()) };
    assert_eq!(vectors.judge(Untranslated, &full(5), &lasso, (12, 6)), found(true, &[]));
    vectors.refuse(&full(6), &lasso, ALL, 4, 64);
    assert_eq!(vectors.ask(Translated, &translation(&full(5)), &lasso), found(true, &[]));
}

/// "Translation, operands translated first": each line of it.
fn translations(vectors: &mut Vectors) {
    let forms: [(&[u8], &[u8]); 21] = [
        (&[0, 31], &[0, 31]),
        (&[1, 3], &[1, 3]),
        (&[2, 4, 5], &[2, 4, 5]),
        (&[8, 0, 0], &[8, 0, 0]),
        (&[9, 0, 0], &[9, 0, 0]),
        (&[10, 0, 0], &[10, 0, 0]),
        (&[11, 0, 0, 0, 1], &[11, 0, 0, 0, 1]),
        // "X^e f: X(Exe and f)."
        (&[12, 0, 0], &[8, 2, 4, 0, 0]),
        // "F^e f: (not Output) U (Exe and f)."
        (&[13, 0, 0], &[11, 1, 5, 2, 4, 0, 0]),
        // "G^e f: (f and Exe) U Output."
        (&[14, 0, 0], &[11, 2, 0, 0, 4, 5]),
        // "f U^e g: (f and Exe) U (g and Exe)."
        (&[15, 0, 0, 0, 1], &[11, 2, 0, 0, 4, 2, 0, 1, 4]),
        // "X^i f: (not Input) U (Input and X((not Input) U (Input and f)))."
        (&[16, 0, 0], &[11, 1, 3, 2, 3, 8, 11, 1, 3, 2, 3, 0, 0]),
        // "F^i f: F(Input and f)."
        (&[17, 0, 0], &[9, 2, 3, 0, 0]),
        // "G^i f: G(Input implies f).": "'p implies q' written not(p and not q)"
        (&[18, 0, 0], &[10, 1, 2, 3, 1, 0, 0]),
        // "f U^i g: (Input implies f) U (Input and g)."
        (&[19, 0, 0, 0, 1], &[11, 1, 2, 3, 1, 0, 0, 2, 3, 0, 1]),
        // "o with Output."
        (&[20, 0, 0], &[11, 1, 5, 2, 5, 8, 11, 1, 5, 2, 5, 0, 0]),
        (&[21, 0, 0], &[9, 2, 5, 0, 0]),
        (&[22, 0, 0], &[10, 1, 2, 5, 1, 0, 0]),
        (&[23, 0, 0, 0, 1], &[11, 1, 2, 5, 1, 0, 0, 2, 5, 0, 1]),
        // "operands translated first"
        (&[12, 14, 4], &[8, 2, 4, 11, 2, 4, 4, 5]),
        (&[15, 17, 3, 21, 5], &[11, 2, 9, 2, 3, 3, 4, 2, 9, 2, 5, 5, 4]),
    ];
    for (code, target) in forms {
        assert_eq!(vectors.translate(TRANSLATING_ROOM, code), accepted(target));
        assert_eq!(vectors.ask(Translated, target, &bench()), vectors.ask(Untranslated, code, &bench()));
    }
    // "room under 1,408 bytes": "translating asks 1,408 whatever the length"
    for room in [0, 1, 2, 1407] {
        assert_eq!(vectors.translate(room, &[3]), refused(10, TRANSLATING_ROOM));
    }
    assert_eq!(vectors.translate(1409, &[3]), accepted(&[3]));
    assert_eq!(vectors.translate(ROOM, &[3]), accepted(&[3]));
    // "At most 64 nodes, depth 16": 55 X^i and 4 U^i over 5 atoms
    let chain = |length: usize| [vec![16; length], vec![0, 31]].concat();
    let full = [vec![19, 19], chain(13), chain(13), vec![19], chain(13), vec![19], chain(8), chain(8)].concat();
    let requirement = check_requirement(Code::Bytes(&full), Untranslated).expect("well-formed");
    assert_eq!((requirement.node_count, requirement.depth), (64, 16));
    assert!(vectors.translate(TRANSLATING_ROOM, &full).starts_with("accepted 643:"));
    vectors.ask(Translated, &translation(&full), &bench());
}

/// "At most 4,096 positions.": work and list at their longest, findings above 255.
fn longest_traces(vectors: &mut Vectors) {
    let phases: Vec<u8> = (0..4096).map(|position| [EXE, EXE, OUTPUT, INPUT][position % 4]).collect();
    let mut lasso = Lasso::of_phases(&phases, 0);
    lasso.trace[5 * 4095 + 1] = 1;
    // a0 at the last position, an Input, alone; depth 16, so 8,192 bytes of work
    let code = [vec![1; 14], vec![0, 0]].concat();
    assert_eq!(vectors.judge(Untranslated, &[&[1], &code[..]].concat(), &lasso, (ROOM - 1, 2048)), refused(10, 8192));
    let inputs: Vec<usize> = (0..1023).map(|scan| 4 * scan + 3).collect();
    assert_eq!(vectors.judge(Untranslated, &[&[17], &code[..]].concat(), &lasso, (ROOM, 2048)), found(true, &[]));
    assert_eq!(vectors.judge(Untranslated, &[0, 0], &lasso, (512, 2048)), found(false, &inputs));
}

// ---------------------------------------------------------------------------------------------------------------------
// Random and damaged cases
// ---------------------------------------------------------------------------------------------------------------------

fn random_cases(vectors: &mut Vectors) {
    let mut random = Random::new(SEED);
    for _ in 0..SMALL_CASES {
        random_case(vectors, random::judging_case(&mut random));
    }
    for _ in 0..DAMAGED_CASES {
        random_case(vectors, random::damaged_judging_case(&mut random));
    }
    for _ in 0..TRANSLATING_CASES {
        let case = random::translating_case(&mut random);
        vectors.translate(case.buffer.len(), &case.code);
    }
    for _ in 0..MIDDLE_CASES {
        lasso_case(vectors, &mut random, 15, 100);
    }
    for _ in 0..LONG_CASES {
        lasso_case(vectors, &mut random, 300, 1000);
    }
}

fn random_case(vectors: &mut Vectors, case: JudgingCase) {
    let lasso = Lasso { trace: case.trace, start: case.loop_start };
    vectors.judge(case.which, &case.code, &lasso, (case.work.len(), case.list.len()));
}

/// Either kind of requirement on a lasso of so many positions, with work and list that are exactly enough.
fn lasso_case(vectors: &mut Vectors, random: &mut Random, least: usize, most: usize) {
    let which = random.pick(&[Untranslated, Translated]);
    let code = bytes_of_numbers(&random::judged_requirement(random, which));
    let depth = check_requirement(Code::Bytes(&code), which).expect("well-formed").depth;
    loop {
        let made = random::lasso_of_shape(random, Shape::Any, most);
        let count = made.trace.len() / 5;
        if least <= count {
            let room = (work_needed(depth, count), list_needed(&made.trace));
            vectors.judge(which, &code, &Lasso { trace: made.trace, start: made.loop_start }, room);
            return;
        }
    }
}
