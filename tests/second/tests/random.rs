//! The makers make what they say, and the damagers reach every refusal at many places.

use std::collections::{BTreeMap, BTreeSet};

use second::code::bytes_of_numbers;
use second::inputs::{check_inputs, read_inputs, write_inputs};
use second::judging::{list_needed, work_needed};
use second::number::{read_number, spelled};
use second::random::{self as make, Field, MadeTrace, Random};
use second::requirement::Which::{Translated, Untranslated};
use second::requirement::{check_requirement, read_requirement, write_requirement, Node, Which};
use second::sheet::{check_sheet, look_up};
use second::table::{check_table, read_table, write_table, MOST_PROCESSES};
use second::trace::check_trace;
use second::{Cause, Code, Refusal};

/// The same seed gives the same, another seed another.
#[test]
fn generator_is_seeded() {
    assert_eq!(Random::new(1).bytes(20), Random::new(1).bytes(20));
    assert_ne!(Random::new(1).bytes(20), Random::new(2).bytes(20));
    let mut random = Random::new(7);
    let met: BTreeSet<usize> = (0..1000).map(|_| random.between(3, 9)).collect();
    assert_eq!(met, (3..=9).collect());
}

/// The shape of a made requirement: node count and depth.
fn shape(numbers: &[u16], which: Which) -> (usize, usize) {
    let requirement = check_requirement(Code::Numbers(numbers), which).expect("well-formed");
    (requirement.node_count, requirement.depth)
}

#[test]
fn requirements_within_the_limits() {
    for which in [Untranslated, Translated] {
        let mut random = Random::new(11);
        let mut shapes = BTreeSet::new();
        let mut tags = BTreeSet::new();
        for _ in 0..400 {
            let numbers = make::requirement(&mut random, which);
            shapes.insert(shape(&numbers, which));
            tags.extend(numbers);
        }
        // Both limits at once, and each of them without the other.
        let (nodes, depth) = (which.most_nodes(), which.most_depth());
        assert!(shapes.contains(&(nodes, depth)));
        assert!(shapes.iter().any(|shape| shape.0 == nodes && shape.1 < depth));
        assert!(shapes.iter().any(|shape| shape.0 < nodes && shape.1 == depth));
        assert!(shapes.iter().any(|shape| shape.0 == 1));
        for tag in (0..=5).chain(8..=which.highest_tag()) {
            assert!(tags.contains(&tag), "tag {tag}");
        }
    }
}

#[test]
fn requirements_of_a_given_shape() {
    let mut random = Random::new(12);
    for (which, nodes, depth) in [
        (Untranslated, 64, 16),
        (Untranslated, 16, 16),
        (Untranslated, 63, 6),
        (Untranslated, 1, 1),
        (Translated, 704, 76),
        (Translated, 76, 76),
        (Translated, 704, 10),
    ] {
        for _ in 0..20 {
            let numbers = make::requirement_of(&mut random, which, nodes, depth, true);
            assert_eq!(shape(&numbers, which), (nodes, depth));
        }
    }
}

/// One past a limit is refused for that alone, at a tag.
#[test]
fn requirements_past_a_limit() {
    for which in [Untranslated, Translated] {
        let mut random = Random::new(13);
        let mut places = BTreeSet::new();
        for _ in 0..300 {
            let numbers = make::requirement_past_limit(&mut random, which);
            let refusal = check_requirement(Code::Numbers(&numbers), which).expect_err("past a limit");
            assert_eq!(refusal.cause, Cause::LimitPassed);
            places.insert(refusal.place);
        }
        assert!(places.len() > 30, "{} places", places.len());
    }
}

#[test]
fn tables_within_the_limits() {
    let mut random = Random::new(14);
    let mut ops = BTreeSet::new();
    let mut kinds = BTreeSet::new();
    for _ in 0..400 {
        let numbers = make::table(&mut random, MOST_PROCESSES);
        let table = check_table(Code::Numbers(&numbers), MOST_PROCESSES).expect("well-formed");
        kinds.extend(table.tests.iter().map(|test| test.kind));
        for state in table.processes.iter().flat_map(|process| &process.states) {
            ops.extend(state.actions.iter().map(|action| action.op));
        }
    }
    assert_eq!(ops, (1..=12).collect());
    assert_eq!(kinds, (0..=2).collect());
}

#[test]
fn tables_at_the_limits() {
    let mut random = Random::new(15);
    for processes in [8, 64] {
        let numbers = make::full_table(&mut random, processes);
        let table = check_table(Code::Numbers(&numbers), processes).expect("well-formed");
        assert_eq!(table.counts.total(), 32);
        assert_eq!(table.tests.len(), 32);
        assert!(table.tests.iter().any(|test| test.kind == 2));
        assert_eq!(table.processes.len(), processes as usize);
        let mut ops = BTreeSet::new();
        for process in &table.processes {
            assert_eq!(process.states.len(), 8);
            for state in &process.states {
                assert_eq!(state.actions.len(), 16);
                ops.extend(state.actions.iter().map(|action| action.op));
            }
        }
        assert_eq!(ops, (1..=12).collect());
    }
}

#[test]
fn inputs_within_the_limits() {
    let mut random = Random::new(16);
    let mut scans = BTreeSet::new();
    for input_count in [0, 1, 3, 32] {
        for _ in 0..60 {
            let numbers = make::inputs(&mut random, input_count);
            let inputs = check_inputs(Code::Numbers(&numbers), input_count).expect("well-formed");
            scans.insert(inputs.scans);
        }
    }
    assert!(scans.contains(&1));
    assert!(scans.contains(&1365));
    assert!(scans.len() > 15);
}

#[test]
fn input_counts() {
    let mut random = Random::new(17);
    let met: BTreeSet<usize> = (0..500).map(|_| make::input_count(&mut random)).collect();
    assert!(met.contains(&0) && met.contains(&32) && met.contains(&33));
}

#[test]
fn sheets_within_the_limits() {
    let mut random = Random::new(18);
    let mut counts = BTreeSet::new();
    let mut equal_names = 0;
    let mut empty_bodies = 0;
    let mut long_bodies = 0;
    for _ in 0..300 {
        let entries = make::entries(&mut random);
        let sheet = make::bytes_of_pieces(&make::pieces_of_entries(&entries));
        let found = check_sheet(&sheet).expect("well-formed");
        assert_eq!(found.len(), entries.len());
        counts.insert(entries.len());
        let names: BTreeSet<&Vec<u8>> = entries.iter().map(|entry| &entry.name).collect();
        equal_names += usize::from(names.len() < entries.len());
        empty_bodies += entries.iter().filter(|entry| entry.body.is_empty()).count();
        long_bodies += entries.iter().filter(|entry| entry.body.len() >= 16384).count();
        // The lookup of each name gives the body of the first entry of that name.
        for entry in &entries {
            let first = entries.iter().find(|other| other.name == entry.name).expect("itself");
            let body = look_up(&sheet, &entry.name).expect("present");
            assert_eq!(&sheet[body.begin..body.end], &first.body[..]);
        }
    }
    assert!(counts.contains(&0) && counts.contains(&32));
    assert!(equal_names > 20 && empty_bodies > 20 && long_bodies > 5);
}

#[test]
fn sheet_of_33_entries() {
    let mut random = Random::new(19);
    let entries = make::entries_of(&mut random, 33);
    let sheet = make::bytes_of_pieces(&make::pieces_of_entries(&entries));
    assert_eq!(check_sheet(&sheet), Err(Refusal { cause: Cause::ValueNotAllowed, place: 0 }));
}

#[test]
fn lasso_traces() {
    let mut random = Random::new(20);
    let mut counts = BTreeSet::new();
    for most_positions in [3, 4, 12, 60, 4096] {
        for _ in 0..50 {
            let made = make::lasso_trace(&mut random, most_positions);
            counts.insert(check_trace(&made.trace, made.loop_start).expect("well-formed"));
        }
    }
    assert!(counts.contains(&3) && counts.len() > 50);
}

#[test]
fn faulty_spellings() {
    let mut random = Random::new(21);
    for value in (0..=300).chain(16380..16390).chain([65535]) {
        let cause = |bytes: &[u8]| read_number(bytes, 0).expect_err("faulty").cause;
        let longer = make::longer_spelling(&mut random, value);
        assert!(longer.starts_with(&spelled(value)[..spelled(value).len() - 1]));
        let third_is_last = longer.len() <= 3;
        assert_eq!(cause(&longer), if third_is_last { Cause::NotShortest } else { Cause::TooLarge });
        assert_eq!(cause(&make::too_large_spelling(&mut random)), Cause::TooLarge);
        assert_ne!(make::another_number(&mut random, value), value);
    }
}

/// How often each cause was met, and at which places; and how often nothing was refused.
#[derive(Default)]
struct Tally {
    places: BTreeMap<Cause, BTreeSet<usize>>,
    accepted: usize,
}

impl Tally {
    fn count<T>(&mut self, answer: &Result<T, Refusal>) {
        match answer {
            Ok(_) => self.accepted += 1,
            Err(refusal) => {
                self.places.entry(refusal.cause).or_default().insert(refusal.place);
            }
        }
    }

    /// Each cause was met at so many places at least, and no other cause was met.
    fn expect(&self, expected: &[(Cause, usize)]) {
        for (cause, least) in expected {
            let met = self.places.get(cause).map_or(0, BTreeSet::len);
            assert!(met >= *least, "{cause:?} at {met} places only");
        }
        let causes: BTreeSet<Cause> = expected.iter().map(|(cause, _)| *cause).collect();
        assert_eq!(self.places.keys().copied().collect::<BTreeSet<_>>(), causes);
        assert!(self.accepted > 50, "{} accepted", self.accepted);
    }
}

/// Whatever is accepted is written back as it was read, and a refusal changes no buffer.
fn requirement_by_bytes(random: &mut Random, bytes: &[u8], which: Which) -> Result<usize, Refusal> {
    let mut buffer = vec![777; make::buffer_length(random, bytes.len())];
    let before = buffer.clone();
    let answer = read_requirement(bytes, which, &mut buffer);
    match answer {
        Ok(count) => {
            assert_eq!(buffer[count..], before[count..]);
            let mut written = vec![0xEE; bytes.len() + 3];
            assert_eq!(write_requirement(&buffer[..count], which, &mut written), Ok(bytes.len()));
            assert_eq!(written[..bytes.len()], *bytes);
            assert_eq!(written[bytes.len()..], [0xEE; 3]);
        }
        Err(_) => assert_eq!(buffer, before),
    }
    answer
}

#[test]
fn damaged_requirements() {
    for which in [Untranslated, Translated] {
        let mut random = Random::new(22);
        let mut by_bytes = Tally::default();
        let mut by_numbers = Tally::default();
        for round in 0..6000 {
            let numbers = if round % 5 == 0 {
                make::requirement_past_limit(&mut random, which)
            } else {
                make::requirement(&mut random, which)
            };
            let bytes = make::damaged_bytes(&mut random, &make::pieces_of_numbers(&numbers));
            by_bytes.count(&requirement_by_bytes(&mut random, &bytes, which));
            let damaged = make::damaged_numbers(&mut random, &numbers);
            let mut buffer = vec![0xEE; make::buffer_length(&mut random, 3 * damaged.len())];
            by_numbers.count(&write_requirement(&damaged, which, &mut buffer));
        }
        by_bytes.expect(&[
            (Cause::CutShort, 40),
            (Cause::NotShortest, 40),
            (Cause::TooLarge, 40),
            (Cause::LeftOver, 40),
            (Cause::TagNotAllowed, 40),
            (Cause::AtomAbove31, 40),
            (Cause::LimitPassed, 40),
            (Cause::BufferTooShort, 20),
        ]);
        by_numbers.expect(&[
            (Cause::CutShort, 40),
            (Cause::LeftOver, 40),
            (Cause::TagNotAllowed, 40),
            (Cause::AtomAbove31, 40),
            (Cause::LimitPassed, 40),
            (Cause::BufferTooShort, 20),
        ]);
    }
}

#[test]
fn damaged_tables() {
    let mut random = Random::new(23);
    let mut by_bytes = Tally::default();
    let mut by_numbers = Tally::default();
    for round in 0..6000 {
        let numbers = if round % 300 == 0 {
            make::full_table(&mut random, MOST_PROCESSES)
        } else {
            make::table(&mut random, MOST_PROCESSES)
        };
        let bytes = make::damaged_bytes(&mut random, &make::pieces_of_numbers(&numbers));
        let mut buffer = vec![777; make::buffer_length(&mut random, numbers.len())];
        let answer = read_table(&bytes, &mut buffer);
        if let Ok(count) = answer {
            assert_eq!(bytes_of_numbers(&buffer[..count]), bytes);
        }
        by_bytes.count(&answer);
        let damaged = make::damaged_numbers(&mut random, &numbers);
        let mut buffer = vec![0xEE; make::buffer_length(&mut random, 2 * damaged.len())];
        let answer = write_table(&damaged, &mut buffer);
        if let Ok(count) = answer {
            let mut read = vec![777; damaged.len()];
            assert_eq!(read_table(&buffer[..count], &mut read), Ok(damaged.len()));
            assert_eq!(read, damaged);
        }
        by_numbers.count(&answer);
    }
    by_bytes.expect(&[
        (Cause::CutShort, 100),
        (Cause::NotShortest, 100),
        (Cause::TooLarge, 100),
        (Cause::LeftOver, 100),
        (Cause::ValueNotAllowed, 100),
        (Cause::BufferTooShort, 20),
    ]);
    by_numbers.expect(&[
        (Cause::CutShort, 100),
        (Cause::LeftOver, 100),
        (Cause::ValueNotAllowed, 100),
        (Cause::BufferTooShort, 20),
    ]);
}

/// Every field of a table is refused for its value, at many places.
#[test]
fn damaged_fields_of_tables() {
    let mut random = Random::new(24);
    let mut places: BTreeMap<Field, BTreeSet<usize>> = BTreeMap::new();
    for _ in 0..15000 {
        let numbers = make::table(&mut random, MOST_PROCESSES);
        let fields = make::fields_of_table(&numbers);
        assert_eq!(fields.len(), numbers.len());
        let mut damaged = numbers.clone();
        make::damage_table_field(&mut random, &mut damaged);
        let Err(refusal) = check_table(Code::Numbers(&damaged), MOST_PROCESSES) else { continue };
        // Only where the number refused is the one that was replaced.
        let replaced = damaged.get(refusal.place) != numbers.get(refusal.place);
        if replaced && refusal.cause == Cause::ValueNotAllowed {
            places.entry(fields[refusal.place]).or_default().insert(refusal.place);
        }
    }
    // These stand at one place only.
    for (field, place) in [(Field::InputCount, 0), (Field::InternalCount, 1), (Field::OutputCount, 2)] {
        assert_eq!(places.remove(&field), Some(BTreeSet::from([place])), "{field:?}");
    }
    for field in [
        Field::Source,
        Field::TestCount,
        Field::Kind,
        Field::VariableOfTest,
        Field::ProcessOfTest,
        Field::StateOfTest,
        Field::ProcessCount,
        Field::StateCount,
        Field::ActionCount,
        Field::Op,
        Field::X,
        Field::Y,
        Field::Guard,
        Field::NextIf,
        Field::NextElse,
    ] {
        let met = places.remove(&field).unwrap_or_default().len();
        let least = if matches!(field, Field::Source | Field::TestCount) { 15 } else { 25 };
        assert!(met >= least, "{field:?} at {met} places only");
    }
    // The number of a test may be any: no other field was refused.
    assert_eq!(places, BTreeMap::new());
}

#[test]
fn damaged_inputs() {
    let mut random = Random::new(25);
    let mut by_bytes = Tally::default();
    let mut by_numbers = Tally::default();
    for _ in 0..6000 {
        let input_count = make::input_count(&mut random);
        let numbers = make::inputs(&mut random, input_count);
        let bytes = make::damaged_bytes(&mut random, &make::pieces_of_numbers(&numbers));
        let mut buffer = vec![777; make::buffer_length(&mut random, numbers.len())];
        let answer = read_inputs(&bytes, input_count, &mut buffer);
        if let Ok(count) = answer {
            assert_eq!(bytes_of_numbers(&buffer[..count]), bytes);
        }
        by_bytes.count(&answer);
        let damaged = make::damaged_numbers(&mut random, &numbers);
        let mut buffer = vec![0xEE; make::buffer_length(&mut random, 3 * damaged.len())];
        by_numbers.count(&write_inputs(&damaged, input_count, &mut buffer));
    }
    by_bytes.expect(&[
        (Cause::CutShort, 60),
        (Cause::NotShortest, 60),
        (Cause::TooLarge, 60),
        (Cause::LeftOver, 60),
        (Cause::ValueNotAllowed, 3),
        (Cause::BufferTooShort, 60),
    ]);
    by_numbers.expect(&[
        (Cause::CutShort, 100),
        (Cause::LeftOver, 100),
        (Cause::ValueNotAllowed, 2),
        (Cause::BufferTooShort, 100),
    ]);
}

#[test]
fn damaged_sheets() {
    let mut random = Random::new(26);
    let mut tally = Tally::default();
    for _ in 0..10000 {
        let entries = make::entries(&mut random);
        let name = make::name_to_ask(&mut random, &entries);
        let pieces = make::pieces_of_entries(&entries);
        tally.count(&look_up(&make::bytes_of_pieces(&pieces), &name));
        tally.count(&look_up(&make::damaged_bytes(&mut random, &pieces), &name));
    }
    tally.expect(&[
        (Cause::CutShort, 100),
        (Cause::NotShortest, 100),
        (Cause::TooLarge, 100),
        (Cause::LeftOver, 100),
        (Cause::ValueNotAllowed, 100),
        (Cause::NameAbsent, 1),
    ]);
}

#[test]
fn damaged_traces() {
    let mut random = Random::new(27);
    let mut tally = Tally::default();
    for _ in 0..10000 {
        let mut made = make::lasso_trace(&mut random, 60);
        make::damage_trace(&mut random, &mut made);
        tally.count(&check_trace(&made.trace, made.loop_start));
    }
    tally.expect(&[
        (Cause::TraceLength, 40),
        (Cause::LoopStart, 20),
        (Cause::Phase, 40),
        (Cause::NoOutputInLoop, 20),
    ]);
}

// ---------------------------------------------------------------------------------------------------------------------
// Judging
// ---------------------------------------------------------------------------------------------------------------------

/// The atoms of a well-formed requirement.
fn atoms_of(node: &Node) -> BTreeSet<u16> {
    let mut atoms: BTreeSet<u16> = node.operands().into_iter().flat_map(atoms_of).collect();
    if let Node::Atom(atom) = node {
        atoms.insert(*atom);
    }
    atoms
}

#[test]
fn judged_requirements() {
    for which in [Untranslated, Translated] {
        let mut random = Random::new(28);
        let mut few = 0;
        let mut all = BTreeSet::new();
        let mut tags = BTreeSet::new();
        let mut largest = 0;
        for _ in 0..2000 {
            let numbers = make::judged_requirement(&mut random, which);
            let requirement = check_requirement(Code::Numbers(&numbers), which).expect("well-formed");
            let atoms = atoms_of(&requirement.tree);
            few += usize::from(atoms.iter().all(|atom| *atom < 3));
            all.extend(atoms);
            tags.extend(numbers);
            largest = largest.max(requirement.node_count);
        }
        assert!(few > 1700, "{few} over few atoms");
        assert_eq!(all, (0..32).collect());
        assert!((8..=which.highest_tag()).all(|tag| tags.contains(&tag)));
        assert_eq!(largest, which.most_nodes());
    }
}

/// The atom's truth at every position.
fn row(made: &MadeTrace, atom: usize) -> Vec<bool> {
    made.trace.chunks(5).map(|position| position[1] >> atom & 1 == 1).collect()
}

#[test]
fn small_and_long_lassos() {
    let mut random = Random::new(29);
    let mut shapes = BTreeSet::new();
    let mut at_one_position = 0;
    for _ in 0..1000 {
        let made = make::small_lasso(&mut random);
        let count = check_trace(&made.trace, made.loop_start).expect("well-formed");
        assert!(3 <= count && count <= 14);
        shapes.insert((made.trace[0], made.trace[5 * made.loop_start], made.loop_start > 0));
        at_one_position += usize::from(row(&made, 0).iter().filter(|truth| **truth).count() == 1);
    }
    // Every phase at position 0 and at the loop start; without a part before the loop the two are the same.
    assert_eq!(shapes.len(), 9 + 3);
    assert!(at_one_position > 200, "{at_one_position} only");
    let mut starts = BTreeSet::new();
    for _ in 0..20 {
        let made = make::long_lasso(&mut random);
        assert_eq!(check_trace(&made.trace, made.loop_start), Ok(4096));
        starts.insert(made.loop_start);
    }
    assert!(starts.contains(&0) && starts.len() > 10);
}

#[test]
fn questions_with_a_slip_in_mind() {
    let mut random = Random::new(30);
    let mut operators = BTreeSet::new();
    for _ in 0..500 {
        let until = make::until_never_fulfilled(&mut random);
        let lasso = &until.lasso;
        assert_eq!(check_trace(&lasso.trace, lasso.loop_start), Ok(lasso.trace.len() / 5));
        assert!(!row(lasso, 0).contains(&false));
        assert!(!row(lasso, 1)[lasso.loop_start..].contains(&true));
        operators.insert(until.numbers[0]);

        let finally = make::met_across_the_join(&mut random);
        let lasso = &finally.lasso;
        let count = check_trace(&lasso.trace, lasso.loop_start).expect("well-formed");
        let met: Vec<usize> = (0..count).filter(|position| row(lasso, 0)[*position]).collect();
        assert!(met.len() == 1 && lasso.loop_start <= met[0] && met[0] + 1 < count);
        operators.insert(finally.numbers[0]);
    }
    assert_eq!(operators, BTreeSet::from([9, 11, 15, 17, 19, 21, 23]));
}

/// One byte short, exact and longer.
#[test]
fn lent_buffers() {
    let mut random = Random::new(31);
    let lengths: BTreeSet<usize> = (0..500).map(|_| make::lent_buffer(&mut random, 100).len()).collect();
    for length in [0, 99, 100, 101, 130] {
        assert!(lengths.contains(&length), "{length}");
    }
}

/// Which checks the made cases of judging come to: both kinds, all accepted or too short by one.
#[test]
fn judging_cases() {
    let mut random = Random::new(32);
    let mut kinds = [0, 0];
    let mut work_short_by_one = 0;
    let mut list_short_by_one = 0;
    for _ in 0..2000 {
        let case = make::judging_case(&mut random);
        let requirement = check_requirement(Code::Bytes(&case.code), case.which).expect("well-formed");
        let count = check_trace(&case.trace, case.loop_start).expect("well-formed");
        kinds[usize::from(case.which == Translated)] += 1;
        work_short_by_one += usize::from(case.work.len() + 1 == work_needed(requirement.depth, count));
        list_short_by_one += usize::from(case.list.len() + 1 == list_needed(&case.trace));
    }
    assert!(kinds[0] > 1200 && kinds[1] > 300, "{kinds:?}");
    assert!(work_short_by_one > 100 && list_short_by_one > 100);
}
