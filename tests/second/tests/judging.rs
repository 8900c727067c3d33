//! Judging: verdict, findings, buffers and refusals.

mod bench;

use std::collections::{BTreeMap, BTreeSet};

use bench::{BENCH, BENCH_LOOP_START};
use second::code::bytes_of_numbers;
use second::judging::{judge, list_needed, work_needed, Judged};
use second::meaning::{holds_at, truth_by_position, EndlessRun};
use second::random::{self as make, JudgingCase, Random};
use second::requirement::Which::{Translated, Untranslated};
use second::requirement::{check_requirement, Which};
use second::trace::{check_trace, INPUT};
use second::translation::translated_bytes;
use second::{Cause, Code, Refusal};

const M1: [u8; 7] = [1, 2, 0, 0, 1, 0, 1];
const M1_DEPTH: usize = 4;

/// Judges with long buffers: the verdict, and the positions in the list.
fn judged(which: Which, code: &[u8], trace: &[u8], loop_start: usize) -> (bool, Vec<usize>) {
    let mut work = vec![0xEE; 40_000];
    let mut list = vec![0xEE; 9_000];
    let answer = judge(which, code, trace, loop_start, &mut work, &mut list).expect("accepted");
    assert!(work.iter().all(|byte| *byte == 0));
    let (written, rest) = list.split_at(2 * answer.findings);
    assert!(rest.iter().all(|byte| *byte == 0xEE));
    (answer.holds, written.chunks(2).map(|pair| pair[0] as usize + 256 * pair[1] as usize).collect())
}

fn bench_judged(code: &[u8]) -> (bool, Vec<usize>) {
    judged(Untranslated, code, &BENCH, BENCH_LOOP_START)
}

/// A refused judging, with buffers of these lengths, which it left alone.
fn refuses(code: &[u8], trace: &[u8], loop_start: usize, room: (usize, usize), cause: Cause, place: usize) {
    let mut work = vec![0xEE; room.0];
    let mut list = vec![0xDD; room.1];
    let answer = judge(Untranslated, code, trace, loop_start, &mut work, &mut list);
    assert_eq!(answer, Err(Refusal { cause, place }), "{code:?} {loop_start} {room:?}");
    assert!(work.iter().all(|byte| *byte == 0xEE) && list.iter().all(|byte| *byte == 0xDD));
}

// ---------------------------------------------------------------------------------------------------------------------
// Verdict and findings
// ---------------------------------------------------------------------------------------------------------------------

/// "verdict holds", "fails 1", "at 5": "M1 that finding"
#[test]
fn m1() {
    assert_eq!(bench_judged(&M1), (true, vec![5]));
    assert_eq!(judged(Translated, &M1, &BENCH, BENCH_LOOP_START), (true, vec![5]));
}

/// "M2 G^i not(a0 and not X^i a1) holds at 0. M3 plain G of M1's requirement fails at 0; M4 its G^o holds."
#[test]
fn m2_to_m4() {
    assert_eq!(bench_judged(&[18, 1, 2, 0, 0, 1, 16, 0, 1]), (true, vec![]));
    assert_eq!(bench_judged(&[10, 1, 2, 0, 0, 1, 0, 1]), (false, vec![1, 5, 9]));
    assert_eq!(bench_judged(&[22, 1, 2, 0, 0, 1, 0, 1]), (true, vec![]));
}

/// M5 to M10 at the Inputs: "M6 X^i a1 at 5 holds", "M7 G^e a0 at 5 fails".
#[test]
fn m5_to_m10() {
    assert_eq!(bench_judged(&[16, 0, 1]), (false, vec![1, 9]));
    assert_eq!(bench_judged(&[14, 0, 0]), (true, vec![1, 5, 9]));
    assert_eq!(bench_judged(&[13, 0, 0]), (false, vec![1, 9]));
    assert_eq!(bench_judged(&[12, 0, 0]), (false, vec![1, 9]));
}

/// "M11": the translation gives the same list, and is of the translated kind.
#[test]
fn m11() {
    let translation = [11, 1, 3, 2, 3, 8, 11, 1, 3, 2, 3, 0, 1];
    assert_eq!(judged(Translated, &translation, &BENCH, BENCH_LOOP_START), (false, vec![1, 9]));
}

/// "Findings are the stored Input positions, the part before the loop too, at which the requirement is false; the
/// verdict is at moment 0. The two are independent"
#[test]
fn verdict_and_findings_are_independent() {
    // It holds at no Input and at 0; at every Input and not at 0; everywhere; nowhere.
    assert_eq!(bench_judged(&[5]), (true, vec![1, 5, 9]));
    assert_eq!(bench_judged(&[3]), (false, vec![]));
    assert_eq!(bench_judged(&[1, 2, 3, 5]), (true, vec![]));
    assert_eq!(bench_judged(&[2, 3, 5]), (false, vec![1, 5, 9]));
    // Before the loop and in it.
    assert_eq!(bench_judged(&[0, 0]), (false, vec![1, 9]));
    assert_eq!(bench_judged(&[0, 1]), (false, vec![1, 5]));
}

/// "X^i may go round the loop: with one Input in the loop the second of the sequence is the same stored position"
#[test]
fn one_input_in_the_loop() {
    let trace = [2, 0, 0, 0, 0, 0, 1, 0, 0, 0, 1, 0, 0, 0, 0];
    assert_eq!(judged(Untranslated, &[16, 0, 0], &trace, 0), (true, vec![]));
    assert_eq!(judged(Untranslated, &[16, 1, 0, 0], &trace, 0), (false, vec![1]));
}

/// "Atom bits without a test in a lent trace are taken as they are."
#[test]
fn high_atoms() {
    let trace = [2, 0, 0, 0, 0, 0, 0, 0, 0, 0x80, 1, 0, 0, 0, 0];
    assert_eq!(judged(Untranslated, &[0, 31], &trace, 0), (false, vec![]));
    assert_eq!(judged(Untranslated, &[0, 30], &trace, 0), (false, vec![1]));
}

/// "2-byte positions, low byte first": positions above 255, up to the last of 4,096.
#[test]
fn list_bytes() {
    let phases: Vec<u8> = (0..4096).map(|position| [1, 1, 2, 0][position % 4]).collect();
    let trace: Vec<u8> = phases.iter().flat_map(|phase| [*phase, 0, 0, 0, 0]).collect();
    let mut work = vec![7; 512];
    let mut list = vec![7; 2049];
    let answer = judge(Untranslated, &[0, 0], &trace, 0, &mut work, &mut list);
    assert_eq!(answer, Ok(Judged { holds: false, findings: 1024 }));
    assert_eq!(work, [0; 512]);
    assert_eq!(list[..4], [3, 0, 7, 0]);
    assert_eq!(list[126..130], [255, 0, 3, 1]);
    assert_eq!(list[2044..], [0xFB, 0x0F, 0xFF, 0x0F, 7]);
}

// ---------------------------------------------------------------------------------------------------------------------
// Refusals
// ---------------------------------------------------------------------------------------------------------------------

/// "work buffer under depth times row bytes (positions over 8, rounded up)": the bench case has rows of 2 bytes.
#[test]
fn work_buffer() {
    assert_eq!(work_needed(M1_DEPTH, 12), 8);
    assert_eq!((work_needed(1, 1), work_needed(1, 8), work_needed(1, 9), work_needed(76, 4096)), (1, 1, 2, 38912));
    refuses(&M1, &BENCH, 4, (7, 6), Cause::BufferTooShort, 8);
    refuses(&M1, &BENCH, 4, (0, 6), Cause::BufferTooShort, 8);
    // "the requirement's own depth (not the limit)"
    refuses(&[3], &BENCH, 4, (1, 6), Cause::BufferTooShort, 2);
    let mut work = [0xEE; 8];
    let mut list = [0xEE; 6];
    assert_eq!(judge(Untranslated, &M1, &BENCH, 4, &mut work, &mut list), Ok(Judged { holds: true, findings: 1 }));
    assert_eq!((work, list), ([0; 8], [5, 0, 0xEE, 0xEE, 0xEE, 0xEE]));
}

/// "list buffer under 2 bytes per Input position", "whether or not it fails"
#[test]
fn list_buffer() {
    assert_eq!(list_needed(&BENCH), 6);
    refuses(&M1, &BENCH, 4, (8, 5), Cause::BufferTooShort, 6);
    refuses(&[1, 2, 3, 5], &BENCH, 4, (8, 0), Cause::BufferTooShort, 6);
    // The Inputs before the loop count too.
    refuses(&[3], &BENCH, 4, (99, 4), Cause::BufferTooShort, 6);
}

/// "Judging checks: requirement, trace, work buffer [...], list buffer [...]": each with all later faults as well.
#[test]
fn order_of_the_checks() {
    refuses(&[24], &[], 9, (0, 0), Cause::TagNotAllowed, 0);
    refuses(&[], &[9; 7], 9, (0, 0), Cause::CutShort, 0);
    refuses(&[3, 3], &[9; 7], 9, (0, 0), Cause::LeftOver, 1);
    refuses(&M1, &[9; 7], 9, (0, 0), Cause::TraceLength, 7);
    refuses(&M1, &BENCH, 12, (0, 0), Cause::LoopStart, 12);
    refuses(&M1, &BENCH, 5, (0, 0), Cause::Phase, 11);
    refuses(&M1, &BENCH, 10, (0, 0), Cause::NoOutputInLoop, 10);
    refuses(&M1, &BENCH, 4, (7, 0), Cause::BufferTooShort, 8);
    refuses(&M1, &BENCH, 4, (8, 0), Cause::BufferTooShort, 6);
}

/// The places of refusal 9: "length", "that count", "first such position", "loop start".
#[test]
fn places_of_refusal_9() {
    let room = (1000, 1000);
    refuses(&M1, &[], 0, room, Cause::TraceLength, 0);
    refuses(&M1, &BENCH[..59], 4, room, Cause::TraceLength, 59);
    refuses(&M1, &[0; 20485], 4, room, Cause::TraceLength, 20485);
    refuses(&M1, &BENCH, usize::MAX, room, Cause::LoopStart, 12);
    // Without its last two positions an Input is followed by the Output at the loop start.
    refuses(&M1, &BENCH[..50], 4, room, Cause::Phase, 9);
    let phases = |phases: [u8; 3]| phases.iter().flat_map(|phase| [*phase, 0, 0, 0, 0]).collect::<Vec<u8>>();
    // "phases 2, 0, 7 with loop start 0 give 1"
    refuses(&M1, &phases([2, 0, 7]), 0, room, Cause::Phase, 1);
    refuses(&M1, &phases([7, 2, 0]), 1, room, Cause::Phase, 0);
    refuses(&M1, &phases([0, 1, 1]), 1, room, Cause::NoOutputInLoop, 1);
}

/// "the caller says which of the two is read"
#[test]
fn kind_told() {
    let mut work = [0xEE; 100];
    let mut list = [0xEE; 100];
    let answer = judge(Translated, &[16, 0, 1], &BENCH, 4, &mut work, &mut list);
    assert_eq!(answer, Err(Refusal { cause: Cause::TagNotAllowed, place: 0 }));
    // Depth 17 is allowed in a translated requirement only.
    let deep = [vec![1; 16], vec![3]].concat();
    refuses(&deep, &BENCH, 4, (100, 100), Cause::LimitPassed, 16);
    let answer = judge(Translated, &deep, &BENCH, 4, &mut work, &mut list);
    assert_eq!(answer, Ok(Judged { holds: false, findings: 0 }));
    assert_eq!((work, list), ([0; 100], [0xEE; 100]));
}

// ---------------------------------------------------------------------------------------------------------------------
// Random cases
// ---------------------------------------------------------------------------------------------------------------------

/// Judges a case and looks at every byte of its buffers.
fn check_case(case: &JudgingCase) -> Result<Judged, Refusal> {
    let mut work = case.work.clone();
    let mut list = case.list.clone();
    let answer = judge(case.which, &case.code, &case.trace, case.loop_start, &mut work, &mut list);
    match answer {
        // "Only an accepted judging touches work and list."
        Err(_) => assert_eq!((&work, &list), (&case.work, &case.list)),
        Ok(judged) => {
            // "'Work all zero' is the whole lent work."
            assert!(work.iter().all(|byte| *byte == 0));
            assert_eq!(list[2 * judged.findings..], case.list[2 * judged.findings..]);
            assert_eq!((judged.holds, list[..2 * judged.findings].to_vec()), expected(case));
        }
    }
    assert_eq!(answer.err(), expected_refusal(case));
    answer
}

/// The verdict and the list bytes, by the meaning alone.
fn expected(case: &JudgingCase) -> (bool, Vec<u8>) {
    let tree = check_requirement(Code::Bytes(&case.code), case.which).expect("accepted").tree;
    let run = EndlessRun::new(&case.trace, case.loop_start).expect("accepted");
    let truth = truth_by_position(&tree, &run);
    let failing = (0..truth.len()).filter(|position| case.trace[5 * position] == INPUT && !truth[*position]);
    (truth[0], failing.flat_map(|position| (position as u16).to_le_bytes()).collect())
}

/// The refusal, by the order of the checks.
fn expected_refusal(case: &JudgingCase) -> Option<Refusal> {
    let requirement = check_requirement(Code::Bytes(&case.code), case.which);
    let trace = check_trace(&case.trace, case.loop_start);
    match (requirement, trace) {
        (Err(refusal), _) => Some(refusal),
        (Ok(_), Err(refusal)) => Some(refusal),
        (Ok(requirement), Ok(count)) => {
            let inputs = (0..count).filter(|position| case.trace[5 * position] == INPUT).count();
            let work = requirement.depth * count.div_ceil(8);
            let short = |needed| Some(Refusal { cause: Cause::BufferTooShort, place: needed });
            if case.work.len() < work {
                short(work)
            } else if case.list.len() < 2 * inputs {
                short(2 * inputs)
            } else {
                None
            }
        }
    }
}

#[test]
fn made_cases() {
    let mut random = Random::new(61);
    let mut holding = 0;
    let mut failing = 0;
    let mut findings = BTreeSet::new();
    let mut too_short = 0;
    for _ in 0..6000 {
        let case = make::judging_case(&mut random);
        match check_case(&case) {
            Ok(judged) => {
                holding += usize::from(judged.holds);
                failing += usize::from(!judged.holds);
                findings.insert(judged.findings);
            }
            Err(refusal) => {
                assert_eq!(refusal.cause, Cause::BufferTooShort);
                too_short += 1;
            }
        }
    }
    assert!(holding > 1000 && failing > 1000, "{holding} hold, {failing} fail");
    assert!(too_short > 500, "{too_short} too short");
    assert!((0..=4).all(|count| findings.contains(&count)), "{findings:?}");
}

/// A buffer one byte short is refused, an exact one is not, whatever the case.
#[test]
fn one_byte_short_and_exact() {
    let mut random = Random::new(62);
    for _ in 0..1000 {
        let mut case = make::judging_case(&mut random);
        let depth = check_requirement(Code::Bytes(&case.code), case.which).expect("well-formed").depth;
        let work = work_needed(depth, case.trace.len() / 5);
        let list = list_needed(&case.trace);
        let exact = (work, list, None);
        let work_short = (work - 1, 0, Some(work));
        let list_short = (work, list - 1, Some(list));
        for (work_length, list_length, place) in [exact, work_short, list_short] {
            case.work = random.bytes(work_length);
            case.list = random.bytes(list_length);
            let refused = place.map(|place| Refusal { cause: Cause::BufferTooShort, place });
            assert_eq!(check_case(&case).err(), refused);
        }
    }
}

#[test]
fn damaged_cases() {
    let mut random = Random::new(63);
    let mut met: BTreeMap<Cause, BTreeSet<usize>> = BTreeMap::new();
    let mut accepted = 0;
    for _ in 0..20000 {
        match check_case(&make::damaged_judging_case(&mut random)) {
            Ok(_) => accepted += 1,
            Err(refusal) => {
                met.entry(refusal.cause).or_default().insert(refusal.place);
            }
        }
    }
    assert!(accepted > 1000, "{accepted} accepted");
    for cause in [
        Cause::CutShort,
        Cause::NotShortest,
        Cause::TooLarge,
        Cause::LeftOver,
        Cause::TagNotAllowed,
        Cause::AtomAbove31,
        Cause::LimitPassed,
        Cause::TraceLength,
        Cause::LoopStart,
        Cause::Phase,
        Cause::NoOutputInLoop,
        Cause::BufferTooShort,
    ] {
        let places = met.remove(&cause).unwrap_or_default().len();
        assert!(places >= 8, "{cause:?} at {places} places only");
    }
    assert_eq!(met, BTreeMap::new());
}

/// 4,096 positions: exact and short buffers, findings above 255.
#[test]
fn long_cases() {
    let mut random = Random::new(64);
    let mut most = 0;
    for _ in 0..12 {
        let case = make::long_judging_case(&mut random);
        assert_eq!(case.trace.len(), 20480);
        if let Ok(judged) = check_case(&case) {
            most = most.max(judged.findings);
        }
    }
    assert!(most > 255, "{most} findings at most");
}

/// "agrees with the requirement at every position, and so gives the same list"
#[test]
fn translation_gives_the_same_list() {
    let mut random = Random::new(65);
    let mut found = 0;
    for _ in 0..3000 {
        let made = make::small_question(&mut random, Untranslated);
        let requirement = check_requirement(Code::Numbers(&made.numbers), Untranslated).expect("well-formed");
        let code = bytes_of_numbers(&made.numbers);
        let translation = translated_bytes(&requirement.tree);
        let (trace, loop_start) = (&made.lasso.trace, made.lasso.loop_start);
        let answer = judged(Untranslated, &code, trace, loop_start);
        assert_eq!(answer, judged(Translated, &translation, trace, loop_start), "{made:?}");
        found += usize::from(!answer.1.is_empty());
    }
    assert!(found > 1000, "{found} with findings");
}

/// "every input position of the lasso at which the endless run, started there, does not meet the requirement": the run
/// started at a position is judged as a trace of its own, whose moment 0 is that position.
#[test]
fn findings_are_verdicts_of_runs_started_there() {
    let mut random = Random::new(66);
    let mut met = 0;
    for _ in 0..1000 {
        let made = make::small_question(&mut random, Untranslated);
        let code = bytes_of_numbers(&made.numbers);
        let (trace, loop_start) = (&made.lasso.trace, made.lasso.loop_start);
        let count = trace.len() / 5;
        let mut failing = Vec::new();
        for position in (0..count).filter(|position| trace[5 * position] == INPUT) {
            // From the position to the end, and then the whole loop once more as the loop.
            let started = [&trace[5 * position..], &trace[5 * loop_start..]].concat();
            if !judged(Untranslated, &code, &started, count - position).0 {
                failing.push(position);
            }
        }
        assert_eq!(judged(Untranslated, &code, trace, loop_start).1, failing, "{made:?}");
        met += failing.len();
    }
    assert!(met > 1000, "{met} findings");
}

/// The verdict is what holds at moment 0, asked anew of every operand.
#[test]
fn verdict_is_taken_at_moment_0() {
    let mut random = Random::new(67);
    for _ in 0..1000 {
        let nodes = random.between(1, 5);
        let mut numbers = make::requirement_of(&mut random, Untranslated, nodes, 4, false);
        make::keep_atoms_below(&mut numbers, 2);
        let tree = check_requirement(Code::Numbers(&numbers), Untranslated).expect("well-formed").tree;
        let made = make::small_lasso(&mut random);
        let run = EndlessRun::new(&made.trace, made.loop_start).expect("well-formed");
        let code = bytes_of_numbers(&numbers);
        let (holds, _) = judged(Untranslated, &code, &made.trace, made.loop_start);
        assert_eq!(holds, holds_at(&tree, &run, 0), "{numbers:?} {made:?}");
    }
}
