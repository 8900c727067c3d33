//! What a requirement means at a moment of the endless run.

mod bench;

use bench::{BENCH, BENCH_LOOP_START};
use second::meaning::{holds_at, truth_by_position, EndlessRun, LAPS};
use second::random::{self as make, MadeTrace, Random, Shape};
use second::requirement::Which::{Translated, Untranslated};
use second::requirement::{check_requirement, Node};
use second::trace::{EXE, INPUT, OUTPUT};
use second::{Cause, Code, Refusal};

fn bench() -> EndlessRun<'static> {
    run(&BENCH, BENCH_LOOP_START)
}

fn run(trace: &[u8], loop_start: usize) -> EndlessRun<'_> {
    EndlessRun::new(trace, loop_start).expect("well-formed")
}

fn run_of(made: &MadeTrace) -> EndlessRun<'_> {
    run(&made.trace, made.loop_start)
}

fn tree(numbers: &[u16]) -> Node {
    check_requirement(Code::Numbers(numbers), Untranslated).expect("well-formed").tree
}

/// The positions at which the requirement holds, found in both ways.
fn holding(numbers: &[u16], run: &EndlessRun) -> Vec<usize> {
    let tree = tree(numbers);
    let truth = truth_by_position(&tree, run);
    assert_eq!(truth.len(), run.position_count());
    let holding: Vec<usize> = (0..truth.len()).filter(|position| truth[*position]).collect();
    let asked_anew: Vec<usize> = (0..truth.len()).filter(|position| holds_at(&tree, run, *position)).collect();
    assert_eq!(holding, asked_anew, "{numbers:?}");
    holding
}

fn all_but(count: usize, without: &[usize]) -> Vec<usize> {
    (0..count).filter(|position| !without.contains(position)).collect()
}

/// A trace of these phases; atom 0 and atom 1 hold at the positions told.
fn trace(phases: &[u8], atom_0: &[usize], atom_1: &[usize]) -> Vec<u8> {
    let mut trace = Vec::new();
    for (position, phase) in phases.iter().enumerate() {
        let atoms = atom_0.contains(&position) as u8 + 2 * atom_1.contains(&position) as u8;
        trace.extend([*phase, atoms, 0, 0, 0]);
    }
    trace
}

// ---------------------------------------------------------------------------------------------------------------------
// The run
// ---------------------------------------------------------------------------------------------------------------------

#[test]
fn moments_and_positions() {
    let run = bench();
    assert_eq!((run.position_count(), run.lap()), (12, 8));
    let positions: Vec<usize> = (0..24).map(|moment| run.position(moment)).collect();
    assert_eq!(positions, [0, 1, 2, 3, 4, 5, 6, 7, 8, 9, 10, 11, 4, 5, 6, 7, 8, 9, 10, 11, 4, 5, 6, 7]);
    assert_eq!(run.position(804), 4);
    assert_eq!((run.phase(12), run.phase(13), run.phase(14)), (OUTPUT, INPUT, EXE));
    assert_eq!((run.atom(13, 0), run.atom(13, 1), run.atom(16, 0), run.atom(17, 0)), (true, false, true, false));
    assert_eq!((run.first_output(0), run.first_output(1), run.first_output(9)), (0, 4, 12));
}

#[test]
fn traces_that_are_not_well_formed() {
    let refused = |cause, place| Some(Refusal { cause, place });
    assert_eq!(EndlessRun::new(&[], 0).err(), refused(Cause::TraceLength, 0));
    assert_eq!(EndlessRun::new(&BENCH, 12).err(), refused(Cause::LoopStart, 12));
    assert_eq!(EndlessRun::new(&BENCH, 5).err(), refused(Cause::Phase, 11));
    assert_eq!(EndlessRun::new(&BENCH, 10).err(), refused(Cause::NoOutputInLoop, 10));
}

/// "32 atoms, atom 0 the lowest bit, low byte first"
/// "Atom bits without a test in a lent trace are taken as they are."
#[test]
fn atom_bits() {
    for atom in 0..32 {
        let mut trace = trace(&[2, 0, 1], &[], &[]);
        trace[5 + 1 + atom / 8] = 1 << (atom % 8);
        for asked in 0..32 {
            let expected = if asked == atom { vec![1] } else { vec![] };
            assert_eq!(holding(&[0, asked as u16], &run(&trace, 0)), expected);
        }
    }
}

// ---------------------------------------------------------------------------------------------------------------------
// The marked cases
// ---------------------------------------------------------------------------------------------------------------------

/// "M1 that finding": of the Inputs 1, 5 and 9 only 5 fails; it holds at 0.
#[test]
fn m1() {
    assert_eq!(holding(&[1, 2, 0, 0, 1, 0, 1], &bench()), all_but(12, &[5, 6, 7]));
}

/// "M2 G^i not(a0 and not X^i a1) holds at 0."
#[test]
fn m2() {
    assert_eq!(holding(&[18, 1, 2, 0, 0, 1, 16, 0, 1], &bench()), all_but(12, &[]));
}

/// "M3 plain G of M1's requirement fails at 0; M4 its G^o holds."
#[test]
fn m3_and_m4() {
    assert_eq!(holding(&[10, 1, 2, 0, 0, 1, 0, 1], &bench()), []);
    assert_eq!(holding(&[22, 1, 2, 0, 0, 1, 0, 1], &bench()), all_but(12, &[]));
}

/// "M5 X^i a1 at 6 fails. M6 X^i a1 at 5 holds."
#[test]
fn m5_and_m6() {
    // From 0 and 1 the second Input is 5, from 2 to 5 it is 9, from 6 to 9 it is 5 again, from 10 and 11 it is 9.
    assert_eq!(holding(&[16, 0, 1], &bench()), [2, 3, 4, 5, 10, 11]);
}

/// "M7 G^e a0 at 5 fails; M8 at 6 holds." "M9 G^e a0 at 8 holds, F^e a0 at 8 fails."
#[test]
fn m7_to_m9() {
    assert_eq!(holding(&[14, 0, 0], &bench()), [0, 4, 6, 7, 8]);
    assert_eq!(holding(&[13, 0, 0], &bench()), [5, 6, 7]);
}

/// "M10 X^e a0 at 4 fails."
#[test]
fn m10() {
    assert_eq!(holding(&[12, 0, 0], &bench()), [5, 6]);
}

// ---------------------------------------------------------------------------------------------------------------------
// Each operator, written out
// ---------------------------------------------------------------------------------------------------------------------

#[test]
fn marks_and_booleans() {
    assert_eq!(holding(&[3], &bench()), [1, 5, 9]);
    assert_eq!(holding(&[4], &bench()), [2, 3, 6, 7, 10, 11]);
    assert_eq!(holding(&[5], &bench()), [0, 4, 8]);
    assert_eq!(holding(&[0, 0], &bench()), [5, 6, 7, 8]);
    assert_eq!(holding(&[1, 0, 1], &bench()), [0, 1, 2, 3, 4, 5, 6, 7]);
    assert_eq!(holding(&[2, 0, 0, 0, 1], &bench()), [8]);
}

#[test]
fn plain_operators() {
    assert_eq!(holding(&[8, 0, 0], &bench()), [4, 5, 6, 7]);
    assert_eq!(holding(&[8, 0, 1], &bench()), [7, 8, 9, 10]);
    assert_eq!(holding(&[9, 0, 0], &bench()), all_but(12, &[]));
    assert_eq!(holding(&[10, 0, 0], &bench()), []);
    // a0 until a1: from 5 to 8 along a0, and from 8 on at once.
    assert_eq!(holding(&[11, 0, 0, 0, 1], &bench()), [5, 6, 7, 8, 9, 10, 11]);
    // not a0 until a0: from 0 to 4 along the prefix, from 9 to 11 across the join.
    assert_eq!(holding(&[11, 1, 0, 0, 0, 0], &bench()), all_but(12, &[]));
    // a1 until a0: from 9 to 11 it is broken at 4.
    assert_eq!(holding(&[11, 0, 1, 0, 0], &bench()), [5, 6, 7, 8]);
}

/// Of the Inputs 1, 5, 9, 5, 9 and so on.
#[test]
fn input_operators() {
    assert_eq!(holding(&[17, 0, 0], &bench()), all_but(12, &[]));
    assert_eq!(holding(&[18, 0, 0], &bench()), []);
    // a1 is not at 5, so it is not for ever; not a0 is not at 5 either.
    assert_eq!(holding(&[18, 1, 2, 0, 0, 0, 1], &bench()), all_but(12, &[]));
    // a0 until^i a1: from the first Input 5 or 9.
    assert_eq!(holding(&[19, 0, 0, 0, 1], &bench()), all_but(12, &[0, 1]));
    // a1 until^i a0: from every first Input but 1.
    assert_eq!(holding(&[19, 0, 1, 0, 0], &bench()), all_but(12, &[0, 1]));
}

/// Of the Outputs 0, 4, 8, 4, 8 and so on.
#[test]
fn output_operators() {
    // From 0 the second is 4, from 1 to 4 it is 8, from 5 to 8 it is 4, from 9 on it is 8.
    assert_eq!(holding(&[20, 0, 0], &bench()), [1, 2, 3, 4, 9, 10, 11]);
    assert_eq!(holding(&[21, 2, 0, 0, 0, 1], &bench()), all_but(12, &[]));
    assert_eq!(holding(&[22, 0, 0], &bench()), []);
    // a0 until^o a1: from the first Output 8 only.
    assert_eq!(holding(&[23, 0, 0, 0, 1], &bench()), [5, 6, 7, 8]);
}

/// "At an Output, G^e holds and F^e, U^e and X^e fail. At an Input, G^e and U^e fail and F^e may hold."
#[test]
fn execution_operators_at_output_and_input() {
    // Both atoms at every position: whatever may hold does.
    let everywhere: Vec<usize> = (0..6).collect();
    let full = trace(&[2, 0, 1, 1, 1, 2], &everywhere, &everywhere);
    let run = run(&full, 1);
    assert_eq!(holding(&[12, 0, 0], &run), [1, 2, 3]);
    assert_eq!(holding(&[13, 0, 0], &run), [1, 2, 3, 4]);
    assert_eq!(holding(&[14, 0, 0], &run), [0, 2, 3, 4, 5]);
    assert_eq!(holding(&[15, 0, 0, 0, 1], &run), [2, 3, 4]);
    // Of an operand that never holds, G^e still holds at an Output.
    assert_eq!(holding(&[14, 0, 7], &run), [0, 5]);
    assert_eq!(holding(&[13, 0, 7], &run), []);
    // An atom at the Input alone is not met in execution.
    assert_eq!(holding(&[13, 2, 3, 0, 0], &run), []);
    assert_eq!(holding(&[12, 3], &run), []);
}

/// "look below the first Output at or after the moment": not at it, and not past it.
#[test]
fn execution_operators_end_at_the_output() {
    // The next turn has the atoms, and so has the Output.
    let later = trace(&[1, 1, 2, 0, 1, 1, 2, 0], &[2, 3, 4, 5], &[2, 3, 4, 5]);
    let run = run(&later, 0);
    assert_eq!(holding(&[12, 0, 0], &run), [3, 4]);
    assert_eq!(holding(&[13, 0, 0], &run), [3, 4, 5]);
    assert_eq!(holding(&[14, 0, 0], &run), [2, 4, 5, 6]);
    assert_eq!(holding(&[15, 0, 0, 0, 1], &run), [4, 5]);
    // a2 is nowhere, and "not a2" everywhere: an until that no Exe below the Output fulfils fails.
    assert_eq!(holding(&[15, 1, 0, 2, 0, 1], &run), [4, 5]);
}

/// a0 until^e a1: along the Exe positions, to the first with a1.
#[test]
fn until_in_execution() {
    let steps = trace(&[2, 0, 1, 1, 1, 1], &[2, 3], &[4]);
    assert_eq!(holding(&[15, 0, 0, 0, 1], &run(&steps, 0)), [2, 3, 4]);
    let broken = trace(&[2, 0, 1, 1, 1, 1], &[2], &[4]);
    assert_eq!(holding(&[15, 0, 0, 0, 1], &run(&broken, 0)), [4]);
}

/// "With one Input in the loop the second of the sequence is the same stored position a lap later."
#[test]
fn one_input_in_the_loop() {
    let once = trace(&[2, 0, 1, 1], &[1], &[]);
    assert_eq!(holding(&[16, 0, 0], &run(&once, 0)), [0, 1, 2, 3]);
    let never = trace(&[2, 0, 1, 1], &[0, 2, 3], &[]);
    assert_eq!(holding(&[16, 0, 0], &run(&never, 0)), []);
    // With an Input before the loop: from 0 and 1 the second is 4, and from then on it is 4 again.
    let prefix = trace(&[2, 0, 1, 2, 0, 1], &[4], &[]);
    assert_eq!(holding(&[16, 0, 0], &run(&prefix, 3)), [0, 1, 2, 3, 4, 5]);
    let only_before = trace(&[2, 0, 1, 2, 0, 1], &[1], &[]);
    assert_eq!(holding(&[16, 0, 0], &run(&only_before, 3)), []);
}

// ---------------------------------------------------------------------------------------------------------------------
// Slips this must exclude
// ---------------------------------------------------------------------------------------------------------------------

/// "An until that is granted by going round the loop for ever."
#[test]
fn until_for_ever() {
    let endless = trace(&[2, 0, 1, 1], &[0, 1, 2, 3], &[]);
    for until in [11, 15, 19, 23] {
        assert_eq!(holding(&[until, 0, 0, 0, 1], &run(&endless, 0)), [], "{until}");
    }
    let mut random = Random::new(41);
    for _ in 0..500 {
        let made = make::until_never_fulfilled(&mut random);
        let truth = truth_by_position(&tree(&made.numbers), &run_of(&made.lasso));
        assert!(truth[made.lasso.loop_start..].iter().all(|truth| !truth), "{made:?}");
    }
}

/// "X^i from an Exe state taken as the nearest Input."
#[test]
fn next_input_from_an_exe_state() {
    // The nearest Input from 2 and 3 is 5, with a0; the second is 9, without.
    let holding_at = holding(&[16, 0, 0], &bench());
    assert!(!holding_at.contains(&2) && !holding_at.contains(&3));
    // The nearest from 6 and 7 is 9, without; the second is 5, with a0.
    assert!(holding_at.contains(&6) && holding_at.contains(&7));
}

/// "Walking the loop once only, so that F misses what lies before the join."
#[test]
fn finally_across_the_join() {
    let before = trace(&[2, 0, 1, 1, 2, 0, 1, 1], &[1], &[]);
    assert_eq!(holding(&[9, 0, 0], &run(&before, 0)), all_but(8, &[]));
    assert_eq!(holding(&[17, 0, 0], &run(&before, 0)), all_but(8, &[]));
    assert_eq!(holding(&[21, 0, 0], &run(&before, 0)), []);
    // Before the loop, it does not come again.
    assert_eq!(holding(&[9, 0, 0], &run(&before, 4)), [0, 1]);
    let mut random = Random::new(42);
    for _ in 0..500 {
        let made = make::met_across_the_join(&mut random);
        let truth = truth_by_position(&tree(&made.numbers), &run_of(&made.lasso));
        assert!(truth.iter().all(|truth| *truth), "{made:?}");
    }
}

// ---------------------------------------------------------------------------------------------------------------------
// Random requirements and lassos
// ---------------------------------------------------------------------------------------------------------------------

/// A requirement of at most so many nodes and of that depth, over two atoms, as numbers.
fn requirement_over_two_atoms(random: &mut Random, most_nodes: usize, depth: usize) -> Vec<u16> {
    let nodes = random.between(1, most_nodes);
    let mut numbers = make::requirement_of(random, Untranslated, nodes, depth, false);
    make::keep_atoms_below(&mut numbers, 2);
    numbers
}

/// The truth at a moment, asked anew of every operand at every moment, is that at its stored position.
#[test]
fn truth_depends_on_the_stored_position() {
    let mut random = Random::new(43);
    let mut varied = 0;
    for _ in 0..2000 {
        let tree = tree(&requirement_over_two_atoms(&mut random, 5, 4));
        let shape = random.pick(&make::SHAPES);
        let made = make::lasso_of_shape(&mut random, shape, 10);
        let run = run_of(&made);
        let truth = truth_by_position(&tree, &run);
        for moment in 0..run.position_count() + 3 * run.lap() {
            assert_eq!(holds_at(&tree, &run, moment), truth[run.position(moment)], "{tree:?} {made:?} {moment}");
        }
        varied += usize::from(truth.contains(&true) && truth.contains(&false));
    }
    assert!(varied > 800, "{varied} only");
}

/// More laps show nothing new.
#[test]
fn more_laps_change_nothing() {
    assert_eq!(LAPS, 2);
    let mut random = Random::new(44);
    for _ in 0..3000 {
        let tree = tree(&make::judged_requirement(&mut random, Untranslated));
        let made = make::small_lasso(&mut random);
        let run = run_of(&made);
        assert_eq!(truth_by_position(&tree, &run), truth_by_position(&tree, &run.looking(7)), "{tree:?} {made:?}");
    }
}

/// Each operator over a0 and a1 against its sentence, with every "there is" and "for all" gone through over a long
/// stretch of the run.
#[test]
fn sentences_taken_word_by_word() {
    let mut random = Random::new(45);
    for _ in 0..1500 {
        let made = make::small_lasso(&mut random);
        let run = run_of(&made);
        let end = run.position_count() + 6 * run.lap();
        let f = |moment: usize| run.atom(moment, 0);
        let g = |moment: usize| run.atom(moment, 1);
        let exe = |moment: usize| run.phase(moment) == EXE;
        let check = |numbers: &[u16], moment: usize, expected: bool| {
            assert_eq!(holds_at(&tree(numbers), &run, moment), expected, "{numbers:?} at {moment} of {made:?}");
        };
        for moment in 0..run.position_count() {
            // All, those of Input, those of Output.
            for (first_tag, phase) in [(8, None), (16, Some(INPUT)), (20, Some(OUTPUT))] {
                let of_phase = |ahead: &usize| phase.is_none() || phase == Some(run.phase(*ahead));
                let sequence: Vec<usize> = (moment..end).filter(of_phase).collect();
                let met = (0..sequence.len()).any(|k| g(sequence[k]) && (0..k).all(|j| f(sequence[j])));
                check(&[first_tag, 0, 0], moment, f(sequence[1]));
                check(&[first_tag + 1, 0, 0], moment, sequence.iter().any(|ahead| f(*ahead)));
                check(&[first_tag + 2, 0, 0], moment, sequence.iter().all(|ahead| f(*ahead)));
                check(&[first_tag + 3, 0, 0, 0, 1], moment, met);
            }
            let outputs = (moment..end).filter(|ahead| run.phase(*ahead) == OUTPUT);
            let output = outputs.min().expect("the loop holds an Output");
            let met = (moment..output).any(|k| exe(k) && g(k) && (moment..k).all(|j| exe(j) && f(j)));
            check(&[12, 0, 0], moment, exe(moment + 1) && f(moment + 1));
            check(&[13, 0, 0], moment, (moment..output).any(|k| exe(k) && f(k)));
            check(&[14, 0, 0], moment, (moment..output).all(|k| exe(k) && f(k)));
            check(&[15, 0, 0, 0, 1], moment, met);
        }
    }
}

/// Two requirements built over the same operand must agree at every position.
fn agree(random: &mut Random, one: impl Fn(&[u16]) -> Vec<u16>, other: impl Fn(&[u16]) -> Vec<u16>) {
    let mut varied = 0;
    for _ in 0..1500 {
        let f = requirement_over_two_atoms(random, 20, 10);
        let made = make::small_lasso(random);
        let run = run_of(&made);
        let truth = truth_by_position(&tree(&one(&f)), &run);
        assert_eq!(truth, truth_by_position(&tree(&other(&f)), &run), "{f:?} {made:?}");
        varied += usize::from(truth != truth_by_position(&tree(&f), &run));
    }
    assert!(varied > 300, "{varied} only");
}

fn joined(tags: &[u16], f: &[u16]) -> Vec<u16> {
    [tags, f].concat()
}

/// G f is not F not f, over all moments, those of Input and those of Output.
#[test]
fn always_is_not_finally_not() {
    let mut random = Random::new(46);
    for first_tag in [8, 16, 20] {
        let (finally, always) = (first_tag + 1, first_tag + 2);
        agree(&mut random, |f| joined(&[always], f), |f| joined(&[1, finally, 1], f));
    }
}

/// F f is an until whose first operand is always true.
#[test]
fn finally_is_an_until() {
    let mut random = Random::new(47);
    let truth = [1, 2, 3, 5];
    for first_tag in [8, 12, 16, 20] {
        let (finally, until) = (first_tag + 1, first_tag + 3);
        if first_tag != 12 {
            agree(&mut random, |f| joined(&[finally], f), |f| joined(&joined(&[until], &truth), f));
        } else {
            // At an Exe or an Output; at an Input only F^e may hold.
            let off_input = |f: &[u16]| joined(&[2, 1, 3], f);
            agree(
                &mut random,
                |f| off_input(&joined(&[finally], f)),
                |f| off_input(&joined(&joined(&[until], &truth), f)),
            );
        }
    }
}

/// F f is f now or F f next, along the run.
#[test]
fn finally_is_now_or_later() {
    let mut random = Random::new(48);
    agree(&mut random, |f| joined(&[9], f), |f| {
        let not_now = joined(&[1], f);
        let not_later = joined(&[1, 8, 9], f);
        [vec![1, 2], not_now, not_later].concat()
    });
}

/// 64 nodes on 4,096 positions, where many an operator must look ahead to the end.
#[test]
fn long_run_of_many_nodes() {
    let mut random = Random::new(49);
    for which in [Untranslated, Translated] {
        let made = make::long_lasso(&mut random);
        let numbers = make::requirement_of(&mut random, which, 64, 16, false);
        let tree = check_requirement(Code::Numbers(&numbers), which).expect("well-formed").tree;
        assert_eq!(truth_by_position(&tree, &run_of(&made)).len(), 4096);
    }
    // One a0 before the last position of the loop, none else: F goes there from everywhere, G from nowhere.
    let phases: Vec<u8> = (0..4096).map(|position| [2, 0, 1, 1][position % 4]).collect();
    let far = trace(&phases, &[4094], &[]);
    let run = run(&far, 0);
    assert_eq!(truth_by_position(&tree(&[9, 0, 0]), &run), vec![true; 4096]);
    assert_eq!(truth_by_position(&tree(&[10, 1, 0, 0]), &run), vec![false; 4096]);
    assert_eq!(truth_by_position(&tree(&[17, 0, 0]), &run), vec![false; 4096]);
    assert_eq!(truth_by_position(&tree(&[10, 9, 0, 0]), &run), vec![true; 4096]);
}

/// The shapes are met, and position 0 of every phase.
#[test]
fn shapes() {
    let mut random = Random::new(50);
    for shape in make::SHAPES {
        for _ in 0..50 {
            let made = make::lasso_of_shape(&mut random, shape, 14);
            let run = run_of(&made);
            let phases: Vec<u8> = (0..run.position_count()).map(|position| run.phase(position)).collect();
            assert!(make::has_shape(&phases, made.loop_start, shape), "{shape:?} {made:?}");
        }
    }
    assert!(!make::has_shape(&[2, 0, 1, 2, 0, 1], 0, Shape::OneInputInLoop));
    assert!(make::has_shape(&[2, 0, 1, 2, 0, 1], 3, Shape::OneInputInLoop));
    assert!(!make::has_shape(&[1, 2, 0, 1], 1, Shape::InputBeforeLoop));
}
