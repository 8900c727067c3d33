//! The translation: its table, its bytes, its checks, and its agreement with the requirement.

mod bench;

use std::collections::BTreeSet;

use bench::{BENCH, BENCH_LOOP_START};
use second::meaning::{truth_by_position, EndlessRun};
use second::random::{self as make, Random};
use second::requirement::Which::{Translated, Untranslated};
use second::requirement::{check_requirement, Node, Requirement, Which};
use second::translation::{numbers_of, translate, translated, translated_bytes, translated_numbers, ROOM};
use second::{Cause, Code, Refusal};

fn requirement(numbers: &[u16], which: Which) -> Requirement {
    check_requirement(Code::Numbers(numbers), which).expect("well-formed")
}

fn tree(numbers: &[u16]) -> Node {
    requirement(numbers, Untranslated).tree
}

/// As a tree, as numbers, as bytes and by the entry: all the same.
fn translates(numbers: &[u16], expected: &[u16]) {
    let tree = tree(numbers);
    let expected_bytes: Vec<u8> = expected.iter().map(|value| *value as u8).collect();
    assert_eq!(translated(&tree), requirement(expected, Translated).tree, "{numbers:?}");
    assert_eq!(translated_numbers(&tree), expected, "{numbers:?}");
    assert_eq!(translated_bytes(&tree), expected_bytes, "{numbers:?}");
    let code: Vec<u8> = numbers.iter().map(|value| *value as u8).collect();
    let mut buffer = [0xEE; 1500];
    assert_eq!(translate(&code, &mut buffer), Ok(expected.len()));
    assert_eq!(buffer[..expected.len()], expected_bytes);
    assert!(buffer[expected.len()..].iter().all(|byte| *byte == 0xEE));
}

// ---------------------------------------------------------------------------------------------------------------------
// The table
// ---------------------------------------------------------------------------------------------------------------------

/// "M11 X^i a1 translates to 11 1 3 2 3 8 11 1 3 2 3 0 1."
#[test]
fn m11() {
    translates(&[16, 0, 1], &[11, 1, 3, 2, 3, 8, 11, 1, 3, 2, 3, 0, 1]);
}

/// "X^e f: X(Exe and f). F^e f: (not Output) U (Exe and f). G^e f: (f and Exe) U Output. f U^e g: (f and Exe) U (g and
/// Exe)."
#[test]
fn execution_operators() {
    translates(&[12, 0, 7], &[8, 2, 4, 0, 7]);
    translates(&[13, 0, 7], &[11, 1, 5, 2, 4, 0, 7]);
    translates(&[14, 0, 7], &[11, 2, 0, 7, 4, 5]);
    translates(&[15, 0, 7, 0, 9], &[11, 2, 0, 7, 4, 2, 0, 9, 4]);
}

/// "F^i f: F(Input and f). G^i f: G(Input implies f). f U^i g: (Input implies f) U (Input and g)."
#[test]
fn input_operators() {
    translates(&[17, 0, 7], &[9, 2, 3, 0, 7]);
    translates(&[18, 0, 7], &[10, 1, 2, 3, 1, 0, 7]);
    translates(&[19, 0, 7, 0, 9], &[11, 1, 2, 3, 1, 0, 7, 2, 3, 0, 9]);
}

/// "o with Output."
#[test]
fn output_operators() {
    translates(&[20, 0, 7], &[11, 1, 5, 2, 5, 8, 11, 1, 5, 2, 5, 0, 7]);
    translates(&[21, 0, 7], &[9, 2, 5, 0, 7]);
    translates(&[22, 0, 7], &[10, 1, 2, 5, 1, 0, 7]);
    translates(&[23, 0, 7, 0, 9], &[11, 1, 2, 5, 1, 0, 7, 2, 5, 0, 9]);
}

/// "The translation uses only atoms, not, and, plain operators and the three phase marks": these stay as they are.
#[test]
fn plain_requirements_stay() {
    for numbers in [
        vec![0, 31],
        vec![3],
        vec![4],
        vec![5],
        vec![1, 0, 3],
        vec![2, 0, 3, 4],
        vec![8, 0, 3],
        vec![9, 0, 3],
        vec![10, 0, 3],
        vec![11, 0, 3, 0, 4],
        vec![1, 2, 0, 0, 1, 0, 1],
    ] {
        translates(&numbers, &numbers);
    }
}

/// "operands translated first": wherever an operand stands.
#[test]
fn operands() {
    let x = [8, 2, 4, 0, 1];
    for (numbers, expected) in [
        (vec![1, 12, 0, 1], [&[1], &x[..]].concat()),
        (vec![2, 12, 0, 1, 12, 0, 1], [&[2], &x[..], &x[..]].concat()),
        (vec![8, 12, 0, 1], [&[8], &x[..]].concat()),
        (vec![11, 12, 0, 1, 12, 0, 1], [&[11], &x[..], &x[..]].concat()),
        (vec![14, 12, 0, 1], [&[11, 2], &x[..], &[4, 5]].concat()),
        (vec![15, 12, 0, 1, 12, 0, 1], [&[11, 2], &x[..], &[4, 2], &x[..], &[4]].concat()),
        (vec![19, 12, 0, 1, 12, 0, 1], [&[11, 1, 2, 3, 1], &x[..], &[2, 3], &x[..]].concat()),
        (vec![23, 12, 0, 1, 12, 0, 1], [&[11, 1, 2, 5, 1], &x[..], &[2, 5], &x[..]].concat()),
        (vec![20, 12, 0, 1], [&[11, 1, 5, 2, 5, 8, 11, 1, 5, 2, 5], &x[..]].concat()),
        (vec![22, 12, 0, 1], [&[10, 1, 2, 5, 1], &x[..]].concat()),
    ] {
        translates(&numbers, &expected);
    }
}

/// Whatever the checker reads as a tree is written back as the same numbers.
#[test]
fn numbers_of_trees() {
    let mut random = Random::new(51);
    for which in [Untranslated, Translated] {
        for _ in 0..500 {
            let numbers = make::requirement(&mut random, which);
            assert_eq!(numbers_of(&requirement(&numbers, which).tree), numbers);
        }
    }
}

// ---------------------------------------------------------------------------------------------------------------------
// The published forms
// ---------------------------------------------------------------------------------------------------------------------

/// The positions of the bench trace at which the two differ.
fn differing(numbers: &[u16], published: &[u16]) -> Vec<usize> {
    let run = EndlessRun::new(&BENCH, BENCH_LOOP_START).expect("well-formed");
    let truth = truth_by_position(&tree(numbers), &run);
    let published = truth_by_position(&tree(published), &run);
    (0..12).filter(|position| truth[*position] != published[*position]).collect()
}

/// "The published G^e target, 'not Exe', is wrong at Input": it is true of anything there.
#[test]
fn published_always_in_execution() {
    assert_eq!(differing(&[14, 0, 0], &[11, 2, 0, 0, 4, 1, 4]), [1, 5, 9]);
}

/// "The published F^e target is wrong at an Input as well": it fails there, whatever follows.
#[test]
fn published_finally_in_execution() {
    assert_eq!(differing(&[13, 0, 0], &[11, 4, 2, 0, 0, 4]), [5]);
}

/// "the published X^i form is wrong off Input", "the published X^o has X^i's fault": the nearest is taken.
#[test]
fn published_next_input_and_output() {
    // Off Input the nearest Input is taken for the second, and one of the two is 5, the other not: at 0 alone they are
    // alike, for neither 1 nor 5 has a1.
    let off_input = differing(&[16, 0, 1], &[8, 11, 1, 3, 2, 3, 0, 1]);
    assert_eq!(off_input, [2, 3, 4, 6, 7, 8, 10, 11]);
    // Off Output likewise: of 4 and 8 only 8 has a0.
    let off_output = differing(&[20, 0, 0], &[8, 11, 1, 5, 2, 5, 0, 0]);
    assert_eq!(off_output, [1, 2, 3, 5, 6, 7, 9, 10, 11]);
}

// ---------------------------------------------------------------------------------------------------------------------
// The checks
// ---------------------------------------------------------------------------------------------------------------------

/// A refused translation, and a buffer that it left alone.
fn refuses(code: &[u8], room: usize, cause: Cause, place: usize) {
    let mut buffer = vec![0xEE; room];
    assert_eq!(translate(code, &mut buffer), Err(Refusal { cause, place }), "{code:?} {room}");
    assert!(buffer.iter().all(|byte| *byte == 0xEE));
}

/// "room under 1,408 bytes", whatever the length
#[test]
fn room() {
    assert_eq!(ROOM, 1408);
    refuses(&[3], 0, Cause::BufferTooShort, 1408);
    refuses(&[3], 1407, Cause::BufferTooShort, 1408);
    let mut buffer = [0xEE; 1408];
    assert_eq!(translate(&[3], &mut buffer), Ok(1));
    assert_eq!(buffer[..2], [3, 0xEE]);
}

/// "Translating checks: room under 1,408 bytes, requirement."
#[test]
fn room_comes_before_the_requirement() {
    refuses(&[], 1407, Cause::BufferTooShort, 1408);
    refuses(&[], 1408, Cause::CutShort, 0);
    refuses(&[24], 0, Cause::BufferTooShort, 1408);
    refuses(&[24], 2000, Cause::TagNotAllowed, 0);
    refuses(&[0, 32], 1408, Cause::AtomAbove31, 1);
    refuses(&[3, 3], 1408, Cause::LeftOver, 1);
    refuses(&[2, 3], 1408, Cause::CutShort, 2);
    refuses(&[0x81, 0x00], 1408, Cause::NotShortest, 0);
}

/// It is read as an untranslated one: 64 nodes and depth 16, whatever its tags.
#[test]
fn limits() {
    let deep = [vec![1; 15], vec![3]].concat();
    let mut buffer = [0; 1408];
    assert_eq!(translate(&deep, &mut buffer), Ok(16));
    let too_deep = [vec![1; 16], vec![3]].concat();
    refuses(&too_deep, 1408, Cause::LimitPassed, 16);
}

/// "at most 704 nodes, depth 76": fifteen X^i over an atom reach that depth.
#[test]
fn deepest_translation() {
    for next in [16, 20] {
        let numbers = [vec![next; 15], vec![0, 31]].concat();
        let translation = requirement(&translated_numbers(&tree(&numbers)), Translated);
        assert_eq!((translation.depth, translation.node_count), (76, 15 * 11 + 1));
    }
}

/// 64 nodes, of which as many are X^i as the depth allows: five branches of X^i, each over an atom.
#[test]
fn longest_translation() {
    let branch = |nodes: usize| [vec![16; nodes - 1], vec![0, 31]].concat();
    let left = [vec![2], branch(14), branch(14)].concat();
    let right = [vec![2], branch(14), vec![2], branch(13), branch(5)].concat();
    let numbers = [vec![2], left, right].concat();
    let requirement_read = requirement(&numbers, Untranslated);
    assert_eq!((requirement_read.node_count, requirement_read.depth), (64, 16));
    let translation = requirement(&translated_numbers(&requirement_read.tree), Translated);
    assert_eq!((translation.node_count, translation.depth), (55 * 11 + 4 + 5, 2 + 13 * 5 + 1));
    assert_eq!(translated_bytes(&requirement_read.tree).len(), 55 * 11 + 4 + 5 + 5);
}

// ---------------------------------------------------------------------------------------------------------------------
// Random requirements
// ---------------------------------------------------------------------------------------------------------------------

/// "agrees with the requirement at every position"
#[test]
fn translation_agrees_at_every_position() {
    let mut random = Random::new(52);
    let mut varied = 0;
    for _ in 0..6000 {
        let made = make::small_question(&mut random, Untranslated);
        let tree = tree(&made.numbers);
        let run = EndlessRun::new(&made.lasso.trace, made.lasso.loop_start).expect("well-formed");
        let truth = truth_by_position(&tree, &run);
        assert_eq!(truth, truth_by_position(&translated(&tree), &run), "{made:?}");
        varied += usize::from(truth.contains(&true) && truth.contains(&false));
    }
    assert!(varied > 3000, "{varied} only");
}

/// Every operator alone, over atoms, on many lassos.
#[test]
fn each_operator_agrees() {
    let mut random = Random::new(53);
    for tag in 8..=23 {
        let numbers = if tag % 4 == 3 { vec![tag, 0, 0, 0, 1] } else { vec![tag, 0, 0] };
        let tree = tree(&numbers);
        let mut varied = 0;
        for _ in 0..400 {
            let made = make::small_lasso(&mut random);
            let run = EndlessRun::new(&made.trace, made.loop_start).expect("well-formed");
            let truth = truth_by_position(&tree, &run);
            assert_eq!(truth, truth_by_position(&translated(&tree), &run), "{tag} {made:?}");
            varied += usize::from(truth.contains(&true) && truth.contains(&false));
        }
        assert!(varied > 20, "{tag}: {varied} only");
    }
}

/// "A translated requirement has tags up to 11 only, at most 704 nodes, depth 76": every translation is one, and
/// translating it again would change nothing.
#[test]
fn translations_are_within_the_limits() {
    let mut random = Random::new(54);
    let mut longest = 0;
    let mut deepest = 0;
    for _ in 0..3000 {
        let tree = tree(&make::requirement(&mut random, Untranslated));
        let bytes = translated_bytes(&tree);
        let translation = check_requirement(Code::Bytes(&bytes), Translated).expect("within the limits");
        assert_eq!(translation.tree, translated(&tree));
        assert_eq!(translated(&translation.tree), translation.tree);
        assert!(translation.node_count <= 704 && translation.depth <= 76 && bytes.len() <= ROOM);
        assert!(translation.node_count >= tree.node_count() && translation.depth >= tree.depth());
        longest = longest.max(translation.node_count);
        deepest = deepest.max(translation.depth);
    }
    assert!(longest > 300 && deepest > 50, "{longest} nodes, depth {deepest}");
}

/// Made and damaged cases of translating: what is accepted is the translation, and a refusal changes nothing.
#[test]
fn made_cases() {
    let mut random = Random::new(55);
    let mut accepted = 0;
    let mut causes = BTreeSet::new();
    for _ in 0..3000 {
        let case = make::translating_case(&mut random);
        let mut buffer = case.buffer.clone();
        match translate(&case.code, &mut buffer) {
            Ok(count) => {
                let tree = check_requirement(Code::Bytes(&case.code), Untranslated).expect("accepted").tree;
                assert_eq!(buffer[..count], translated_bytes(&tree));
                assert_eq!(buffer[count..], case.buffer[count..]);
                accepted += 1;
            }
            Err(refusal) => {
                assert_eq!(buffer, case.buffer);
                assert_eq!(refusal.cause == Cause::BufferTooShort, buffer.len() < ROOM);
                causes.insert(refusal.cause);
            }
        }
    }
    assert!(accepted > 1000, "{accepted} only");
    assert_eq!(causes.len(), 8, "{causes:?}");
}
