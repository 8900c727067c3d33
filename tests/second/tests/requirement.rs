//! Requirements: check, reader, writer.

use second::requirement::Which::{Translated, Untranslated};
use second::requirement::{
    check_requirement, read_requirement, write_requirement, Family, Mark, Node, Requirement, Which,
};
use second::{Cause, Code, Refusal};

const M1: [u8; 7] = [1, 2, 0, 0, 1, 0, 1];
const M2: [u8; 9] = [18, 1, 2, 0, 0, 1, 16, 0, 1];
const M11: [u8; 13] = [11, 1, 3, 2, 3, 8, 11, 1, 3, 2, 3, 0, 1];

fn accepts(bytes: &[u8], which: Which) -> Requirement {
    check_requirement(Code::Bytes(bytes), which).expect("accepted")
}

fn refuses(bytes: &[u8], which: Which, cause: Cause, place: usize) {
    assert_eq!(check_requirement(Code::Bytes(bytes), which), Err(Refusal { cause, place }), "{bytes:02X?}");
}

fn refuses_numbers(numbers: &[u16], which: Which, cause: Cause, place: usize) {
    assert_eq!(check_requirement(Code::Numbers(numbers), which), Err(Refusal { cause, place }), "{numbers:?}");
}

fn atom(number: u16) -> Box<Node> {
    Box::new(Node::Atom(number))
}

fn mark(mark: Mark) -> Box<Node> {
    Box::new(Node::Mark(mark))
}

fn not(f: Box<Node>) -> Box<Node> {
    Box::new(Node::Not(f))
}

fn and(f: Box<Node>, g: Box<Node>) -> Box<Node> {
    Box::new(Node::And(f, g))
}

/// "For 1 2 0 0 1 0 1, not(a0 and not a1)"
#[test]
fn code_of_m1() {
    let requirement = accepts(&M1, Untranslated);
    assert_eq!(requirement.tree, *not(and(atom(0), not(atom(1)))));
    assert_eq!(requirement.node_count, 5);
    assert_eq!(requirement.depth, 4);
    assert_eq!(requirement.number_count(), 7);
    assert_eq!(requirement.numbers, [1, 2, 0, 0, 1, 0, 1]);
    assert_eq!(accepts(&M1, Translated), requirement);
}

/// "M2 G^i not(a0 and not X^i a1)"
#[test]
fn code_of_m2() {
    let requirement = accepts(&M2, Untranslated);
    let next = Box::new(Node::X(Family::I, atom(1)));
    assert_eq!(requirement.tree, Node::G(Family::I, not(and(atom(0), not(next)))));
    assert_eq!((requirement.node_count, requirement.depth, requirement.number_count()), (7, 6, 9));
    refuses(&M2, Translated, Cause::TagNotAllowed, 0);
}

/// "M11 X^i a1 translates to 11 1 3 2 3 8 11 1 3 2 3 0 1."
/// "(not Input) U (Input and X((not Input) U (Input and f)))"
#[test]
fn code_of_m11() {
    let requirement = accepts(&M11, Translated);
    let not_input = || not(mark(Mark::Input));
    let inner = Node::U(Family::Plain, not_input(), and(mark(Mark::Input), atom(1)));
    let next = Node::X(Family::Plain, Box::new(inner));
    let outer = Node::U(Family::Plain, not_input(), and(mark(Mark::Input), Box::new(next)));
    assert_eq!(requirement.tree, outer);
    assert_eq!((requirement.node_count, requirement.depth, requirement.number_count()), (12, 6, 13));
    assert_eq!(accepts(&M11, Untranslated), requirement);
}

/// "a lone atom has depth 1"
#[test]
fn lone_atom_has_depth_1() {
    let requirement = accepts(&[0, 31], Untranslated);
    assert_eq!(requirement.tree, Node::Atom(31));
    assert_eq!((requirement.node_count, requirement.depth, requirement.number_count()), (1, 1, 2));
}

/// All tags: "0 atom [...]; 1 not; 2 and; marks 3 Input, 4 Exe, 5 Output; plain X, F, G, U 8 to 11; e operators 12 to 15,
/// i 16 to 19, o 20 to 23, in the same order".
#[test]
fn every_tag() {
    assert_eq!(accepts(&[3], Untranslated).tree, Node::Mark(Mark::Input));
    assert_eq!(accepts(&[4], Untranslated).tree, Node::Mark(Mark::Exe));
    assert_eq!(accepts(&[5], Untranslated).tree, Node::Mark(Mark::Output));
    assert_eq!(accepts(&[1, 3], Untranslated).tree, *not(mark(Mark::Input)));
    assert_eq!(accepts(&[2, 3, 4], Untranslated).tree, *and(mark(Mark::Input), mark(Mark::Exe)));
    for (first, family) in [(8, Family::Plain), (12, Family::E), (16, Family::I), (20, Family::O)] {
        let f = || mark(Mark::Input);
        let g = || mark(Mark::Output);
        assert_eq!(accepts(&[first, 3], Untranslated).tree, Node::X(family, f()));
        assert_eq!(accepts(&[first + 1, 3], Untranslated).tree, Node::F(family, f()));
        assert_eq!(accepts(&[first + 2, 3], Untranslated).tree, Node::G(family, f()));
        assert_eq!(accepts(&[first + 3, 3, 5], Untranslated).tree, Node::U(family, f(), g()));
    }
}

/// "tag unknown or not allowed": 6, 7 and above 23, "A translated requirement has tags up to 11 only".
#[test]
fn tags_not_allowed() {
    for tag in [6, 7, 24, 25, 127] {
        refuses(&[tag, 3, 3], Untranslated, Cause::TagNotAllowed, 0);
        refuses(&[1, tag, 3, 3], Untranslated, Cause::TagNotAllowed, 1);
        refuses(&[1, tag, 3, 3], Translated, Cause::TagNotAllowed, 1);
    }
    for tag in 12..=23 {
        refuses(&[2, 0, 5, tag, 3, 3], Translated, Cause::TagNotAllowed, 3);
    }
    for tag in 8..=10 {
        accepts(&[tag, 3], Translated);
    }
    accepts(&[11, 3, 3], Translated);
}

/// "Tags are numbers of the coding: AC 02 is refusal 3 at its first byte."
#[test]
fn tag_of_two_bytes() {
    refuses(&[0xAC, 0x02], Untranslated, Cause::TagNotAllowed, 0);
    refuses(&[1, 0xAC, 0x02], Untranslated, Cause::TagNotAllowed, 1);
    refuses_numbers(&[1, 300], Untranslated, Cause::TagNotAllowed, 1);
    refuses(&[1, 0xFF, 0xFF, 0x03], Translated, Cause::TagNotAllowed, 1);
}

/// "An atom's number above 31 is 3 at that number"
#[test]
fn atom_above_31() {
    refuses(&[0, 32], Untranslated, Cause::AtomAbove31, 1);
    refuses(&[0, 0xAC, 0x02], Untranslated, Cause::AtomAbove31, 1);
    refuses(&[2, 0, 31, 0, 32], Translated, Cause::AtomAbove31, 4);
    refuses_numbers(&[2, 0, 31, 0, 65535], Translated, Cause::AtomAbove31, 4);
}

/// "An empty requirement is 1 at 0."
#[test]
fn empty_requirement() {
    refuses(&[], Untranslated, Cause::CutShort, 0);
    refuses(&[], Translated, Cause::CutShort, 0);
    refuses_numbers(&[], Untranslated, Cause::CutShort, 0);
}

/// "A number that is missing stands where it should begin: at the end of the bytes (writer: the count of numbers)."
#[test]
fn missing_numbers() {
    refuses(&[0], Untranslated, Cause::CutShort, 1);
    refuses(&[1], Untranslated, Cause::CutShort, 1);
    refuses(&[2, 3], Untranslated, Cause::CutShort, 2);
    refuses(&[1, 2, 0, 0, 1, 0], Untranslated, Cause::CutShort, 6);
    refuses_numbers(&[1, 2, 0, 0, 1, 0], Untranslated, Cause::CutShort, 6);
    refuses_numbers(&[2, 0, 5], Translated, Cause::CutShort, 3);
}

/// "a number's fault stands at its first byte"
#[test]
fn faulty_numbers() {
    refuses(&[0x80, 0x00], Untranslated, Cause::NotShortest, 0);
    refuses(&[1, 0x83, 0x00], Untranslated, Cause::NotShortest, 1);
    refuses(&[0, 0x80, 0x80, 0x04], Untranslated, Cause::TooLarge, 1);
    refuses(&[2, 3, 0x80, 0x80], Translated, Cause::CutShort, 2);
}

/// "After a complete requirement anything more is left over, 1."
#[test]
fn left_over() {
    refuses(&[3, 0], Untranslated, Cause::LeftOver, 1);
    refuses(&[3, 0x80], Untranslated, Cause::LeftOver, 1);
    refuses(&[0, 1, 6, 6], Untranslated, Cause::LeftOver, 2);
    refuses_numbers(&[0, 1, 300], Untranslated, Cause::LeftOver, 2);
    let mut bytes = M11.to_vec();
    bytes.push(0x80);
    refuses(&bytes, Translated, Cause::LeftOver, 13);
}

/// A chain of nots over a mark: so many nodes, as deep as many.
fn chain(nodes: usize) -> Vec<u8> {
    let mut bytes = vec![1; nodes - 1];
    bytes.push(3);
    bytes
}

/// Conjunctions of marks of so many nodes (odd), of least depth.
fn bush(nodes: usize) -> Vec<u8> {
    if nodes == 1 {
        return vec![4];
    }
    let pairs = (nodes - 1) / 2;
    let first = if pairs % 2 == 1 { pairs } else { pairs - 1 };
    let mut bytes = vec![2];
    bytes.extend(bush(first));
    bytes.extend(bush(nodes - 1 - first));
    bytes
}

/// A requirement of so many nodes, of small depth.
fn nodes(count: usize) -> Vec<u8> {
    if count % 2 == 1 {
        return bush(count);
    }
    let mut bytes = vec![1];
    bytes.extend(bush(count - 1));
    bytes
}

/// "At most 64 nodes, depth 16 (a lone atom has depth 1)."
#[test]
fn limits_of_an_untranslated_requirement() {
    let requirement = accepts(&nodes(64), Untranslated);
    assert_eq!(requirement.node_count, 64);
    assert!(requirement.depth < 16);
    refuses(&nodes(65), Untranslated, Cause::LimitPassed, 64);
    assert_eq!(accepts(&chain(16), Untranslated).depth, 16);
    refuses(&chain(17), Untranslated, Cause::LimitPassed, 16);
}

/// "at most 704 nodes, depth 76"
#[test]
fn limits_of_a_translated_requirement() {
    let requirement = accepts(&nodes(704), Translated);
    assert_eq!(requirement.node_count, 704);
    assert!(requirement.depth < 76);
    refuses(&nodes(705), Translated, Cause::LimitPassed, 704);
    assert_eq!(accepts(&chain(76), Translated).depth, 76);
    refuses(&chain(77), Translated, Cause::LimitPassed, 76);
}

/// "4 | node or depth limit passed, at that node's tag | byte": an atom's number takes a byte of its own.
#[test]
fn limit_stands_at_the_tag() {
    // Seventeen deep at the second operand of the first conjunction.
    let mut bytes = vec![2, 0, 7];
    bytes.extend(chain(16));
    refuses(&bytes, Untranslated, Cause::LimitPassed, 3 + 15);
    let numbers: Vec<u16> = bytes.iter().map(|byte| *byte as u16).collect();
    refuses_numbers(&numbers, Untranslated, Cause::LimitPassed, 3 + 15);
}

/// "the 65th (or 705th) node's tag that is missing is 1, unknown is 3, else 4"
#[test]
fn sixty_fifth_tag() {
    let mut bytes = nodes(65);
    bytes.truncate(64);
    refuses(&bytes, Untranslated, Cause::CutShort, 64);
    for (tag, cause) in [(6, Cause::TagNotAllowed), (24, Cause::TagNotAllowed), (23, Cause::LimitPassed)] {
        let mut bytes = bytes.clone();
        bytes.push(tag);
        refuses(&bytes, Untranslated, cause, 64);
    }
    let mut cut = bytes.clone();
    cut.push(0x80);
    refuses(&cut, Untranslated, Cause::CutShort, 64);
    let mut longer = bytes.clone();
    longer.extend([0x80, 0x00]);
    refuses(&longer, Untranslated, Cause::NotShortest, 64);
}

#[test]
fn seven_hundred_and_fifth_tag() {
    let mut bytes = nodes(705);
    bytes.truncate(704);
    refuses(&bytes, Translated, Cause::CutShort, 704);
    for (tag, cause) in [(7, Cause::TagNotAllowed), (12, Cause::TagNotAllowed), (11, Cause::LimitPassed)] {
        let mut bytes = bytes.clone();
        bytes.push(tag);
        refuses(&bytes, Translated, cause, 704);
    }
}

#[test]
fn tag_that_is_too_deep() {
    let bytes = vec![1; 16];
    refuses(&bytes, Untranslated, Cause::CutShort, 16);
    for (tag, cause) in [(6, Cause::TagNotAllowed), (24, Cause::TagNotAllowed), (0, Cause::LimitPassed)] {
        let mut bytes = bytes.clone();
        bytes.push(tag);
        refuses(&bytes, Untranslated, cause, 16);
    }
}

/// "so a limit passed at the atom's tag comes first"
#[test]
fn limit_before_the_atom_number() {
    let mut bytes = vec![1; 16];
    bytes.extend([0, 32]);
    refuses(&bytes, Untranslated, Cause::LimitPassed, 16);
    let mut bytes = vec![1; 15];
    bytes.extend([0, 32]);
    refuses(&bytes, Untranslated, Cause::AtomAbove31, 16);
    let mut bytes = nodes(65);
    bytes.truncate(64);
    bytes.extend([0, 32]);
    refuses(&bytes, Untranslated, Cause::LimitPassed, 64);
}

/// "Reading and writing undo each other"; "the rest of the buffer is unchanged".
#[test]
fn reader_and_writer() {
    let mut numbers = [777; 16];
    assert_eq!(read_requirement(&M11, Translated, &mut numbers), Ok(13));
    assert_eq!(numbers, [11, 1, 3, 2, 3, 8, 11, 1, 3, 2, 3, 0, 1, 777, 777, 777]);
    let mut bytes = [0xEE; 15];
    assert_eq!(write_requirement(&numbers[..13], Translated, &mut bytes), Ok(13));
    assert_eq!(bytes[..13], M11);
    assert_eq!(bytes[13..], [0xEE, 0xEE]);
}

/// "In both 10 comes last (for the reader: numbers needed)"
#[test]
fn buffer_too_short() {
    let mut numbers = [777; 7];
    let short = Err(Refusal { cause: Cause::BufferTooShort, place: 7 });
    assert_eq!(read_requirement(&M1, Untranslated, &mut numbers[..6]), short);
    assert_eq!(numbers, [777; 7]);
    assert_eq!(read_requirement(&M1, Untranslated, &mut []), short);
    assert_eq!(read_requirement(&M1, Untranslated, &mut numbers), Ok(7));
    let mut bytes = [0xEE; 7];
    assert_eq!(write_requirement(&numbers, Untranslated, &mut bytes[..6]), short);
    assert_eq!(bytes, [0xEE; 7]);
    assert_eq!(write_requirement(&numbers, Untranslated, &mut bytes), Ok(7));
    assert_eq!(bytes, M1);
}

#[test]
fn every_other_refusal_comes_before_10() {
    let mut none: [u16; 0] = [];
    let refused = |cause, place| Err(Refusal { cause, place });
    assert_eq!(read_requirement(&[3, 3], Untranslated, &mut none), refused(Cause::LeftOver, 1));
    assert_eq!(read_requirement(&[1, 6], Untranslated, &mut none), refused(Cause::TagNotAllowed, 1));
    assert_eq!(read_requirement(&chain(17), Untranslated, &mut none), refused(Cause::LimitPassed, 16));
    assert_eq!(write_requirement(&[1], Untranslated, &mut []), refused(Cause::CutShort, 1));
    assert_eq!(write_requirement(&[1, 12, 3], Translated, &mut []), refused(Cause::TagNotAllowed, 1));
    let mut bytes = [0xEE; 9];
    assert_eq!(write_requirement(&[0, 32], Untranslated, &mut bytes), refused(Cause::AtomAbove31, 1));
    assert_eq!(bytes, [0xEE; 9]);
}
