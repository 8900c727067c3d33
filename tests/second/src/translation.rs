//! The translation of a requirement to plain operators: as a tree, as numbers and as bytes.

use crate::code::{bytes_of_numbers, fill, Code};
use crate::refusal::{Cause, Refusal};
use crate::requirement::{check_requirement, Family, Mark, Node, Which};

/// "room under 1,408 bytes": "translating asks 1,408 whatever the length"
pub const ROOM: usize = 1408;

/// Translates the bytes of a requirement into the lent buffer; answers with how many bytes it wrote.
/// "Translating checks: room under 1,408 bytes, requirement." "its rest is unchanged; so is the rest of a translation's
/// buffer"
pub fn translate(code: &[u8], buffer: &mut [u8]) -> Result<usize, Refusal> {
    if buffer.len() < ROOM {
        return Err(Refusal::new(Cause::BufferTooShort, ROOM));
    }
    let requirement = check_requirement(Code::Bytes(code), Which::Untranslated)?;
    fill(&translated_bytes(&requirement.tree), buffer)
}

/// The translation as bytes.
pub fn translated_bytes(tree: &Node) -> Vec<u8> {
    bytes_of_numbers(&translated_numbers(tree))
}

/// The translation as numbers.
pub fn translated_numbers(tree: &Node) -> Vec<u16> {
    numbers_of(&translated(tree))
}

/// The translation as a tree. "operands translated first"
pub fn translated(tree: &Node) -> Node {
    match tree {
        Node::Atom(atom) => Node::Atom(*atom),
        Node::Mark(mark) => Node::Mark(*mark),
        Node::Not(f) => not(translated(f)),
        Node::And(f, g) => and(translated(f), translated(g)),
        Node::X(family, f) => translated_x(*family, translated(f)),
        Node::F(family, f) => translated_f(*family, translated(f)),
        Node::G(family, f) => translated_g(*family, translated(f)),
        Node::U(family, f, g) => translated_u(*family, translated(f), translated(g)),
    }
}

fn translated_x(family: Family, f: Node) -> Node {
    match family {
        Family::Plain => plain_x(f),
        // "X^e f: X(Exe and f)."
        Family::E => plain_x(and(exe(), f)),
        Family::I => second_at(Mark::Input, f),
        // "o with Output"
        Family::O => second_at(Mark::Output, f),
    }
}

/// "X^i f: (not Input) U (Input and X((not Input) U (Input and f)))."
fn second_at(mark: Mark, f: Node) -> Node {
    let second = plain_u(not(Node::Mark(mark)), and(Node::Mark(mark), f));
    plain_u(not(Node::Mark(mark)), and(Node::Mark(mark), plain_x(second)))
}

fn translated_f(family: Family, f: Node) -> Node {
    match family {
        Family::Plain => plain_f(f),
        // "F^e f: (not Output) U (Exe and f)."
        Family::E => plain_u(not(output()), and(exe(), f)),
        // "F^i f: F(Input and f)."
        Family::I => plain_f(and(input(), f)),
        // "o with Output"
        Family::O => plain_f(and(output(), f)),
    }
}

fn translated_g(family: Family, f: Node) -> Node {
    match family {
        Family::Plain => plain_g(f),
        // "G^e f: (f and Exe) U Output."
        Family::E => plain_u(and(f, exe()), output()),
        // "G^i f: G(Input implies f)."
        Family::I => plain_g(implies(input(), f)),
        // "o with Output"
        Family::O => plain_g(implies(output(), f)),
    }
}

fn translated_u(family: Family, f: Node, g: Node) -> Node {
    match family {
        Family::Plain => plain_u(f, g),
        // "f U^e g: (f and Exe) U (g and Exe)."
        Family::E => plain_u(and(f, exe()), and(g, exe())),
        // "f U^i g: (Input implies f) U (Input and g)."
        Family::I => plain_u(implies(input(), f), and(input(), g)),
        // "o with Output"
        Family::O => plain_u(implies(output(), f), and(output(), g)),
    }
}

fn input() -> Node {
    Node::Mark(Mark::Input)
}

fn exe() -> Node {
    Node::Mark(Mark::Exe)
}

fn output() -> Node {
    Node::Mark(Mark::Output)
}

fn not(f: Node) -> Node {
    Node::Not(Box::new(f))
}

/// "A conjunction keeps the order shown."
fn and(f: Node, g: Node) -> Node {
    Node::And(Box::new(f), Box::new(g))
}

/// "'p implies q' written not(p and not q)"
fn implies(p: Node, q: Node) -> Node {
    not(and(p, not(q)))
}

fn plain_x(f: Node) -> Node {
    Node::X(Family::Plain, Box::new(f))
}

fn plain_f(f: Node) -> Node {
    Node::F(Family::Plain, Box::new(f))
}

fn plain_g(f: Node) -> Node {
    Node::G(Family::Plain, Box::new(f))
}

fn plain_u(f: Node, g: Node) -> Node {
    Node::U(Family::Plain, Box::new(f), Box::new(g))
}

/// The numbers of any requirement's code, "operator first".
pub fn numbers_of(tree: &Node) -> Vec<u16> {
    let mut numbers = vec![tag_of(tree)];
    if let Node::Atom(atom) = tree {
        numbers.push(*atom);
    }
    for operand in tree.operands() {
        numbers.extend(numbers_of(operand));
    }
    numbers
}

/// "0 atom and its number (0 to 31); 1 not; 2 and; marks 3 Input, 4 Exe, 5 Output; plain X, F, G, U 8 to 11; e
/// operators 12 to 15, i 16 to 19, o 20 to 23, in the same order."
fn tag_of(tree: &Node) -> u16 {
    match tree {
        Node::Atom(_) => 0,
        Node::Not(_) => 1,
        Node::And(_, _) => 2,
        Node::Mark(Mark::Input) => 3,
        Node::Mark(Mark::Exe) => 4,
        Node::Mark(Mark::Output) => 5,
        Node::X(family, _) => first_tag(*family),
        Node::F(family, _) => first_tag(*family) + 1,
        Node::G(family, _) => first_tag(*family) + 2,
        Node::U(family, _, _) => first_tag(*family) + 3,
    }
}

fn first_tag(family: Family) -> u16 {
    match family {
        Family::Plain => 8,
        Family::E => 12,
        Family::I => 16,
        Family::O => 20,
    }
}
