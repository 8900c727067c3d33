//! A requirement: its check, its reader and its writer.

use crate::code::{bytes_of_numbers, fill, Code, Walk};
use crate::refusal::{Cause, Refusal};

/// "the caller says which of the two is read"
#[derive(Clone, Copy, Debug, PartialEq, Eq)]
pub enum Which {
    Untranslated,
    Translated,
}

impl Which {
    /// "o 20 to 23"; "A translated requirement has tags up to 11 only"
    pub fn highest_tag(self) -> u16 {
        match self {
            Which::Untranslated => 23,
            Which::Translated => 11,
        }
    }

    /// "At most 64 nodes"; "at most 704 nodes"
    pub fn most_nodes(self) -> usize {
        match self {
            Which::Untranslated => 64,
            Which::Translated => 704,
        }
    }

    /// "depth 16"; "depth 76"
    pub fn most_depth(self) -> usize {
        match self {
            Which::Untranslated => 16,
            Which::Translated => 76,
        }
    }
}

/// "marks 3 Input, 4 Exe, 5 Output"
#[derive(Clone, Copy, Debug, PartialEq, Eq)]
pub enum Mark {
    Input,
    Exe,
    Output,
}

/// "plain X, F, G, U 8 to 11; e operators 12 to 15, i 16 to 19, o 20 to 23, in the same order"
#[derive(Clone, Copy, Debug, PartialEq, Eq)]
pub enum Family {
    Plain,
    E,
    I,
    O,
}

/// "A node is an atom, a mark, or an operator over one or two nodes."
#[derive(Clone, Debug, PartialEq, Eq)]
pub enum Node {
    Atom(u16),
    Mark(Mark),
    Not(Box<Node>),
    And(Box<Node>, Box<Node>),
    X(Family, Box<Node>),
    F(Family, Box<Node>),
    G(Family, Box<Node>),
    U(Family, Box<Node>, Box<Node>),
}

impl Node {
    /// Its operands, in the order of its code.
    pub fn operands(&self) -> Vec<&Node> {
        match self {
            Node::Atom(_) | Node::Mark(_) => vec![],
            Node::Not(f) | Node::X(_, f) | Node::F(_, f) | Node::G(_, f) => vec![f],
            Node::And(f, g) | Node::U(_, f, g) => vec![f, g],
        }
    }

    /// The number of nodes from this one down, this one counted.
    pub fn node_count(&self) -> usize {
        let mut count = 1;
        for operand in self.operands() {
            count += operand.node_count();
        }
        count
    }

    /// "a lone atom has depth 1"
    pub fn depth(&self) -> usize {
        let mut deepest = 0;
        for operand in self.operands() {
            deepest = deepest.max(operand.depth());
        }
        1 + deepest
    }
}

/// A requirement that was accepted.
#[derive(Clone, Debug, PartialEq, Eq)]
pub struct Requirement {
    pub tree: Node,
    pub node_count: usize,
    pub depth: usize,
    /// The numbers of its code, in order.
    pub numbers: Vec<u16>,
}

impl Requirement {
    pub fn number_count(&self) -> usize {
        self.numbers.len()
    }
}

/// The check of a requirement. "Codes are read left to right and the first fault counts [...] then left-over bytes"
pub fn check_requirement(code: Code, which: Which) -> Result<Requirement, Refusal> {
    let mut descent = Descent { walk: Walk::new(code), which, nodes: 0 };
    let tree = descent.node(1)?;
    descent.walk.end()?;
    Ok(Requirement {
        node_count: tree.node_count(),
        depth: tree.depth(),
        tree,
        numbers: descent.walk.into_numbers(),
    })
}

/// The reader: the bytes of a requirement into its numbers; answers with how many.
pub fn read_requirement(bytes: &[u8], which: Which, buffer: &mut [u16]) -> Result<usize, Refusal> {
    let requirement = check_requirement(Code::Bytes(bytes), which)?;
    fill(&requirement.numbers, buffer)
}

/// The writer: the numbers of a requirement into its bytes; answers with how many.
pub fn write_requirement(numbers: &[u16], which: Which, buffer: &mut [u8]) -> Result<usize, Refusal> {
    let requirement = check_requirement(Code::Numbers(numbers), which)?;
    fill(&bytes_of_numbers(&requirement.numbers), buffer)
}

/// Going down a requirement, "operator first".
struct Descent<'a> {
    walk: Walk<'a>,
    which: Which,
    /// The nodes whose tags were met so far.
    nodes: usize,
}

impl<'a> Descent<'a> {
    /// One node whose tag stands at this depth, with all below it.
    fn node(&mut self, depth: usize) -> Result<Node, Refusal> {
        let tag = self.tag(depth)?;
        match tag {
            0 => Ok(Node::Atom(self.atom_number()?)),
            1 => Ok(Node::Not(self.operand(depth)?)),
            2 => Ok(Node::And(self.operand(depth)?, self.operand(depth)?)),
            3 => Ok(Node::Mark(Mark::Input)),
            4 => Ok(Node::Mark(Mark::Exe)),
            5 => Ok(Node::Mark(Mark::Output)),
            8 | 12 | 16 | 20 => Ok(Node::X(family(tag), self.operand(depth)?)),
            9 | 13 | 17 | 21 => Ok(Node::F(family(tag), self.operand(depth)?)),
            10 | 14 | 18 | 22 => Ok(Node::G(family(tag), self.operand(depth)?)),
            11 | 15 | 19 | 23 => Ok(Node::U(family(tag), self.operand(depth)?, self.operand(depth)?)),
            _ => unreachable!("the tag was checked"),
        }
    }

    fn operand(&mut self, depth: usize) -> Result<Box<Node>, Refusal> {
        Ok(Box::new(self.node(depth + 1)?))
    }

    /// "the first fault counts, at one byte in the order 1, 3, 4"
    fn tag(&mut self, depth: usize) -> Result<u16, Refusal> {
        // 1: "number cut short or missing, not shortest, over 65,535"
        let tag = self.walk.number()?;
        // 3: "tag unknown or not allowed"
        if !tag_allowed(tag.value, self.which) {
            return Err(Refusal::new(Cause::TagNotAllowed, tag.place));
        }
        // 4: "node or depth limit passed, at that node's tag"
        self.nodes += 1;
        if self.nodes > self.which.most_nodes() || depth > self.which.most_depth() {
            return Err(Refusal::new(Cause::LimitPassed, tag.place));
        }
        Ok(tag.value)
    }

    /// "0 atom and its number (0 to 31)"
    fn atom_number(&mut self) -> Result<u16, Refusal> {
        let atom = self.walk.number()?;
        if atom.value > 31 {
            return Err(Refusal::new(Cause::AtomAbove31, atom.place));
        }
        Ok(atom.value)
    }
}

/// "0 atom [...]; 1 not; 2 and; marks 3 [...], 4 [...], 5 [...]; plain [...] 8 to 11; e operators 12 to 15, i 16 to 19,
/// o 20 to 23": 6 and 7 are no tags.
fn tag_allowed(tag: u16, which: Which) -> bool {
    tag <= which.highest_tag() && tag != 6 && tag != 7
}

fn family(tag: u16) -> Family {
    match tag {
        8..=11 => Family::Plain,
        12..=15 => Family::E,
        16..=19 => Family::I,
        20..=23 => Family::O,
        _ => unreachable!("only the operators X, F, G and U have a family"),
    }
}
