//! A requirement as a row of nodes, operator first.

#![forbid(unsafe_code)]

use super::number::Cursor;
use super::{refuse, Refusal};

/// A node: its tag, and an atom's number.
#[derive(Clone, Copy, Debug, PartialEq, Eq)]
pub struct Node {
    pub tag: u8,
    pub atom: u8,
}

/// How many operands a tag has; 3 for no tag.
const OPERANDS: [u8; 24] = [0, 1, 2, 0, 0, 0, 3, 3, 1, 1, 1, 2, 1, 1, 1, 2, 1, 1, 1, 2, 1, 1, 1, 2];

/// Reads and checks a requirement; answers with its depth.
pub fn read(translated: bool, code: &[u8], nodes: &mut Vec<Node>) -> Result<usize, Refusal> {
    nodes.clear();
    let (highest_tag, most_nodes, most_depth) = if translated { (11, 704, 76) } else { (23, 64, 16) };
    let mut cursor = Cursor::new(code);
    // For every operator that is open above: whether a second operand is still to come.
    let mut open = [false; 76];
    let mut depth = 1;
    let mut deepest = 0;
    loop {
        let place = cursor.at;
        let tag = cursor.number()?;
        if tag > highest_tag || OPERANDS[tag as usize] == 3 {
            return refuse(3, place);
        }
        if nodes.len() == most_nodes || depth > most_depth {
            return refuse(4, place);
        }
        deepest = deepest.max(depth);
        let mut node = Node { tag: tag as u8, atom: 0 };
        if tag == 0 {
            let place = cursor.at;
            let atom = cursor.number()?;
            if atom > 31 {
                return refuse(3, place);
            }
            node.atom = atom as u8;
        }
        nodes.push(node);
        match OPERANDS[tag as usize] {
            0 => {
                // Up to the nearest operator that still wants an operand.
                loop {
                    depth -= 1;
                    if depth == 0 {
                        cursor.end()?;
                        return Ok(deepest);
                    }
                    if open[depth - 1] {
                        open[depth - 1] = false;
                        break;
                    }
                }
                depth += 1;
            }
            operands => {
                open[depth - 1] = operands == 2;
                depth += 1;
            }
        }
    }
}
