//! The translation of a requirement to plain operators, as bytes.

#![forbid(unsafe_code)]

use super::number::Cursor;
use super::{refuse, Answer, Refusal};

const ROOM: usize = 1408;

/// A few bytes, which are always copied as 16; those past the length are written over or left behind the end.
struct Piece {
    bytes: [u8; 16],
    length: usize,
}

const fn piece(from: &[u8]) -> Piece {
    let mut bytes = [0; 16];
    let mut index = 0;
    while index < from.len() {
        bytes[index] = from[index];
        index += 1;
    }
    Piece { bytes, length: from.len() }
}

/// What a tag's translation has before, between and behind its operands.
struct Form {
    operands: u8,
    before: Piece,
    between: Piece,
    behind: Piece,
}

const fn form(operands: u8, before: &[u8], between: &[u8], behind: &[u8]) -> Form {
    Form { operands, before: piece(before), between: piece(between), behind: piece(behind) }
}


static FORMS: [Form; 24] = [
    form(0, &[0], &[], &[]),
    form(1, &[1], &[], &[]),
    form(2, &[2], &[], &[]),
    form(0, &[3], &[], &[]),
    form(0, &[4], &[], &[]),
    form(0, &[5], &[], &[]),
    form(3, &[], &[], &[]),
    form(3, &[], &[], &[]),
    form(1, &[8], &[], &[]),
    form(1, &[9], &[], &[]),
    form(1, &[10], &[], &[]),
    form(2, &[11], &[], &[]),
    form(1, &[8, 2, 4], &[], &[]),
    form(1, &[11, 1, 5, 2, 4], &[], &[]),
    form(1, &[11, 2], &[], &[4, 5]),
    form(2, &[11, 2], &[4, 2], &[4]),
    form(1, &[11, 1, 3, 2, 3, 8, 11, 1, 3, 2, 3], &[], &[]),
    form(1, &[9, 2, 3], &[], &[]),
    form(1, &[10, 1, 2, 3, 1], &[], &[]),
    form(2, &[11, 1, 2, 3, 1], &[2, 3], &[]),
    form(1, &[11, 1, 5, 2, 5, 8, 11, 1, 5, 2, 5], &[], &[]),
    form(1, &[9, 2, 5], &[], &[]),
    form(1, &[10, 1, 2, 5, 1], &[], &[]),
    form(2, &[11, 1, 2, 5, 1], &[2, 5], &[]),
];

pub fn translate(code: &[u8], out: &mut [u8], scratch: &mut Scratch) -> Answer {
    if out.len() < ROOM {
        return refuse(10, ROOM);
    }
    let mut translation = Translation { cursor: Cursor::new(code), nodes: 0, out: scratch, length: 0 };
    translation.node(1)?;
    translation.cursor.end()?;
    let length = translation.length;
    out[..length].copy_from_slice(&scratch.0[..length]);
    Ok((length, 0))
}

/// Where a translation is made, kept between calls.
pub struct Scratch([u8; ROOM + 16]);

impl Scratch {
    pub fn new() -> Scratch {
        Scratch([0; ROOM + 16])
    }
}

struct Translation<'a> {
    cursor: Cursor<'a>,
    nodes: usize,
    out: &'a mut Scratch,
    length: usize,
}

impl Translation<'_> {
    #[inline(always)]
    fn put(&mut self, piece: &Piece) {
        self.out.0[self.length..self.length + 16].copy_from_slice(&piece.bytes);
        self.length += piece.length;
    }

    fn node(&mut self, depth: usize) -> Result<(), Refusal> {
        let place = self.cursor.at;
        let tag = self.cursor.number()?;
        let form = match FORMS.get(tag as usize) {
            Some(form) if form.operands < 3 => form,
            _ => return refuse(3, place),
        };
        self.nodes += 1;
        if self.nodes > 64 || depth > 16 {
            return refuse(4, place);
        }
        self.put(&form.before);
        if tag == 0 {
            let place = self.cursor.at;
            let atom = self.cursor.number()?;
            if atom > 31 {
                return refuse(3, place);
            }
            self.out.0[self.length] = atom as u8;
            self.length += 1;
        }
        if form.operands > 0 {
            self.node(depth + 1)?;
        }
        if form.operands > 1 {
            self.put(&form.between);
            self.node(depth + 1)?;
        }
        self.put(&form.behind);
        Ok(())
    }
}
