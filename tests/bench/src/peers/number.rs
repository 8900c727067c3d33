//! A cursor over the numbers of a code.

#![forbid(unsafe_code)]

use super::{refuse, Refusal};

pub struct Cursor<'a> {
    code: &'a [u8],
    pub at: usize,
}

impl<'a> Cursor<'a> {
    pub fn new(code: &'a [u8]) -> Cursor<'a> {
        Cursor { code, at: 0 }
    }

    /// The next number. Most numbers have one byte.
    #[inline(always)]
    pub fn number(&mut self) -> Result<u16, Refusal> {
        match self.code.get(self.at) {
            Some(&byte) if byte < 128 => {
                self.at += 1;
                Ok(byte as u16)
            }
            _ => self.long_number(),
        }
    }

    /// A number of two or three bytes, or none.
    fn long_number(&mut self) -> Result<u16, Refusal> {
        let (value, size) = match self.code[self.at..] {
            [first, second, ..] if (1..128).contains(&second) => (low(first) | (second as u16) << 7, 2),
            [first, second, third, ..] if second >= 128 && (1..=3).contains(&third) => {
                (low(first) | low(second) << 7 | (third as u16) << 14, 3)
            }
            _ => return refuse(1, self.at),
        };
        self.at += size;
        Ok(value)
    }

    /// The next number of a table or of inputs, if it is allowed.
    #[inline(always)]
    pub fn allowed(&mut self, allowed: impl Fn(u16) -> bool) -> Result<u16, Refusal> {
        let place = self.at;
        let value = self.number()?;
        if allowed(value) {
            Ok(value)
        } else {
            refuse(2, place)
        }
    }

    pub fn end(&self) -> Result<(), Refusal> {
        if self.at < self.code.len() {
            refuse(1, self.at)
        } else {
            Ok(())
        }
    }
}

fn low(byte: u8) -> u16 {
    (byte & 127) as u16
}
