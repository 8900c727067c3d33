//! A code is given as bytes or as 16-bit numbers; the same walk goes over both.
//!
//! "The writer takes a requirement, table or inputs as 16-bit numbers in this order and writes their bytes; the reader
//! does the reverse. The writer has the reader's refusals, their place the number's index."

use crate::number::{read_number, spelled, Number};
use crate::refusal::{Cause, Refusal};

/// A code to be checked. Places are bytes in the first case and indices in the second.
#[derive(Clone, Copy, Debug)]
pub enum Code<'a> {
    Bytes(&'a [u8]),
    Numbers(&'a [u16]),
}

impl<'a> Code<'a> {
    /// The place just past the end.
    pub fn length(&self) -> usize {
        match self {
            Code::Bytes(bytes) => bytes.len(),
            Code::Numbers(numbers) => numbers.len(),
        }
    }

    /// The number that begins at `place`, and the place after it.
    pub fn number_at(&self, place: usize) -> Result<Number, Refusal> {
        match self {
            Code::Bytes(bytes) => read_number(bytes, place),
            Code::Numbers(numbers) => match numbers.get(place) {
                // "A number that is missing stands where it should begin: [...] (writer: the count of numbers)."
                None => Err(Refusal::new(Cause::CutShort, place)),
                Some(value) => Ok(Number { value: *value, after: place + 1 }),
            },
        }
    }
}

/// A number that was met, and the place at which it begins.
#[derive(Clone, Copy, Debug, PartialEq, Eq)]
pub struct Met {
    pub value: u16,
    pub place: usize,
}

/// "Codes are read left to right and the first fault counts"
pub struct Walk<'a> {
    code: Code<'a>,
    place: usize,
    numbers: Vec<u16>,
}

impl<'a> Walk<'a> {
    pub fn new(code: Code<'a>) -> Walk<'a> {
        Walk { code, place: 0, numbers: Vec::new() }
    }

    /// The next number, whatever its value.
    pub fn number(&mut self) -> Result<Met, Refusal> {
        let place = self.place;
        let number = self.code.number_at(place)?;
        self.place = number.after;
        self.numbers.push(number.value);
        Ok(Met { value: number.value, place })
    }

    /// The next number of a table or of inputs. "a value not allowed above": refusal 2 at that number.
    pub fn allowed_number(&mut self, allowed: impl Fn(u16) -> bool) -> Result<u16, Refusal> {
        let met = self.number()?;
        if allowed(met.value) {
            Ok(met.value)
        } else {
            Err(Refusal::new(Cause::ValueNotAllowed, met.place))
        }
    }

    /// "left-over bytes at the first of them"
    pub fn end(&self) -> Result<(), Refusal> {
        if self.place < self.code.length() {
            Err(Refusal::new(Cause::LeftOver, self.place))
        } else {
            Ok(())
        }
    }

    /// All the numbers met so far, in order.
    pub fn into_numbers(self) -> Vec<u16> {
        self.numbers
    }
}

/// The bytes of numbers, each in its one spelling.
pub fn bytes_of_numbers(numbers: &[u16]) -> Vec<u8> {
    let mut bytes = Vec::new();
    for value in numbers {
        bytes.extend(spelled(*value));
    }
    bytes
}

/// Fills a lent buffer from its start and answers with how much was filled.
/// "In both 10 comes last (for the reader: numbers needed); the rest of the buffer is unchanged."
pub fn fill<T: Copy>(wanted: &[T], buffer: &mut [T]) -> Result<usize, Refusal> {
    let needed = wanted.len();
    if buffer.len() < needed {
        return Err(Refusal::new(Cause::BufferTooShort, needed));
    }
    for (index, item) in wanted.iter().enumerate() {
        buffer[index] = *item;
    }
    Ok(needed)
}
