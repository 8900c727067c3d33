//! One number of the coding.
//!
//! "A number is 0 to 65,535, in groups of seven bits, low group first, high bit set on all but the last, shortest form
//! only."

use crate::refusal::{Cause, Refusal};

/// A number that was read, and the place after it.
#[derive(Clone, Copy, Debug, PartialEq, Eq)]
pub struct Number {
    pub value: u16,
    pub after: usize,
}

/// Reads the number that begins at `place`. "a number's fault stands at its first byte", so every refusal is at `place`.
pub fn read_number(bytes: &[u8], place: usize) -> Result<Number, Refusal> {
    let refuse = |cause: Cause| Err(Refusal::new(cause, place));

    // "number cut short or missing"
    let first = match bytes.get(place) {
        None => return refuse(Cause::CutShort),
        Some(byte) => *byte,
    };
    // "high bit set on all but the last"
    if first < 0x80 {
        return Ok(Number { value: first as u16, after: place + 1 });
    }

    let second = match bytes.get(place + 1) {
        None => return refuse(Cause::CutShort),
        Some(byte) => *byte,
    };
    if second < 0x80 {
        // "shortest form only": the last group of two or more is not 0. "80 00 [...] refused"
        if second == 0 {
            return refuse(Cause::NotShortest);
        }
        return Ok(Number { value: joined(first, second, 0), after: place + 2 });
    }

    let third = match bytes.get(place + 2) {
        None => return refuse(Cause::CutShort),
        Some(byte) => *byte,
    };
    // "a third byte above 03 is too large"
    if third > 0x03 {
        return refuse(Cause::TooLarge);
    }
    if third == 0 {
        return refuse(Cause::NotShortest);
    }
    Ok(Number { value: joined(first, second, third), after: place + 3 })
}

/// "in groups of seven bits, low group first"
fn joined(first: u8, second: u8, third: u8) -> u16 {
    let low = (first % 128) as u32;
    let middle = (second % 128) as u32;
    let high = third as u32;
    (low + 128 * middle + 128 * 128 * high) as u16
}

/// The one spelling of a number: "shortest form only".
pub fn spelled(value: u16) -> Vec<u8> {
    let low = (value % 128) as u8;
    let middle = (value / 128 % 128) as u8;
    let high = (value / 128 / 128) as u8;
    if value < 128 {
        vec![low]
    } else if value < 128 * 128 {
        vec![low + 128, middle]
    } else {
        vec![low + 128, middle + 128, high]
    }
}
