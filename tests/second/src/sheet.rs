//! A sheet: the lookup of a name.
//!
//! "Sheet: count (0 to 32), then name length (1 to 16), name, body length, body."

use crate::number::read_number;
use crate::refusal::{Cause, Refusal};

/// A stretch of the sheet's bytes: from `begin`, up to but without `end`.
#[derive(Clone, Copy, Debug, PartialEq, Eq)]
pub struct Stretch {
    pub begin: usize,
    pub end: usize,
}

/// Where the name and the body of an entry stand.
#[derive(Clone, Copy, Debug, PartialEq, Eq)]
pub struct Entry {
    pub name: Stretch,
    pub body: Stretch,
}

/// The lookup: where the body of that name stands. "of equal names the first counts"
pub fn look_up(sheet: &[u8], name: &[u8]) -> Result<Stretch, Refusal> {
    // "A sheet's lengths are all checked before a name is sought"
    let entries = check_sheet(sheet)?;
    // "a name asked for with length 0 or above 16 is absent": no entry has such a name.
    for entry in entries {
        if &sheet[entry.name.begin..entry.name.end] == name {
            return Ok(entry.body);
        }
    }
    // "name absent", place "0"
    Err(Refusal::new(Cause::NameAbsent, 0))
}

/// All entries of a sheet, in order. "A body is not read until asked for": its bytes are not looked at.
pub fn check_sheet(sheet: &[u8]) -> Result<Vec<Entry>, Refusal> {
    // "count (0 to 32)"
    let count = read_number(sheet, 0)?;
    if count.value > 32 {
        return Err(Refusal::new(Cause::ValueNotAllowed, 0));
    }
    let mut place = count.after;
    let mut entries = Vec::new();
    for _ in 0..count.value {
        let entry = check_entry(sheet, place)?;
        place = entry.body.end;
        entries.push(entry);
    }
    // "left-over bytes at the first of them"
    if place < sheet.len() {
        return Err(Refusal::new(Cause::LeftOver, place));
    }
    Ok(entries)
}

fn check_entry(sheet: &[u8], place: usize) -> Result<Entry, Refusal> {
    // "name length (1 to 16)"; "a number's value is checked when it is read, before its text"
    let name_length = read_number(sheet, place)?;
    if name_length.value < 1 || name_length.value > 16 {
        return Err(Refusal::new(Cause::ValueNotAllowed, place));
    }
    let name = check_text(sheet, place, name_length.after, name_length.value)?;
    let body_length = read_number(sheet, name.end)?;
    let body = check_text(sheet, name.end, body_length.after, body_length.value)?;
    Ok(Entry { name, body })
}

/// "a text or block cut short at its length's first byte"
fn check_text(sheet: &[u8], length_place: usize, begin: usize, length: u16) -> Result<Stretch, Refusal> {
    let end = begin + length as usize;
    if end > sheet.len() {
        return Err(Refusal::new(Cause::CutShort, length_place));
    }
    Ok(Stretch { begin, end })
}
