//! Sheets: the lookup of a name.

use second::sheet::{check_sheet, look_up, Entry, Stretch};
use second::{Cause, Refusal};

/// Two entries: name "a" with body 7 8 9, name "bc" with an empty body.
const SHEET: [u8; 11] = [2, 1, b'a', 3, 7, 8, 9, 2, b'b', b'c', 0];

fn answers(sheet: &[u8], name: &[u8], begin: usize, end: usize) {
    assert_eq!(look_up(sheet, name), Ok(Stretch { begin, end }), "{sheet:?} {name:?}");
}

/// The refusal, whatever the name asked for.
fn refuses(sheet: &[u8], cause: Cause, place: usize) {
    for name in [&b"a"[..], b"bc", b"", b"absent", b"longer than sixteen bytes"] {
        assert_eq!(look_up(sheet, name), Err(Refusal { cause, place }), "{sheet:?} {name:?}");
    }
}

fn absent(sheet: &[u8], name: &[u8]) {
    assert_eq!(look_up(sheet, name), Err(Refusal { cause: Cause::NameAbsent, place: 0 }), "{sheet:?} {name:?}");
}

#[test]
fn entries_of_a_sheet() {
    let stretch = |begin, end| Stretch { begin, end };
    let first = Entry { name: stretch(2, 3), body: stretch(4, 7) };
    let second = Entry { name: stretch(8, 10), body: stretch(11, 11) };
    assert_eq!(check_sheet(&SHEET), Ok(vec![first, second]));
}

/// "Asked for a name, it answers with that body"; "it may be empty"
#[test]
fn body_of_a_name() {
    answers(&SHEET, b"a", 4, 7);
    answers(&SHEET, b"bc", 11, 11);
    absent(&SHEET, b"b");
    absent(&SHEET, b"c");
    absent(&SHEET, b"A");
    absent(&SHEET, b"bcd");
}

/// "of equal names the first counts"
#[test]
fn equal_names() {
    answers(&[3, 1, b'a', 1, 5, 1, b'b', 1, 6, 1, b'a', 1, 7], b"a", 4, 5);
    answers(&[3, 1, b'a', 1, 5, 1, b'b', 1, 6, 1, b'b', 1, 7], b"b", 8, 9);
    answers(&[2, 1, b'a', 0, 1, b'a', 1, 7], b"a", 4, 4);
}

/// "count (0 to 32)"
#[test]
fn count_of_entries() {
    absent(&[0], b"a");
    refuses(&[33], Cause::ValueNotAllowed, 0);
    refuses(&[0xAC, 0x02], Cause::ValueNotAllowed, 0);
    refuses(&[], Cause::CutShort, 0);
    refuses(&[0x80, 0x00], Cause::NotShortest, 0);
    refuses(&[0x80, 0x80, 0x04], Cause::TooLarge, 0);
    let mut sheet = vec![32];
    for letter in 0..32 {
        sheet.extend([1, letter, 0]);
    }
    answers(&sheet, &[31], 97, 97);
    sheet[0] = 33;
    sheet.extend([1, 32, 0]);
    refuses(&sheet, Cause::ValueNotAllowed, 0);
}

/// "name length (1 to 16)"
#[test]
fn length_of_a_name() {
    refuses(&[1, 0, 0], Cause::ValueNotAllowed, 1);
    let name = [b'n'; 17];
    let mut sheet = vec![1, 16];
    sheet.extend(&name[..16]);
    sheet.extend([1, 9]);
    answers(&sheet, &name[..16], 19, 20);
    let mut sheet = vec![1, 17];
    sheet.extend(name);
    sheet.extend([1, 9]);
    refuses(&sheet, Cause::ValueNotAllowed, 1);
}

/// "A sheet's name length above 16 that also runs past the end is 2: a number's value is checked when it is read, before
/// its text."
#[test]
fn name_length_above_16_past_the_end() {
    refuses(&[1, 17, b'n'], Cause::ValueNotAllowed, 1);
    refuses(&[1, 0xAC, 0x02], Cause::ValueNotAllowed, 1);
    refuses(&[2, 1, b'a', 0, 0xFF, 0xFF, 0x03], Cause::ValueNotAllowed, 4);
}

/// "a text or block cut short at its length's first byte"
#[test]
fn text_cut_short() {
    refuses(&[1, 3, b'a', b'b'], Cause::CutShort, 1);
    refuses(&[1, 1], Cause::CutShort, 1);
    refuses(&[1, 16], Cause::CutShort, 1);
    refuses(&[1, 1, b'a', 3, 7, 8], Cause::CutShort, 3);
    refuses(&[1, 1, b'a', 1], Cause::CutShort, 3);
    refuses(&[1, 1, b'a', 0xAC, 0x02, 7], Cause::CutShort, 3);
    refuses(&[1, 1, b'a', 0xFF, 0xFF, 0x03], Cause::CutShort, 3);
}

/// "number cut short or missing": at the number's first byte, or where it should begin.
#[test]
fn lengths_are_numbers_of_the_coding() {
    refuses(&[1], Cause::CutShort, 1);
    refuses(&[1, 1, b'a'], Cause::CutShort, 3);
    refuses(&[2, 1, b'a', 0], Cause::CutShort, 4);
    refuses(&[1, 0x81, 0x00, b'a', 0], Cause::NotShortest, 1);
    refuses(&[1, 1, b'a', 0x80, 0x00], Cause::NotShortest, 3);
    refuses(&[1, 1, b'a', 0x80, 0x80, 0x04], Cause::TooLarge, 3);
    refuses(&[1, 1, b'a', 0x80, 0x80], Cause::CutShort, 3);
    let mut sheet = vec![1, 1, b'a', 0xAC, 0x02];
    sheet.extend([6; 300]);
    answers(&sheet, b"a", 5, 305);
    let mut sheet = vec![1, 1, b'a', 0xFF, 0xFF, 0x03];
    sheet.extend(vec![6; 65535]);
    answers(&sheet, b"a", 6, 6 + 65535);
}

/// "In a sheet every fault, left-over bytes too, comes before 11"
#[test]
fn left_over() {
    refuses(&[0, 0], Cause::LeftOver, 1);
    refuses(&[0, 0x80], Cause::LeftOver, 1);
    refuses(&[1, 1, b'a', 1, 7, 0], Cause::LeftOver, 5);
}

/// "a faulty entry after the one sought still refuses"
#[test]
fn faulty_entry_after_the_one_sought() {
    refuses(&[2, 1, b'a', 1, 7, 0], Cause::ValueNotAllowed, 5);
    refuses(&[2, 1, b'a', 1, 7, 2, b'b'], Cause::CutShort, 5);
    refuses(&[2, 1, b'a', 1, 7, 1, b'b', 4, 1], Cause::CutShort, 7);
    refuses(&[2, 1, b'a', 1, 7], Cause::CutShort, 5);
}

/// "The body is not checked by the lookup; it may be empty. Name bytes are any bytes."
#[test]
fn bodies_and_names_are_any_bytes() {
    answers(&[1, 2, 0, 0xFF, 2, 0x80, 0x00], &[0, 0xFF], 5, 7);
    answers(&[1, 1, 0x80, 1, 6], &[0x80], 4, 5);
}

/// "a name asked for with length 0 or above 16 is absent"
#[test]
fn name_asked_for_of_length_0_or_above_16() {
    absent(&SHEET, b"");
    absent(&SHEET, &[b'a'; 17]);
    let mut sheet = vec![1, 16];
    sheet.extend([b'n'; 16]);
    sheet.push(0);
    answers(&sheet, &[b'n'; 16], 19, 19);
    absent(&sheet, &[b'n'; 17]);
    absent(&sheet, &[b'n'; 15]);
}
