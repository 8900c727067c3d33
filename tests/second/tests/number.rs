//! One number of the coding.

use second::number::{read_number, spelled, Number};
use second::{Cause, Refusal};

fn reads(bytes: &[u8], value: u16) {
    assert_eq!(read_number(bytes, 0), Ok(Number { value, after: bytes.len() }), "{bytes:02X?}");
    assert_eq!(spelled(value), bytes, "{value}");
}

fn refuses(bytes: &[u8], cause: Cause) {
    assert_eq!(read_number(bytes, 0), Err(Refusal { cause, place: 0 }), "{bytes:02X?}");
}

/// "0 is 00; 127 is 7F; 128 is 80 01; 300 is AC 02; 65,535 is FF FF 03."
#[test]
fn examples_of_numbers() {
    reads(&[0x00], 0);
    reads(&[0x7F], 127);
    reads(&[0x80, 0x01], 128);
    reads(&[0xAC, 0x02], 300);
    reads(&[0xFF, 0xFF, 0x03], 65535);
}

#[test]
fn numbers_where_the_length_changes() {
    reads(&[0xFF, 0x7F], 16383);
    reads(&[0x80, 0x80, 0x01], 16384);
    reads(&[0xFF, 0x01], 255);
    reads(&[0x80, 0x80, 0x02], 32768);
}

/// "80 00 and 80 80 04 are refused; a third byte above 03 is too large."
#[test]
fn examples_of_refused_numbers() {
    refuses(&[0x80, 0x00], Cause::NotShortest);
    refuses(&[0x80, 0x80, 0x04], Cause::TooLarge);
}

#[test]
fn not_shortest_is_a_last_group_of_0() {
    refuses(&[0xFF, 0x00], Cause::NotShortest);
    refuses(&[0x80, 0x80, 0x00], Cause::NotShortest);
    refuses(&[0xFF, 0xFF, 0x00], Cause::NotShortest);
    refuses(&[0x80, 0x00, 0x05], Cause::NotShortest);
}

#[test]
fn too_large_is_a_third_byte_above_3() {
    refuses(&[0xFF, 0xFF, 0x04], Cause::TooLarge);
    refuses(&[0x80, 0x80, 0x7F], Cause::TooLarge);
    refuses(&[0x80, 0x80, 0x80], Cause::TooLarge);
    refuses(&[0x80, 0x80, 0x80, 0x00], Cause::TooLarge);
    refuses(&[0x80, 0x80, 0x83], Cause::TooLarge);
    refuses(&[0x80, 0x80, 0xFF, 0x01], Cause::TooLarge);
}

#[test]
fn cut_short_is_an_end_before_the_last_group() {
    refuses(&[0x80], Cause::CutShort);
    refuses(&[0xFF], Cause::CutShort);
    refuses(&[0x80, 0x80], Cause::CutShort);
    refuses(&[0xFF, 0xFF], Cause::CutShort);
}

/// "A number that is missing stands where it should begin: at the end of the bytes"
#[test]
fn missing_number_stands_at_the_end() {
    refuses(&[], Cause::CutShort);
    assert_eq!(read_number(&[1, 2], 2), Err(Refusal { cause: Cause::CutShort, place: 2 }));
    assert_eq!(read_number(&[1, 2], usize::MAX), Err(Refusal { cause: Cause::CutShort, place: usize::MAX }));
}

/// "a number's fault stands at its first byte"
#[test]
fn fault_stands_at_the_first_byte() {
    assert_eq!(read_number(&[5, 0x80, 0x80], 1), Err(Refusal { cause: Cause::CutShort, place: 1 }));
    assert_eq!(read_number(&[5, 5, 0x80, 0x00], 2), Err(Refusal { cause: Cause::NotShortest, place: 2 }));
    assert_eq!(read_number(&[5, 5, 5, 0x80, 0x80, 0x04], 3), Err(Refusal { cause: Cause::TooLarge, place: 3 }));
}

#[test]
fn what_follows_a_number_is_not_looked_at() {
    assert_eq!(read_number(&[9, 0xAC, 0x02, 0x80], 1), Ok(Number { value: 300, after: 3 }));
    assert_eq!(read_number(&[0x7F, 0x80], 0), Ok(Number { value: 127, after: 1 }));
    assert_eq!(read_number(&[0xFF, 0xFF, 0x03, 0xFF], 0), Ok(Number { value: 65535, after: 3 }));
}

/// Each number has one spelling, and that spelling reads back.
#[test]
fn every_number_reads_back() {
    for value in 0..=65535 {
        let bytes = spelled(value);
        assert_eq!(read_number(&bytes, 0), Ok(Number { value, after: bytes.len() }));
        for length in 0..bytes.len() {
            refuses(&bytes[..length], Cause::CutShort);
        }
    }
}

/// "each with one spelling": what is accepted is the spelling of its value.
#[test]
fn every_accepted_spelling_is_the_shortest() {
    let mut accepted = 0;
    for first in 0..=255 {
        for second in 0..=255 {
            for third in [0x00, 0x01, 0x02, 0x03, 0x04, 0x7F, 0x80, 0x83, 0xFF] {
                let bytes = [first, second, third];
                if let Ok(number) = read_number(&bytes, 0) {
                    assert_eq!(spelled(number.value), &bytes[..number.after]);
                    accepted += 1;
                }
            }
        }
    }
    // One byte: 128 x 256 x 9. Two bytes: 128 x 127 x 9. Three bytes: 128 x 128 x 3.
    assert_eq!(accepted, 128 * 256 * 9 + 128 * 127 * 9 + 128 * 128 * 3);
}

/// The column "No." of document 01.
#[test]
fn numbers_of_refusal() {
    let numbers = [
        (Cause::CutShort, 1),
        (Cause::NotShortest, 1),
        (Cause::TooLarge, 1),
        (Cause::LeftOver, 1),
        (Cause::ValueNotAllowed, 2),
        (Cause::TagNotAllowed, 3),
        (Cause::AtomAbove31, 3),
        (Cause::LimitPassed, 4),
        (Cause::TraceLength, 9),
        (Cause::LoopStart, 9),
        (Cause::Phase, 9),
        (Cause::NoOutputInLoop, 9),
        (Cause::BufferTooShort, 10),
        (Cause::NameAbsent, 11),
    ];
    for (cause, number) in numbers {
        assert_eq!(cause.number(), number, "{cause:?}");
        assert_eq!(Refusal::new(cause, 7).number(), number);
        assert_eq!(Refusal::new(cause, 7).place, 7);
    }
}
