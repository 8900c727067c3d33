//! Inputs records: check, reader, writer.

use second::code::bytes_of_numbers;
use second::inputs::{check_inputs, read_inputs, write_inputs, Inputs};
use second::{Cause, Code, Refusal};

fn accepts(numbers: &[u16], input_count: usize) -> Inputs {
    let inputs = check_inputs(Code::Numbers(numbers), input_count).expect("accepted");
    let of_bytes = check_inputs(Code::Bytes(&bytes_of_numbers(numbers)), input_count).expect("accepted");
    assert_eq!(inputs, of_bytes);
    assert_eq!(inputs.numbers, numbers);
    assert_eq!(inputs.number_count(), numbers.len());
    inputs
}

/// The refusal, by index and by byte.
fn refuses(numbers: &[u16], input_count: usize, cause: Cause, index: usize) {
    let refused = Err(Refusal { cause, place: index });
    assert_eq!(check_inputs(Code::Numbers(numbers), input_count), refused, "{numbers:?}");
    let refused = Err(Refusal { cause, place: bytes_of_numbers(&numbers[..index]).len() });
    assert_eq!(check_inputs(Code::Bytes(&bytes_of_numbers(numbers)), input_count), refused, "{numbers:?}");
}

/// "Inputs: 3 1 0 1 0."
#[test]
fn bench_inputs() {
    let inputs = accepts(&[3, 1, 0, 1, 0], 1);
    assert_eq!(inputs.scans, 3);
    assert_eq!(inputs.return_scan, 1);
    assert_eq!(inputs.values, [[0], [1], [0]]);
}

/// "then one number per input variable per scan": "scan by scan"
#[test]
fn values_scan_by_scan() {
    let inputs = accepts(&[2, 0, 1, 300, 65535, 4, 5, 6], 3);
    assert_eq!(inputs.values, [[1, 300, 65535], [4, 5, 6]]);
    let inputs = accepts(&[2, 1], 0);
    assert_eq!(inputs.values, [[0; 0], [0; 0]]);
}

/// "scans q (1 to 1,365), return scan b (below q)"
#[test]
fn scans_and_return_scan() {
    for scans in [0, 1366, 65535] {
        refuses(&[scans, 0], 0, Cause::ValueNotAllowed, 0);
    }
    accepts(&[1365, 1364], 0);
    accepts(&[1365, 0], 0);
    accepts(&[1, 0], 0);
    for return_scan in [1, 2, 65535] {
        refuses(&[1, return_scan, 0], 1, Cause::ValueNotAllowed, 1);
    }
    refuses(&[1365, 1365], 0, Cause::ValueNotAllowed, 1);
}

/// "Inputs take the input count along; above 32 is refusal 2 at 0, first."
#[test]
fn input_count_above_32() {
    let mut numbers = vec![1, 0];
    numbers.extend([7; 32]);
    accepts(&numbers, 32);
    refuses(&numbers, 33, Cause::ValueNotAllowed, 0);
    refuses(&[], 33, Cause::ValueNotAllowed, 0);
    refuses(&[1, 1], 65535, Cause::ValueNotAllowed, 0);
    refuses(&[1, 0, 0, 0], usize::MAX, Cause::ValueNotAllowed, 0);
    let refusal = Refusal { cause: Cause::ValueNotAllowed, place: 0 };
    assert_eq!(check_inputs(Code::Bytes(&[0x80, 0x00]), 33), Err(refusal));
    assert_eq!(read_inputs(&[], 33, &mut []), Err(refusal));
    assert_eq!(write_inputs(&[], 33, &mut []), Err(refusal));
}

/// "A number that is missing stands where it should begin: at the end of the bytes (writer: the count of numbers)."
#[test]
fn missing_and_left_over_numbers() {
    let numbers = [2, 0, 300, 5, 6, 7];
    for length in 0..numbers.len() {
        refuses(&numbers[..length], 2, Cause::CutShort, length);
    }
    accepts(&numbers, 2);
    refuses(&numbers, 1, Cause::LeftOver, 4);
    refuses(&numbers, 0, Cause::LeftOver, 2);
    refuses(&numbers, 3, Cause::CutShort, 6);
    let refused = Err(Refusal { cause: Cause::LeftOver, place: 2 });
    assert_eq!(check_inputs(Code::Bytes(&[1, 0, 0x80]), 0), refused);
}

/// "a number's fault stands at its first byte"
#[test]
fn faulty_numbers() {
    let refused = |cause, place| Err(Refusal { cause, place });
    assert_eq!(check_inputs(Code::Bytes(&[0x81, 0x00, 0]), 0), refused(Cause::NotShortest, 0));
    assert_eq!(check_inputs(Code::Bytes(&[1, 0x80, 0x80, 0x04]), 0), refused(Cause::TooLarge, 1));
    assert_eq!(check_inputs(Code::Bytes(&[1, 0, 0xAC, 0x02, 0xFF]), 2), refused(Cause::CutShort, 4));
    // A fault in a value that is to come does not hide a return scan not allowed.
    assert_eq!(check_inputs(Code::Bytes(&[1, 1, 0x80]), 1), refused(Cause::ValueNotAllowed, 1));
}

/// "Reading and writing undo each other"; "10 comes last"; "the rest of the buffer is unchanged".
#[test]
fn reader_and_writer() {
    let record = [2, 1, 300, 5];
    let bytes = [2, 1, 0xAC, 0x02, 5];
    let mut numbers = [777; 6];
    assert_eq!(read_inputs(&bytes, 1, &mut numbers), Ok(4));
    assert_eq!(numbers, [2, 1, 300, 5, 777, 777]);
    let mut written = [0xEE; 6];
    assert_eq!(write_inputs(&record, 1, &mut written), Ok(5));
    assert_eq!(written, [2, 1, 0xAC, 0x02, 5, 0xEE]);
    let short = |place| Err(Refusal { cause: Cause::BufferTooShort, place });
    let mut numbers = [777; 3];
    assert_eq!(read_inputs(&bytes, 1, &mut numbers), short(4));
    assert_eq!(numbers, [777; 3]);
    let mut written = [0xEE; 4];
    assert_eq!(write_inputs(&record, 1, &mut written), short(5));
    assert_eq!(written, [0xEE; 4]);
    let left_over = Refusal { cause: Cause::LeftOver, place: 2 };
    assert_eq!(read_inputs(&bytes, 0, &mut []), Err(left_over));
    assert_eq!(write_inputs(&record, 0, &mut []), Err(left_over));
}
