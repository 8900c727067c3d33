//! Tables: check, reader, writer.

use second::code::bytes_of_numbers;
use second::table::{check_table, read_table, write_table, Action, Counts, State, Table, Test, MOST_PROCESSES};
use second::{Cause, Code, Refusal};

/// "Table: 1 1 1 1 2 0 0 1 0 2 1 1 1 1 2 1 0 0 0 0 (20 bytes)."
const BENCH: [u16; 20] = [1, 1, 1, 1, 2, 0, 0, 1, 0, 2, 1, 1, 1, 1, 2, 1, 0, 0, 0, 0];

fn accepts(numbers: &[u16]) -> Table {
    let table = check_table(Code::Numbers(numbers), MOST_PROCESSES).expect("accepted");
    let of_bytes = check_table(Code::Bytes(&bytes_of_numbers(numbers)), MOST_PROCESSES).expect("accepted");
    assert_eq!(table, of_bytes);
    assert_eq!(table.numbers, numbers);
    assert_eq!(table.number_count(), numbers.len());
    table
}

/// The refusal, by index and by byte.
fn refuses(numbers: &[u16], cause: Cause, index: usize) {
    assert_eq!(
        check_table(Code::Numbers(numbers), MOST_PROCESSES),
        Err(Refusal { cause, place: index }),
        "{numbers:?}"
    );
    let place = bytes_of_numbers(&numbers[..index]).len();
    assert_eq!(
        check_table(Code::Bytes(&bytes_of_numbers(numbers)), MOST_PROCESSES),
        Err(Refusal { cause, place }),
        "{numbers:?}"
    );
}

fn value_refused(numbers: &[u16], index: usize) {
    refuses(numbers, Cause::ValueNotAllowed, index);
}

fn refuses_bytes(bytes: &[u8], cause: Cause, place: usize) {
    assert_eq!(check_table(Code::Bytes(bytes), MOST_PROCESSES), Err(Refusal { cause, place }), "{bytes:02X?}");
}

#[test]
fn bench_table() {
    let table = accepts(&BENCH);
    assert_eq!(bytes_of_numbers(&BENCH).len(), 20);
    assert_eq!(table.counts, Counts { inputs: 1, internals: 1, outputs: 1 });
    assert_eq!(table.sources, [1]);
    assert_eq!(table.tests, [Test { kind: 0, a: 0, b: 1 }, Test { kind: 0, a: 2, b: 1 }]);
    let action = Action { op: 2, x: 1, y: 0, guard: 0, next_if: 0, next_else: 0 };
    assert_eq!(table.processes.len(), 1);
    assert_eq!(table.processes[0].states, [State { actions: vec![action] }]);
}

/// Every beginning of a table is a table with a number missing.
/// "A number that is missing stands where it should begin: at the end of the bytes (writer: the count of numbers)."
#[test]
fn every_beginning_of_the_bench_table() {
    for length in 0..BENCH.len() {
        refuses(&BENCH[..length], Cause::CutShort, length);
    }
}

/// "left-over bytes at the first of them"
#[test]
fn left_over() {
    let mut numbers = BENCH.to_vec();
    numbers.extend([300, 5]);
    refuses(&numbers, Cause::LeftOver, 20);
    let mut bytes = bytes_of_numbers(&BENCH);
    bytes.push(0x80);
    refuses_bytes(&bytes, Cause::LeftOver, 20);
}

/// "a number's fault stands at its first byte"
#[test]
fn faulty_numbers() {
    refuses_bytes(&[0x80, 0x00], Cause::NotShortest, 0);
    refuses_bytes(&[1, 0x80, 0x80, 0x04], Cause::TooLarge, 1);
    refuses_bytes(&[1, 1, 0x80], Cause::CutShort, 2);
    // A source whose bytes are faulty is 1, not 2.
    refuses_bytes(&[1, 1, 1, 0x81, 0x00], Cause::NotShortest, 3);
    // Kind 2's a and b must be numbers, though their values are not looked at yet.
    refuses_bytes(&[0, 0, 0, 1, 2, 0x80, 0x00], Cause::NotShortest, 5);
    refuses_bytes(&[0, 0, 0, 1, 2, 9, 0x80, 0x80, 0x04], Cause::TooLarge, 6);
}

/// "The three counts of a table: the fault stands at the first count with which the running total passes 32 (`14 0D 00`
/// is 2 at 1)."
#[test]
fn counts_of_variables() {
    refuses_bytes(&[0x14, 0x0D, 0x00], Cause::ValueNotAllowed, 1);
    value_refused(&[33], 0);
    value_refused(&[65535, 1, 1], 0);
    value_refused(&[32, 1, 0], 1);
    value_refused(&[20, 65535, 0], 1);
    value_refused(&[20, 12, 1], 2);
    value_refused(&[0, 0, 33], 2);
    value_refused(&[10, 10, 65535], 2);
    // At 32 the walk goes on: the test count is missing.
    refuses(&[32, 0, 0], Cause::CutShort, 3);
    refuses(&[20, 12, 0], Cause::CutShort, 3);
    refuses(&[0, 32, 0], Cause::CutShort, 3);
}

/// "for each output its source, an internal variable"
#[test]
fn sources() {
    // Two inputs 0 and 1, three internals 2 to 4, two outputs 5 and 6.
    for source in [0, 1, 5, 6, 7, 65535] {
        value_refused(&[2, 3, 2, source, 2], 3);
        value_refused(&[2, 3, 2, 2, source], 4);
    }
    for source in [2, 3, 4] {
        refuses(&[2, 3, 2, 4, source], Cause::CutShort, 5);
    }
    // Without an internal variable an output has no source.
    value_refused(&[1, 0, 1, 0, 0], 3);
    value_refused(&[0, 0, 1, 0, 0], 3);
}

/// "count of tests (0 to 32), each as kind, a, b"; "kind 0 to 2"
#[test]
fn tests() {
    value_refused(&[1, 1, 1, 1, 33], 4);
    refuses(&[1, 1, 1, 1, 32], Cause::CutShort, 5);
    value_refused(&[1, 1, 1, 1, 1, 3, 0, 0], 5);
    for kind in [0, 1] {
        // "a variable below the total"
        value_refused(&[1, 1, 1, 1, 1, kind, 3, 0], 6);
        value_refused(&[1, 1, 1, 1, 1, kind, 65535, 0], 6);
        refuses(&[1, 1, 1, 1, 1, kind, 2, 65535], Cause::CutShort, 8);
        // No variable at all.
        value_refused(&[0, 0, 0, 1, kind, 0, 0], 5);
    }
}

/// One process whose only action is stop, after so many variables and tests.
fn rest() -> Vec<u16> {
    vec![1, 1, 1, 11, 0, 0, 0, 0, 0]
}

fn with_rest(begin: &[u16]) -> Vec<u16> {
    let mut numbers = begin.to_vec();
    numbers.extend(rest());
    numbers
}

#[test]
fn thirty_two_tests() {
    let mut numbers = vec![0, 0, 0, 32];
    for _ in 0..32 {
        numbers.extend([2, 1, 255]);
    }
    let table = accepts(&with_rest(&numbers));
    assert_eq!(table.tests, [Test { kind: 2, a: 1, b: 255 }; 32]);
}

/// "processes (1 to 8); for each its active states (1 to 8); for each of those its actions (1 to 16)"
#[test]
fn counts_of_processes_states_and_actions() {
    for count in [0, 9, 300] {
        value_refused(&[0, 0, 0, 0, count, 1], 4);
        value_refused(&[0, 0, 0, 0, 8, count, 1], 5);
    }
    for count in [0, 17, 300] {
        value_refused(&[0, 0, 0, 0, 8, 8, count, 1], 6);
    }
    refuses(&[0, 0, 0, 0, 8, 8, 16], Cause::CutShort, 7);
}

/// A table without variables and tests: so many processes, each of so many states, each of so many resets.
fn resets(processes: u16, states: u16, actions: u16) -> Vec<u16> {
    let mut numbers = vec![0, 0, 0, 0, processes];
    for _ in 0..processes {
        numbers.push(states);
        for _ in 0..states {
            numbers.push(actions);
            for _ in 0..actions {
                numbers.extend([5, 0, 0, 0, 0, 0]);
            }
        }
    }
    numbers
}

/// Each process is followed by its states, and each state by its actions.
#[test]
fn order_of_processes_states_and_actions() {
    let table = accepts(&resets(8, 8, 16));
    assert_eq!(table.processes.len(), 8);
    for process in &table.processes {
        assert_eq!(process.states.len(), 8);
        for state in &process.states {
            assert_eq!(state.actions.len(), 16);
        }
    }
    // Two processes: one of two states (of one and of two actions), one of one state (of one action).
    let numbers = [
        0, 0, 0, 0, 2, //
        2, 1, 10, 0, 0, 0, 0, 0, 2, 4, 7, 0, 0, 2, 0, 12, 0, 0, 0, 0, 0, //
        1, 1, 6, 1, 0, 0, 1, 0,
    ];
    let table = accepts(&numbers);
    let action = |op, x, next_if| Action { op, x, y: 0, guard: 0, next_if, next_else: 0 };
    assert_eq!(table.processes.len(), 2);
    assert_eq!(table.processes[0].states[0].actions, [action(10, 0, 0)]);
    assert_eq!(table.processes[0].states[1].actions, [action(4, 7, 2), action(12, 0, 0)]);
    assert_eq!(table.processes[1].states, [State { actions: vec![action(6, 1, 1)] }]);
}

/// The most processes allowed are told by the caller of the check.
#[test]
fn most_processes_as_told() {
    let numbers = resets(9, 1, 1);
    assert_eq!(check_table(Code::Numbers(&numbers), 9).expect("accepted").processes.len(), 9);
    let refused = Err(Refusal { cause: Cause::ValueNotAllowed, place: 4 });
    assert_eq!(check_table(Code::Numbers(&numbers), 8), refused);
    assert_eq!(check_table(Code::Numbers(&resets(2, 1, 1)), 1), refused);
    assert_eq!(check_table(Code::Numbers(&resets(64, 1, 1)), 64).expect("accepted").processes.len(), 64);
    assert_eq!(MOST_PROCESSES, 8);
}

/// A table for trying one action: 2 inputs (0, 1), 3 internals (2 to 4), 2 outputs (5, 6), 2 tests; 3 processes of which
/// the second has 2 states; the action is the second of three in its first state, or in its last.
fn with_action(action: [u16; 6], last_state: bool) -> (Vec<u16>, usize) {
    let reset = [5, 0, 0, 0, 0, 0];
    let mut numbers = vec![2, 3, 2, 2, 4, 2, 0, 6, 300, 1, 0, 0, 3];
    numbers.extend([1, 1, 5, 0, 0, 0, 0, 0]);
    numbers.push(2);
    if last_state {
        numbers.extend([1, 5, 0, 0, 0, 0, 0]);
    }
    numbers.push(3);
    numbers.extend(reset);
    let index = numbers.len();
    numbers.extend(action);
    numbers.extend(reset);
    if !last_state {
        numbers.extend([1, 5, 0, 0, 0, 0, 0]);
    }
    numbers.extend([1, 1, 5, 0, 0, 0, 0, 0]);
    (numbers, index)
}

fn action_accepted(action: [u16; 6]) {
    for last_state in [false, true] {
        accepts(&with_action(action, last_state).0);
    }
}

/// The field of the action (0 is the op) at which it is refused.
fn action_refused(action: [u16; 6], field: usize) {
    for last_state in [false, true] {
        let (numbers, index) = with_action(action, last_state);
        value_refused(&numbers, index + field);
    }
}

/// "op 1 to 12"
#[test]
fn ops() {
    for op in [0, 13, 14, 255, 65535] {
        action_refused([op, 0, 0, 0, 0, 0], 0);
    }
}

/// "Op 10 in a process's last state is a fault of the op's own number."
#[test]
fn op_next() {
    let next = [10, 0, 0, 0, 0, 0];
    accepts(&with_action(next, false).0);
    let (numbers, index) = with_action(next, true);
    value_refused(&numbers, index);
    // The op's fault stands before that of its fields.
    let (numbers, index) = with_action([10, 1, 1, 1, 1, 1], true);
    value_refused(&numbers, index);
    let (numbers, index) = with_action([10, 1, 1, 1, 1, 1], false);
    value_refused(&numbers, index + 1);
}

/// "An update is one of three kinds [...] x is internal."
#[test]
fn updates() {
    for op in 1..=3 {
        for x in [2, 3, 4] {
            action_accepted([op, x, 0, 0, 0, 0]);
        }
        for x in [0, 1, 5, 6, 7, 65535] {
            action_refused([op, x, 0, 0, 0, 0], 1);
        }
    }
    // "op 1, x takes the number y", "3, x takes its own value plus y"; "Op 3's y is a number."
    for y in [0, 6, 7, 300, 65535] {
        action_accepted([1, 2, y, 0, 0, 0]);
        action_accepted([3, 2, y, 0, 0, 0]);
    }
    // "Op 2's y is any variable, x itself and outputs too."
    for y in 0..=6 {
        action_accepted([2, 3, y, 0, 0, 0]);
    }
    action_refused([2, 3, 7, 0, 0, 0], 2);
    action_refused([2, 3, 65535, 0, 0, 0], 2);
}

/// "Op 4 tout (x is the bound, 1 to 4,095)"
#[test]
fn op_tout() {
    for x in [1, 2, 127, 128, 4095] {
        action_accepted([4, x, 0, 0, 0, 0]);
    }
    for x in [0, 4096, 65535] {
        action_refused([4, x, 0, 0, 0, 0], 1);
    }
    action_refused([4, 1, 1, 0, 0, 0], 2);
}

/// "6 startP and 7 stopP (x another process)"
#[test]
fn ops_start_and_stop_another() {
    for op in [6, 7] {
        action_accepted([op, 1, 0, 0, 0, 0]);
        action_accepted([op, 3, 0, 0, 0, 0]);
        for x in [0, 2, 4, 65535] {
            action_refused([op, x, 0, 0, 0, 0], 1);
        }
        action_refused([op, 1, 1, 0, 0, 0], 2);
    }
}

/// "9 set (x an active state)": one of the process's own two.
#[test]
fn op_set() {
    action_accepted([9, 1, 0, 0, 0, 0]);
    action_accepted([9, 2, 0, 0, 0, 0]);
    for x in [0, 3, 255, 65535] {
        action_refused([9, x, 0, 0, 0, 0], 1);
    }
    for field in 2..=5 {
        let mut action = [9, 1, 0, 0, 0, 0];
        action[field] = 1;
        action_refused(action, field);
    }
}

/// "Unused fields are 0."
#[test]
fn unused_fields() {
    for op in [5, 8, 11, 12] {
        action_accepted([op, 0, 0, 0, 0, 0]);
        for field in 1..=5 {
            let mut action = [op, 0, 0, 0, 0, 0];
            action[field] = 1;
            action_refused(action, field);
        }
    }
    for field in 1..=5 {
        let mut action = [10, 0, 0, 0, 0, 0];
        action[field] = 1;
        let (numbers, index) = with_action(action, false);
        value_refused(&numbers, index + field);
    }
}

/// "Ops 1 to 4, 6 and 7 use guard and nexts; under guard 0, next-else is 0."
/// "guard up to the test count, next up to the body's action count"
#[test]
fn guards_and_nexts() {
    for (op, x) in [(1, 2), (2, 2), (3, 2), (4, 1), (6, 1), (7, 1)] {
        for next in 0..=3 {
            action_accepted([op, x, 0, 0, next, 0]);
            action_accepted([op, x, 0, 1, next, 3]);
            action_accepted([op, x, 0, 2, 3, next]);
        }
        action_refused([op, x, 0, 3, 0, 0], 3);
        action_refused([op, x, 0, 65535, 0, 0], 3);
        for guard in 0..=2 {
            action_refused([op, x, 0, guard, 4, 0], 4);
            action_refused([op, x, 0, guard, 65535, 0], 4);
            action_refused([op, x, 0, guard, 0, 4], 5);
        }
        action_refused([op, x, 0, 0, 3, 1], 5);
    }
}

/// A table of two tests of kind 2, one process of one state and one of two states.
fn process_tests(a: u16, b: u16, second_a: u16, second_b: u16) -> Vec<u16> {
    let mut numbers = vec![0, 0, 0, 2, 2, a, b, 2, second_a, second_b, 2];
    numbers.extend([1, 1, 5, 0, 0, 0, 0, 0]);
    numbers.extend([2, 1, 5, 0, 0, 0, 0, 0, 1, 5, 0, 0, 0, 0, 0]);
    numbers
}

/// "2 process a (from 1) is in state b (0 stop, 1 upward active, 255 err)"
/// "b is 0, 255 or at most that process's own count of active states."
#[test]
fn tests_of_processes() {
    for b in [0, 1, 255] {
        accepts(&process_tests(1, b, 2, b));
    }
    accepts(&process_tests(2, 2, 2, 2));
    value_refused(&process_tests(1, 2, 2, 2), 6);
    value_refused(&process_tests(2, 3, 2, 2), 6);
    for b in [9, 254, 256, 65535] {
        value_refused(&process_tests(1, b, 2, 2), 6);
        value_refused(&process_tests(1, 1, 2, b), 9);
    }
    for a in [0, 3, 8, 255, 65535] {
        value_refused(&process_tests(a, 0, 1, 0), 5);
        value_refused(&process_tests(1, 0, a, 0), 8);
    }
}

/// "test by test, a before b"
#[test]
fn order_of_the_tests_of_processes() {
    value_refused(&process_tests(0, 300, 0, 300), 5);
    value_refused(&process_tests(1, 300, 0, 300), 6);
    value_refused(&process_tests(1, 1, 0, 300), 8);
    value_refused(&process_tests(1, 1, 1, 300), 9);
}

/// "Kind 2's a and b are not looked at until after left-over bytes, not even a = 0"
#[test]
fn tests_of_processes_come_last() {
    // Left-over bytes come before them.
    let mut numbers = process_tests(0, 300, 0, 300);
    let length = numbers.len();
    numbers.push(0);
    refuses(&numbers, Cause::LeftOver, length);
    // So does a missing number, and a value not allowed in the last action.
    numbers.truncate(length - 1);
    refuses(&numbers, Cause::CutShort, length - 1);
    numbers.push(1);
    value_refused(&numbers, length - 1);
    // And a value not allowed in a later test.
    value_refused(&with_rest(&[0, 0, 0, 2, 2, 0, 0, 3, 0, 0]), 7);
    value_refused(&with_rest(&[1, 0, 0, 2, 2, 0, 0, 0, 1, 0]), 8);
    // A test of a variable between two tests of processes is not looked at again.
    value_refused(&with_rest(&[1, 0, 0, 3, 2, 1, 0, 0, 0, 300, 2, 0, 0]), 11);
}

/// "Reading and writing undo each other"; "the rest of the buffer is unchanged".
#[test]
fn reader_and_writer() {
    let (table, _) = with_action([1, 2, 65535, 2, 3, 1], false);
    let bytes = bytes_of_numbers(&table);
    assert_eq!(bytes.len(), table.len() + 3);
    let mut numbers = vec![777; table.len() + 2];
    assert_eq!(read_table(&bytes, &mut numbers), Ok(table.len()));
    assert_eq!(numbers[..table.len()], table[..]);
    assert_eq!(numbers[table.len()..], [777, 777]);
    let mut written = vec![0xEE; bytes.len() + 2];
    assert_eq!(write_table(&table, &mut written), Ok(bytes.len()));
    assert_eq!(written[..bytes.len()], bytes[..]);
    assert_eq!(written[bytes.len()..], [0xEE, 0xEE]);
}

/// "In both 10 comes last (for the reader: numbers needed)"
#[test]
fn buffer_too_short() {
    let (table, _) = with_action([1, 2, 65535, 2, 3, 1], false);
    let bytes = bytes_of_numbers(&table);
    let mut numbers = vec![777; table.len() - 1];
    let numbers_needed = Refusal { cause: Cause::BufferTooShort, place: table.len() };
    assert_eq!(read_table(&bytes, &mut numbers), Err(numbers_needed));
    assert_eq!(numbers, vec![777; table.len() - 1]);
    let mut written = vec![0xEE; bytes.len() - 1];
    let bytes_needed = Refusal { cause: Cause::BufferTooShort, place: bytes.len() };
    assert_eq!(write_table(&table, &mut written), Err(bytes_needed));
    assert_eq!(written, vec![0xEE; bytes.len() - 1]);
    // Even the last of the other refusals comes before it.
    let faulty = process_tests(1, 300, 1, 0);
    let refused = Err(Refusal { cause: Cause::ValueNotAllowed, place: 6 });
    assert_eq!(write_table(&faulty, &mut []), refused);
    assert_eq!(read_table(&bytes_of_numbers(&faulty), &mut []), refused);
    // Reader and writer allow 8 processes.
    let mut room = vec![777; 200];
    assert_eq!(read_table(&bytes_of_numbers(&resets(8, 1, 1)), &mut room), Ok(69));
    let refused = Err(Refusal { cause: Cause::ValueNotAllowed, place: 4 });
    assert_eq!(read_table(&bytes_of_numbers(&resets(9, 1, 1)), &mut room), refused);
    assert_eq!(write_table(&resets(9, 1, 1), &mut written), refused);
}
