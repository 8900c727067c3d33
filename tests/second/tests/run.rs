//! The run: each rule by a case worked out on paper, its refusals, and what it leaves in the lent buffer.
//!
//! In the comments `s1: read 1, copy 2` says that in scan 1 the read makes state 1 and the copy state 2.

mod bench;

use bench::{BENCH, BENCH_LOOP_START};
use second::code::bytes_of_numbers;
use second::run::{run, run_numbers, Ran, RefusedRun};
use second::trace::check_trace;
use second::{Cause, Refusal};

/// "Table: 1 1 1 1 2 0 0 1 0 2 1 1 1 1 2 1 0 0 0 0 (20 bytes). Inputs: 3 1 0 1 0."
const BENCH_TABLE: [u16; 20] = [1, 1, 1, 1, 2, 0, 0, 1, 0, 2, 1, 1, 1, 1, 2, 1, 0, 0, 0, 0];
const BENCH_INPUTS: [u16; 5] = [3, 1, 0, 1, 0];

type Body = Vec<[u16; 6]>;

/// The numbers of a table: counts, sources, tests, and for each process its bodies.
fn table(counts: [u16; 3], sources: &[u16], tests: &[[u16; 3]], processes: &[Vec<Body>]) -> Vec<u16> {
    let mut numbers = counts.to_vec();
    numbers.extend(sources);
    numbers.push(tests.len() as u16);
    numbers.extend(tests.iter().flatten());
    numbers.push(processes.len() as u16);
    for bodies in processes {
        numbers.push(bodies.len() as u16);
        for body in bodies {
            numbers.push(body.len() as u16);
            numbers.extend(body.iter().flatten());
        }
    }
    numbers
}

/// The answer by numbers, which by bytes must be the same, with its buffer.
fn answer(table: &[u16], inputs: &[u16]) -> Ran {
    let ran = run_numbers(table, inputs);
    let mut buffer = vec![0xEE; 20500];
    assert_eq!(run(&bytes_of_numbers(table), &bytes_of_numbers(inputs), &mut buffer), ran);
    match &ran {
        Ran::Closed { positions, loop_start, trace } => {
            assert_eq!(check_trace(trace, *loop_start), Ok(*positions));
            assert_eq!(&buffer[..trace.len()], &trace[..]);
            assert!(buffer[trace.len()..].iter().all(|byte| *byte == 0));
        }
        Ran::Refused(_) => assert!(buffer.iter().all(|byte| *byte == 0)),
    }
    ran
}

/// The run closes at that loop start. `phases` has a letter for each position: i, e or o; a group of letters is a scan with
/// the Output before it. Each of `atoms` is the positions at which that atom is 1; all the others are 0.
fn closes(table: &[u16], inputs: &[u16], loop_start: usize, phases: &str, atoms: &[&[usize]]) {
    let phases: Vec<u8> = phases.bytes().filter(|byte| *byte != b' ').collect();
    let mut trace = Vec::new();
    for (position, phase) in phases.iter().enumerate() {
        let mut bits: u32 = 0;
        for (atom, positions) in atoms.iter().enumerate() {
            bits |= (positions.contains(&position) as u32) << atom;
        }
        trace.push(match phase {
            b'i' => 0,
            b'e' => 1,
            _ => 2,
        });
        trace.extend(bits.to_le_bytes());
    }
    assert_eq!(answer(table, inputs), Ran::Closed { positions: phases.len(), loop_start, trace });
}

/// The run is refused in a scan. `process` is 0 but for 5 and 6.
fn refuses(table: &[u16], inputs: &[u16], cause: Cause, scan: usize, process: usize) {
    let refused = RefusedRun { refusal: Refusal::new(cause, scan), process };
    assert_eq!(answer(table, inputs), Ran::Refused(refused));
}

/// Only how many positions and where the loop starts, for long runs.
fn closes_with(table: &[u16], inputs: &[u16], positions: usize, loop_start: usize) {
    match answer(table, inputs) {
        Ran::Closed { positions: given, loop_start: start, .. } => assert_eq!((given, start), (positions, loop_start)),
        Ran::Refused(refused) => panic!("{refused:?}"),
    }
}

fn range(from: usize, to: usize) -> Vec<usize> {
    (from..=to).collect()
}

/// An update that goes on to action `next`.
fn constant(x: u16, y: u16, next: u16) -> [u16; 6] {
    [1, x, y, 0, next, 0]
}

const RESET: [u16; 6] = [5, 0, 0, 0, 0, 0];
const START: [u16; 6] = [8, 0, 0, 0, 0, 0];
const NEXT: [u16; 6] = [10, 0, 0, 0, 0, 0];
const STOP: [u16; 6] = [11, 0, 0, 0, 0, 0];
const ERR: [u16; 6] = [12, 0, 0, 0, 0, 0];

/// So many updates, each going on to the one after it, and last the given.
fn updates_then(count: u16, last: [u16; 6]) -> Body {
    let mut body: Body = (1..=count).map(|number| constant(0, 1, number + 1)).collect();
    body.push(last);
    body
}

/// So many updates, then the end of the body.
fn updates(count: u16) -> Body {
    updates_then(count - 1, constant(0, 1, 0))
}

// ---------------------------------------------------------------------------------------------------------------------
// The bench case
// ---------------------------------------------------------------------------------------------------------------------

/// "Twelve positions, loop start 4; Input at 1, 5, 9; Output at 0, 4, 8; atom 0 at 5 to 8, atom 1 at 8 to 11."
#[test]
fn bench_case() {
    closes(&BENCH_TABLE, &BENCH_INPUTS, 4, "oiee oiee oiee", &[&[5, 6, 7, 8], &[8, 9, 10, 11]]);
    let trace = BENCH.to_vec();
    let closed = Ran::Closed { positions: 12, loop_start: BENCH_LOOP_START, trace };
    assert_eq!(run_numbers(&BENCH_TABLE, &BENCH_INPUTS), closed);
}

// ---------------------------------------------------------------------------------------------------------------------
// Updates
// ---------------------------------------------------------------------------------------------------------------------

/// Op 1, and "its guard, tested on the state before it, only chooses": the first update finds the variable unset and goes
/// to next-else, though it makes the test true; in scan 2 it goes to the end.
/// s1: read 1, update 2, update 3, end 4, write 5. s2: read 6, update 7, end 8, write 9.
#[test]
fn constant_and_its_guard() {
    let numbers = table([0, 1, 0], &[], &[[0, 0, 7]], &[vec![vec![[1, 0, 7, 1, 0, 2], constant(0, 7, 0)]]]);
    closes(&numbers, &[2, 1], 5, "oieee oiee", &[&range(2, 8)]);
    // The start has the variable unset.
    refuses(&numbers, &[2, 0], Cause::EndStateDiffers, 2, 0);
    refuses(&numbers, &[1, 0], Cause::EndStateDiffers, 1, 0);
}

/// Op 2: "copying copies unset". s1: read 1, constant 2, copy 3, end 4, write 5, which is the start again.
#[test]
fn copy_of_an_unset_variable() {
    let body = vec![constant(0, 0, 2), [2, 0, 1, 0, 0, 0]];
    let numbers = table([0, 2, 0], &[], &[[0, 0, 0], [0, 1, 0]], &[vec![body]]);
    closes(&numbers, &[1, 0], 0, "oieee", &[&[2], &[]]);
}

/// Op 2: "Op 2's y is any variable, x itself and outputs too". The output 2 has the source 0.
/// s1: read 1, v0 := 5 2, v1 := v2 (unset) 3, end 4, write (v2 is 5) 5. s2: 6 to 10, v1 is 5 at 8. s3: 11 to 15.
#[test]
fn copy_of_an_output_and_of_itself() {
    let body = vec![constant(0, 5, 2), [2, 1, 2, 0, 0, 0]];
    let numbers = table([0, 2, 1], &[0], &[[0, 1, 5], [0, 2, 5]], &[vec![body]]);
    closes(&numbers, &[3, 2], 10, "oieee oieee oieee", &[&range(8, 14), &range(5, 14)]);
    refuses(&numbers, &[3, 1], Cause::EndStateDiffers, 3, 0);
    let of_itself = table([0, 1, 0], &[], &[[0, 0, 0]], &[vec![vec![[2, 0, 0, 0, 0, 0]]]]);
    closes(&of_itself, &[1, 0], 0, "oiee", &[&[]]);
}

/// Op 3: "modulo 65,536". 65,535 + 2 is 1.
/// s1: read 1, constant 2, add 3, end 4, write 5. s2: read 6, constant 7, add 8, end 9.
#[test]
fn add_modulo() {
    let body = vec![constant(0, 65535, 2), [3, 0, 2, 0, 0, 0]];
    let numbers = table([0, 1, 0], &[], &[[1, 0, 65534], [0, 0, 1]], &[vec![body]]);
    closes(&numbers, &[2, 1], 5, "oieee oieee", &[&[2, 7], &[3, 4, 5, 6, 8, 9]]);
}

/// "adding to an unset one leaves it unset"; "Unset is not 0: \"exceeds\" is false of it"
#[test]
fn add_to_an_unset_variable() {
    let tests = [[0, 0, 5], [0, 0, 0], [1, 0, 0]];
    let numbers = table([0, 1, 0], &[], &tests, &[vec![vec![[3, 0, 5, 0, 0, 0]]]]);
    closes(&numbers, &[1, 0], 0, "oiee", &[&[], &[], &[]]);
}

/// "writing from an unset source makes the output unset": v1 is 3 after scan 1 and unset after scan 2.
/// Input 0 chooses. s1 (input 1): read 1, v1 := 3 2, end 3, write (v3 is 3) 4.
/// s2 (input 0): read 5, v1 := 3 6, v1 := v2 (unset) 7, end 8, write (v3 is unset) 9. s3 as s2: 10 to 14.
#[test]
fn output_becomes_unset() {
    let body = vec![[1, 1, 3, 1, 0, 2], [2, 1, 2, 0, 0, 0]];
    let numbers = table([1, 2, 1], &[1], &[[0, 0, 1], [0, 3, 3], [0, 1, 3]], &[vec![body]]);
    closes(&numbers, &[3, 2, 1, 0, 0], 9, "oiee oieee oieee", &[&range(1, 4), &range(4, 8), &[2, 3, 4, 5, 6, 11]]);
}

/// Kind 1 is strict: 2 exceeds 1 and not 2.
#[test]
fn exceeds() {
    let tests = [[1, 0, 1], [1, 0, 2], [0, 0, 2]];
    let numbers = table([1, 0, 0], &[], &tests, &[vec![vec![STOP]]]);
    // s1: read 1, stop 2, skip 3, write 4. s2: read 5, skip 6, write 7.
    closes(&numbers, &[2, 1, 2, 2], 4, "oiee oie", &[&range(1, 6), &[], &range(1, 6)]);
}

/// "atom 0 the lowest bit, low byte first": test 31 is the highest bit of the last byte.
#[test]
fn thirty_two_atoms() {
    let mut tests = vec![[0, 0, 0]; 32];
    for atom in [0, 7, 8, 17, 31] {
        tests[atom] = [0, 0, 1];
    }
    let numbers = table([1, 0, 0], &[], &tests, &[vec![vec![STOP]]]);
    let Ran::Closed { trace, .. } = answer(&numbers, &[2, 1, 1, 1]) else { panic!() };
    assert_eq!(trace[..10], [2, 0, 0, 0, 0, 0, 0x81, 0x01, 0x02, 0x80]);
}

// ---------------------------------------------------------------------------------------------------------------------
// Timers
// ---------------------------------------------------------------------------------------------------------------------

/// Op 4 with bound 2. s1: read 1, tout (starts) 2, write 3. s2: read (1) 4, tout (below) 5, write 6.
/// s3: read (2) 7, tout (equal) 8, constant 9, end 10, write 11. s4: read 12, tout (starts) 13, write 14.
/// s5: 15 to 17. s6: read 18, tout 19, constant 20, end 21, write 22. s7: 23 to 25.
#[test]
fn tout_starts_waits_and_goes_on() {
    let numbers = table([0, 1, 0], &[], &[[0, 0, 1]], &[vec![vec![[4, 2, 0, 0, 2, 0], constant(0, 1, 0)]]]);
    closes(&numbers, &[7, 4], 14, "oie oie oieee oie oie oieee oie", &[&range(9, 24)]);
    // Scan 5 ended with timer 1.
    refuses(&numbers, &[7, 5], Cause::EndStateDiffers, 7, 0);
    // Scan 3 ended with no timer.
    refuses(&numbers, &[4, 3], Cause::EndStateDiffers, 4, 0);
    closes_with(&numbers, &[6, 3], 22, 11);
}

/// Bound 1: started in scan 1, not raised in it; at its bound in scan 2. Its guard is false there: next-else.
/// s1: read 1, tout 2, write 3. s2: read 4, tout 5, action 3 at 6, end 7, write 8. s3: read 9, tout 10, write 11.
/// s4: read 12, tout (the guard is now true: next-if 2) 13, action 2 at 14, end 15, write 16. s5: read 17, tout 18,
/// write 19. s6: read 20, tout 21, action 2 at 22, end 23, write 24.
#[test]
fn tout_at_its_bound_uses_its_guard() {
    let body = vec![[4, 1, 0, 1, 2, 3], constant(0, 4, 0), constant(0, 3, 0)];
    let numbers = table([0, 1, 0], &[], &[[1, 0, 0], [0, 0, 4]], &[vec![body]]);
    closes(&numbers, &[6, 4], 16, "oie oieee oie oieee oie oieee", &[&range(6, 23), &range(14, 23)]);
}

/// "A timer above its bound [...] refusal 5". The input chooses between tout 3 and tout 1; the timer is 2 in scan 3.
#[test]
fn timer_above_its_bound() {
    let body = vec![[2, 1, 0, 1, 3, 2], [4, 3, 0, 0, 0, 0], [4, 1, 0, 0, 0, 0]];
    let numbers = table([1, 1, 0], &[], &[[0, 0, 1]], &[vec![body]]);
    refuses(&numbers, &[3, 1, 0, 0, 1], Cause::NoRule, 3, 1);
    // In scan 2 it is 1, its bound. s1: read 1, copy 2, tout 3, write 4. s2: read 5, copy 6, tout 7, end 8, write 9.
    // s3: read 10, copy 11, tout 12, write 13, as after s1.
    closes(&numbers, &[3, 1, 0, 1, 0], 4, "oiee oieee oiee", &[&range(5, 9)]);
}

/// Op 5. The input chooses between reset and tout 2.
/// s1: read 1, copy 2, tout (starts) 3, write 4. s2: read (1) 5, copy 6, tout 7, write 8. s3: read (2) 9, copy 10, reset (0)
/// 11, write 12. s4: read (1) 13, copy 14, tout 15, write 16. s5: read (2) 17, copy 18, tout 19, v1 := 9 20, end 21, write 22.
/// s6: read 23, copy 24, tout (starts) 25, write 26, as after s1.
#[test]
fn reset_sets_the_timer_to_zero_and_passes_on() {
    let body = vec![[2, 1, 0, 1, 2, 3], RESET, [4, 2, 0, 0, 4, 0], constant(1, 9, 0)];
    let numbers = table([1, 1, 0], &[], &[[0, 0, 1], [0, 1, 9]], &[vec![body]]);
    let phases = "oiee oiee oiee oiee oieeee oiee";
    closes(&numbers, &[6, 1, 0, 0, 1, 0, 0, 0], 4, phases, &[&range(9, 12), &[20, 21, 22, 23]]);
    // "reset with no timer"
    refuses(&numbers, &[1, 0, 1], Cause::NoRule, 1, 1);
    refuses(&numbers, &[6, 1, 0, 0, 1, 0, 0, 1], Cause::NoRule, 6, 1);
}

/// "A timer belongs to the process; end does not clear it." The input chooses between tout 2 and the end.
/// s1: tout starts. s2: end, the timer is 1. s3: tout at its bound.
/// s1: read 1, copy 2, tout 3, write 4. s2: read 5, copy 6, end 7, write 8. s3: read 9, copy 10, tout 11, v1 := 9 12, end 13,
/// write 14. s4: read 15, copy 16, tout 17, write 18, as after s1.
#[test]
fn end_does_not_clear_the_timer() {
    let body = vec![[2, 1, 0, 1, 0, 2], [4, 2, 0, 0, 3, 0], constant(1, 9, 0)];
    let numbers = table([1, 1, 0], &[], &[[0, 0, 1], [0, 1, 9]], &[vec![body]]);
    closes(&numbers, &[4, 1, 0, 1, 0, 0], 4, "oiee oiee oieeee oiee", &[&range(5, 8), &[12, 13, 14, 15]]);
}

/// A timer that no tout looks at rises for ever, so that nothing closes: tout starts it in scan 1, then the input is 1.
#[test]
fn an_unseen_timer_rises() {
    let body = vec![[2, 1, 0, 1, 0, 2], [4, 2, 0, 0, 3, 0], constant(1, 9, 0)];
    let numbers = table([1, 1, 0], &[], &[[0, 0, 1]], &[vec![body]]);
    let mut inputs = vec![40, 39, 0];
    inputs.extend([1; 39]);
    refuses(&numbers, &inputs, Cause::EndStateDiffers, 40, 0);
    // "A timer above its bound": it is 40 in scan 41.
    inputs[0] = 41;
    inputs.push(0);
    refuses(&numbers, &inputs, Cause::NoRule, 41, 1);
}

// ---------------------------------------------------------------------------------------------------------------------
// Processes and their states
// ---------------------------------------------------------------------------------------------------------------------

/// Op 6 and op 12: process 1 starts process 2, "whatever state the other process is in", which goes to err.
/// s1: read 1, startP 2, end 3, err 4, skip 5, write 6. s2: read 7, startP 8, end 9, err 10, skip 11, write 12.
#[test]
fn start_process_out_of_stop_and_err() {
    let tests = [[2, 2, 0], [2, 2, 1], [2, 2, 255]];
    let numbers = table([0, 0, 0], &[], &tests, &[vec![vec![[6, 2, 0, 0, 0, 0]]], vec![vec![ERR]]]);
    closes(&numbers, &[2, 1], 6, "oieeee oieeee", &[&[0, 1], &[2, 3, 8, 9], &[4, 5, 6, 7, 10, 11]]);
    refuses(&numbers, &[1, 0], Cause::EndStateDiffers, 1, 0);
}

/// Op 6 clears the other's timer: process 2 starts process 1 anew in each scan, whose tout 1 is never at its bound.
/// s1: read 1, startP 2, tout 3, startP 4, end 5, write 6. s2: 7 to 12.
#[test]
fn start_process_clears_the_timer() {
    let first = vec![vec![[6, 2, 0, 0, 2, 0], [4, 1, 0, 0, 3, 0], constant(0, 1, 0)]];
    let second = vec![vec![[6, 1, 0, 0, 0, 0]]];
    let numbers = table([0, 1, 0], &[], &[[0, 0, 1]], &[first, second]);
    closes(&numbers, &[2, 1], 6, "oieeee oieeee", &[&[]]);
}

/// "A lower-numbered process acts in the next scan." Both stop themselves; process 2 starts process 1 before.
/// s1: read 1, startP 2, v0 := 1 3, stop 4, skip 5, v0 := 2 6, startP 7, stop 8, skip 9, write 10. s2: 11 to 20.
#[test]
fn start_of_a_lower_numbered_process() {
    let first = vec![vec![[6, 2, 0, 0, 2, 0], constant(0, 1, 3), STOP]];
    let second = vec![vec![constant(0, 2, 2), [6, 1, 0, 0, 3, 0], STOP]];
    let tests = [[0, 0, 1], [0, 0, 2], [2, 1, 0]];
    let numbers = table([0, 1, 0], &[], &tests, &[first, second]);
    let ones = [3, 4, 5, 13, 14, 15];
    let twos = [6, 7, 8, 9, 10, 11, 12, 16, 17, 18, 19];
    closes(&numbers, &[2, 1], 10, "oieeeeeeee oieeeeeeee", &[&ones, &twos, &[4, 5, 6, 14, 15, 16]]);
}

/// "ascending": process 2 is stopped, process 3 acts in the scan in which process 1 starts it.
/// s1: read 1, startP 2, end 3, skip 4, v0 := 3 5, end 6, write 7. s2: read 8, startP 9, end 10, skip 11, v0 := 3 12, end 13.
#[test]
fn turns_ascend() {
    let idle = vec![vec![constant(0, 9, 0)]];
    let numbers = table(
        [0, 1, 0],
        &[],
        &[[0, 0, 3], [2, 3, 1]],
        &[vec![vec![[6, 3, 0, 0, 0, 0]]], idle, vec![vec![constant(0, 3, 0)]]],
    );
    closes(&numbers, &[2, 1], 7, "oieeeee oieeeee", &[&range(5, 13), &range(2, 13)]);
}

/// Ops 7 and 9: process 2 is stopped again before its turn. "set, start and next leave the turn with the same process".
/// s1: read 1, startP 2, set 3, stopP 4, end 5, skip 6, write 7. s2: read 8, stopP 9, end 10, skip 11, write 12.
#[test]
fn stop_process_and_set() {
    let first = vec![vec![[6, 2, 0, 0, 2, 0], [9, 2, 0, 0, 0, 0]], vec![[7, 2, 0, 0, 0, 0]]];
    let second = vec![vec![constant(0, 5, 0)]];
    let tests = [[2, 2, 1], [2, 1, 2], [0, 0, 5]];
    let numbers = table([0, 1, 0], &[], &tests, &[first, second]);
    closes(&numbers, &[2, 1], 7, "oieeeee oieee", &[&[2, 3], &range(3, 11), &[]]);
}

/// Op 7 clears the other's timer and action: after scan 3 process 2 is as if it had never been started. Input 1 starts it.
/// s1: read 1, copy 2, stopP 3, end 4, skip 5, write 6. s2: read 7, copy 8, startP 9, end 10, tout 11, write 12.
/// s3: read 13, copy 14, stopP 15, end 16, skip 17, write 18.
#[test]
fn stop_process_clears_the_record() {
    let first = vec![vec![[2, 1, 0, 1, 2, 3], [6, 2, 0, 0, 0, 0], [7, 2, 0, 0, 0, 0]]];
    let second = vec![vec![[4, 9, 0, 0, 0, 0]]];
    let numbers = table([1, 1, 0], &[], &[[0, 0, 1], [2, 2, 1]], &[first, second]);
    closes(&numbers, &[3, 1, 0, 1, 0], 6, "oieeee oieeee oieeee", &[&range(7, 12), &range(9, 14)]);
    closes_with(&numbers, &[3, 1, 0, 0, 0], 18, 6);
    // startP in each scan: tout starts the timer at 0 in each.
    closes_with(&numbers, &[2, 1, 1, 1], 12, 6);
}

/// The guards and nexts of ops 6 and 7: next-else leads past the stopP.
/// s1: read 1, startP 2, end 3, v0 := 1 4, end 5, write 6. s2: read 7, startP 8, stopP 9, end 10, skip 11, write 12.
/// s3: read 13, startP (the guard is true) 14, stopP 15, end 16, skip 17, write 18.
#[test]
fn guards_of_process_actions() {
    let first = vec![vec![[6, 2, 0, 1, 2, 0], [7, 2, 0, 1, 0, 1]]];
    let second = vec![vec![constant(0, 1, 0)]];
    let numbers = table([0, 1, 0], &[], &[[0, 0, 1], [2, 2, 0]], &[first, second]);
    let stopped = [0, 1, 9, 10, 11, 12, 13, 15, 16, 17];
    closes(&numbers, &[3, 2], 12, "oieeee oieeee oieeee", &[&range(4, 17), &stopped]);
}

/// Op 8 in state 1. s1: read 1, v0 := 1 (next-else) 2, start 3, v0 := 1 (next-if) 4, end 5, write 6. s2: 7 to 10.
#[test]
fn start_in_state_one() {
    let numbers = table([0, 1, 0], &[], &[[0, 0, 1]], &[vec![vec![[1, 0, 1, 1, 0, 2], START]]]);
    closes(&numbers, &[2, 1], 6, "oieeee oiee", &[&range(2, 9)]);
}

/// Ops 8 and 10: from state 1 to 2 and back in one turn.
/// s1: read 1, v0 := 1 2, next 3, start 4, v0 := 1 5, end 6, write 7. s2: read 8, v0 := 1 9, end 10.
#[test]
fn next_and_start() {
    let bodies = vec![vec![[1, 0, 1, 2, 0, 2], NEXT], vec![START]];
    let numbers = table([0, 1, 0], &[], &[[2, 1, 2], [0, 0, 1], [2, 1, 1]], &[bodies]);
    let in_one = [0, 1, 2, 4, 5, 6, 7, 8, 9, 10];
    closes(&numbers, &[2, 1], 7, "oieeeee oiee", &[&[3], &range(2, 10), &in_one]);
}

/// Op 10. s1: read 1, next 2, v0 := 3 3, end 4, write 5. s2: read 6, v0 := 3 7, end 8, write 9.
#[test]
fn next_state() {
    let numbers = table([0, 1, 0], &[], &[[2, 1, 2], [0, 0, 3]], &[vec![vec![NEXT], vec![constant(0, 3, 0)]]]);
    closes(&numbers, &[2, 1], 5, "oieee oiee", &[&range(2, 8), &range(3, 8)]);
}

/// set and next clear the timer, which is 3 in scan 4: else tout 1 would find it above its bound.
/// s1 to s3: read, copy, tout, write. s4: read 13, copy 14, set 15, tout (starts) 16, write 17.
/// s5: read 18, tout 19, end 20, write 21. s6: read 22, tout (starts) 23, write 24.
#[test]
fn set_and_next_clear_the_timer() {
    for leave in [[9, 2, 0, 0, 0, 0], NEXT] {
        let bodies = vec![vec![[2, 1, 0, 1, 2, 3], leave, [4, 9, 0, 0, 0, 0]], vec![[4, 1, 0, 0, 0, 0]]];
        let numbers = table([1, 1, 0], &[], &[[0, 0, 1], [2, 1, 2]], &[bodies]);
        let phases = "oiee oiee oiee oieee oiee oie";
        closes(&numbers, &[6, 4, 0, 0, 0, 1, 1, 1], 17, phases, &[&range(13, 23), &range(15, 23)]);
    }
}

/// start clears the timer, which is 3 in scan 5.
/// s1: read 1, tout 2, write 3. s2: read 4, tout 5, next 6, copy 7, tout 8, write 9. s3: read 10, copy 11, tout 12, write 13.
/// s4: 14 to 17. s5: read 18, copy 19, start 20, tout (starts) 21, write 22. s6: read 23, tout 24, next 25, copy 26, start 27,
/// tout (starts) 28, write 29.
#[test]
fn start_clears_the_timer() {
    let bodies =
        vec![vec![[4, 1, 0, 0, 2, 0], NEXT], vec![[2, 1, 0, 1, 2, 3], START, [4, 9, 0, 0, 0, 0]]];
    let numbers = table([1, 1, 0], &[], &[[0, 0, 1], [2, 1, 2]], &[bodies]);
    let phases = "oie oieeee oiee oiee oieee oieeeee";
    let mut in_two = range(6, 19);
    in_two.extend([25, 26]);
    closes(&numbers, &[6, 5, 0, 0, 0, 0, 1, 1], 22, phases, &[&range(18, 28), &in_two]);
}

/// Ops 11 and 12 clear the timer, which else would rise in scan 3. "the skip that follows is an action of its own".
/// s1: read 1, copy 2, tout 3, write 4. s2: read 5, copy 6, stop 7, skip 8, write 9. s3: read 10, skip 11, write 12.
#[test]
fn stop_and_err() {
    for (leave, state) in [(STOP, 0), (ERR, 255)] {
        let body = vec![[2, 1, 0, 1, 2, 3], leave, [4, 9, 0, 0, 0, 0]];
        let numbers = table([1, 1, 0], &[], &[[0, 0, 1], [2, 1, state]], &[vec![body]]);
        closes(&numbers, &[3, 2, 0, 1, 1], 9, "oiee oieee oie", &[&range(5, 11), &range(7, 11)]);
    }
}

// ---------------------------------------------------------------------------------------------------------------------
// Refusals of the scans
// ---------------------------------------------------------------------------------------------------------------------

/// Five: in the turn of another process, and in a later scan.
#[test]
fn no_rule_in_the_turn_of_process_two() {
    let first = vec![vec![[2, 1, 0, 1, 2, 0], [6, 2, 0, 0, 0, 0]]];
    let numbers = table([1, 1, 0], &[], &[[0, 0, 1]], &[first, vec![vec![RESET]]]);
    refuses(&numbers, &[4, 1, 0, 0, 0, 1], Cause::NoRule, 4, 2);
    refuses(&numbers, &[9, 1, 0, 1, 0, 0, 0, 0, 0, 0, 0], Cause::NoRule, 2, 2);
    closes_with(&numbers, &[4, 1, 0, 0, 0, 0], 20, 5);
}

/// Three bodies of 15 updates and a next (48 actions), then so many updates and the end.
fn long_turn(updates_in_fourth: u16) -> Vec<Body> {
    let longer = updates_then(15, NEXT);
    vec![longer.clone(), longer.clone(), longer, updates(updates_in_fourth)]
}

/// "at most 64 actions, skip and end counted; a 65th is refusal 6". 48 + 15 + the end are 64.
/// s1: read 1, actions 2 to 65, write 66. s2: read 67, 15 updates and the end 68 to 83, write 84.
#[test]
fn sixty_four_actions_and_one_more() {
    let exactly = table([0, 1, 0], &[], &[], &[long_turn(15)]);
    closes_with(&exactly, &[2, 1], 84, 66);
    let one_more = table([0, 1, 0], &[], &[], &[long_turn(16)]);
    refuses(&one_more, &[2, 1], Cause::TooManyActions, 1, 1);
}

/// The skip after a stop counts: 48 + 14 + stop + skip are 64.
/// s1: read 1, actions 2 to 65, write 66. s2: read 67, skip 68, write 69.
#[test]
fn the_skip_is_counted() {
    let mut bodies = long_turn(15);
    bodies[3] = updates_then(14, STOP);
    closes_with(&table([0, 1, 0], &[], &[], &[bodies.clone()]), &[2, 1], 69, 66);
    bodies[3] = updates_then(15, STOP);
    refuses(&table([0, 1, 0], &[], &[], &[bodies]), &[2, 1], Cause::TooManyActions, 1, 1);
}

/// "The 64 actions are per process and scan": two processes of 64 actions each in scan 1, and none of them too many.
/// Process 1 has 64 actions with the startP in place of an update, process 2 has 64.
/// s1: read 1, 2 to 65, 66 to 129, write 130. s2: read 131, 16 and 16 actions 132 to 163, write 164.
#[test]
fn actions_are_counted_for_each_process() {
    let mut first = long_turn(15);
    first[0][0] = [6, 2, 0, 0, 2, 0];
    let numbers = table([0, 1, 0], &[], &[], &[first.clone(), long_turn(15)]);
    closes_with(&numbers, &[2, 1], 164, 130);
    let second_too_long = table([0, 1, 0], &[], &[], &[first, long_turn(16)]);
    refuses(&second_too_long, &[2, 1], Cause::TooManyActions, 1, 2);
}

/// A turn that never ends, in the scan in which the input is 1: start (op 8), set (op 9) and an update that goes to itself.
#[test]
fn endless_turns() {
    for leave in [START, [9, 1, 0, 0, 0, 0], constant(1, 3, 2)] {
        let numbers = table([1, 1, 0], &[], &[[0, 0, 1]], &[vec![vec![[2, 1, 0, 1, 2, 0], leave]]]);
        refuses(&numbers, &[5, 1, 0, 0, 0, 1, 0], Cause::TooManyActions, 4, 1);
        closes_with(&numbers, &[3, 1, 0, 0, 0], 12, 4);
    }
}

/// "a 65th is refusal 6, looked for before 5": a reset with no timer as 65th action, and as 64th.
#[test]
fn six_before_five() {
    let mut bodies = long_turn(15);
    bodies[3] = updates_then(15, NEXT);
    bodies.push(vec![RESET]);
    refuses(&table([0, 1, 0], &[], &[], &[bodies.clone()]), &[2, 1], Cause::TooManyActions, 1, 1);
    bodies[3] = updates_then(14, NEXT);
    refuses(&table([0, 1, 0], &[], &[], &[bodies]), &[2, 1], Cause::NoRule, 1, 1);
}

/// Read, update, end, write: state 4,096 ends scan 1,024. "At most 4,096 positions."
#[test]
fn exactly_4096_positions() {
    let numbers = table([0, 1, 0], &[], &[[0, 0, 1]], &[vec![updates(1)]]);
    closes_with(&numbers, &[1024, 1023], 4096, 4092);
    closes_with(&numbers, &[1024, 1], 4096, 4);
    // "Reads and writes can be 7 too": the read of scan 1,025 would make state 4,097.
    refuses(&numbers, &[1025, 1], Cause::TooManyStates, 1025, 0);
    refuses(&numbers, &[1365, 1], Cause::TooManyStates, 1025, 0);
    let Ran::Closed { trace, .. } = answer(&numbers, &[1024, 1]) else { panic!() };
    assert_eq!(trace.len(), 20480);
    assert_eq!(trace[20475..], [1, 1, 0, 0, 0]);
}

/// Scan 1 has so many states more (updates and a next): the write, the end or the update would make state 4,097.
#[test]
fn one_state_more() {
    let longer = |more: u16| table([0, 1, 0], &[], &[], &[vec![updates_then(more - 1, NEXT), updates(1)]]);
    // 5 + 4 * 1023 = 4,097: the write of scan 1,024.
    refuses(&longer(1), &[1024, 1], Cause::TooManyStates, 1024, 0);
    closes_with(&longer(1), &[1023, 1], 4093, 5);
    // 6 + 4 * 1022 = 4,094 after scan 1,023; read 4,095, update 4,096, the end would be 4,097.
    refuses(&longer(2), &[1024, 1], Cause::TooManyStates, 1024, 0);
    // 7 + 4 * 1022 = 4,095; read 4,096, the update would be 4,097.
    refuses(&longer(3), &[1024, 1], Cause::TooManyStates, 1024, 0);
    // 8 + 4 * 1022 = 4,096: closes after scan 1,023.
    closes_with(&longer(4), &[1023, 1], 4096, 8);
    refuses(&longer(4), &[1024, 1], Cause::TooManyStates, 1024, 0);
}

/// The most scans: stop and skip in scan 1, a skip in each other: 4 + 3 * 1364 = 4,096.
#[test]
fn all_1365_scans() {
    let numbers = table([0, 0, 0], &[], &[], &[vec![vec![STOP]]]);
    closes_with(&numbers, &[1365, 1364], 4096, 4093);
    refuses(&numbers, &[1365, 0], Cause::EndStateDiffers, 1365, 0);
    // An update before the stop: 4,097, the write of scan 1,365.
    let longer = table([0, 1, 0], &[], &[], &[vec![updates_then(1, STOP)]]);
    refuses(&longer, &[1365, 1364], Cause::TooManyStates, 1365, 0);
}

/// The input is 1 in scan 1,024 alone. A body that then has no rule or never ends.
fn input_in_scan_1024() -> Vec<u16> {
    let mut inputs = vec![1024, 1];
    inputs.extend([0; 1023]);
    inputs.push(1);
    inputs
}

/// "5 before 7": with copy and end in each scan before, the read of scan 1,024 would be 4,093. Scan 1 is two states longer:
/// read 4,095, copy 4,096, and then the reset has no rule.
#[test]
fn five_before_seven() {
    let chooser = vec![[2, 1, 0, 1, 2, 0], RESET];
    let longer = |more: u16| {
        let mut first: Body = (1..more).map(|number| constant(1, 0, number + 1)).collect();
        first.push(NEXT);
        table([1, 1, 0], &[], &[[0, 0, 1]], &[vec![first, chooser.clone()]])
    };
    refuses(&longer(2), &input_in_scan_1024(), Cause::NoRule, 1024, 1);
    // Read 4,096: the copy would be 4,097, and it has a rule.
    refuses(&longer(3), &input_in_scan_1024(), Cause::TooManyStates, 1024, 0);
    // Read 4,094.
    refuses(&longer(1), &input_in_scan_1024(), Cause::NoRule, 1024, 1);
}

/// "looked for before 5, and 5 before 7", so 6 before 7: the 65th action of scan 1,008 would make state 4,097, and is a 6.
/// A scan has 4 states, scan 1 some more; the read of scan k is 4 (k - 1) + 1 + more, its 64th action 64 further on.
#[test]
fn six_before_seven() {
    let chooser = vec![[2, 1, 0, 1, 2, 0], constant(1, 1, 2)];
    let longer = |more: u16| {
        let mut first: Body = (1..more).map(|number| constant(1, 0, number + 1)).collect();
        first.push(NEXT);
        table([1, 1, 0], &[], &[[0, 0, 1]], &[vec![first, chooser.clone()]])
    };
    // 4 * 1007 + 1 + 3 = 4,032 is the read of scan 1,008; its 64th action makes 4,096.
    let mut inputs = vec![1008, 1];
    inputs.extend([0; 1007]);
    inputs.push(1);
    refuses(&longer(3), &inputs, Cause::TooManyActions, 1008, 1);
    // One state later the 64th action would make 4,097.
    refuses(&longer(4), &inputs, Cause::TooManyStates, 1008, 0);
    refuses(&longer(2), &inputs, Cause::TooManyActions, 1008, 1);
    // "A 7 at the tenth action of a turn that would never end is 7": the read of scan 1,022 is 4 * 1021 + 1 + 2 = 4,087.
    let mut inputs = vec![1022, 1];
    inputs.extend([0; 1021]);
    inputs.push(1);
    refuses(&longer(2), &inputs, Cause::TooManyStates, 1022, 0);
}

/// Eight: each part of the whole state counts.
#[test]
fn end_state_differs() {
    // The input alone: 0 after scan 1, 1 after scan 2.
    let stops = table([1, 0, 0], &[], &[], &[vec![vec![STOP]]]);
    refuses(&stops, &[2, 1, 0, 1], Cause::EndStateDiffers, 2, 0);
    closes_with(&stops, &[2, 1, 1, 1], 7, 4);
    // "With an input variable, b = 0 never closes: inputs are unset at the start." 0 is not unset.
    let ends = table([1, 1, 0], &[], &[], &[vec![vec![[2, 1, 1, 0, 0, 0]]]]);
    refuses(&ends, &[1, 0, 0], Cause::EndStateDiffers, 1, 0);
    // An internal variable and its output: 0 after each scan, unset at the start.
    let writes = table([0, 1, 1], &[0], &[], &[vec![vec![constant(0, 0, 0)]]]);
    refuses(&writes, &[3, 0], Cause::EndStateDiffers, 3, 0);
    closes_with(&writes, &[3, 1], 12, 4);
    // Process 2 alone: started in scan 1, in err from scan 2 on.
    let first = vec![vec![[6, 2, 0, 0, 2, 0], NEXT], vec![[9, 3, 0, 0, 0, 0]], vec![constant(0, 0, 0)]];
    let second = vec![vec![[4, 1, 0, 0, 2, 0], ERR]];
    let starts = table([0, 1, 0], &[], &[], &[first, second]);
    refuses(&starts, &[2, 1], Cause::EndStateDiffers, 2, 0);
    // s1: read 1, startP 2, next 3, set 4, constant 5, end 6, tout 7, write 8. s2: read 9, constant 10, end 11, tout 12, err 13,
    // skip 14, write 15. s3: read 16, constant 17, end 18, skip 19, write 20.
    closes_with(&starts, &[3, 2], 20, 15);
}

// ---------------------------------------------------------------------------------------------------------------------
// Checks and the lent buffer
// ---------------------------------------------------------------------------------------------------------------------

/// A refusal before the scans: the buffer is as it was.
fn refuses_untouched(table: &[u8], inputs: &[u8], room: usize, cause: Cause, place: usize) {
    let mut buffer = vec![0xEE; room];
    let refused = RefusedRun { refusal: Refusal::new(cause, place), process: 0 };
    assert_eq!(run(table, inputs, &mut buffer), Ran::Refused(refused));
    assert!(buffer.iter().all(|byte| *byte == 0xEE));
}

/// "A run checks: trace buffer under 20,480 bytes (10), table, inputs, scans."
#[test]
fn order_of_checks() {
    let good_table = bytes_of_numbers(&BENCH_TABLE);
    let good_inputs = bytes_of_numbers(&BENCH_INPUTS);
    for room in [0, 1, 60, 20479] {
        refuses_untouched(&good_table, &good_inputs, room, Cause::BufferTooShort, 20480);
        refuses_untouched(&[33], &[0], room, Cause::BufferTooShort, 20480);
    }
    for room in [20480, 20481, 20500] {
        refuses_untouched(&[33], &[0], room, Cause::ValueNotAllowed, 0);
        refuses_untouched(&[], &[], room, Cause::CutShort, 0);
        refuses_untouched(&good_table, &[3, 3], room, Cause::ValueNotAllowed, 1);
        refuses_untouched(&good_table, &[3, 1, 0, 1], room, Cause::CutShort, 4);
        refuses_untouched(&good_table, &[3, 1, 0, 1, 0, 0], room, Cause::LeftOver, 5);
        let mut longer = good_table.clone();
        longer.push(0);
        refuses_untouched(&longer, &[0], room, Cause::LeftOver, 20);
        // Inputs before scans: this table has no rule in scan 1.
        let no_rule = bytes_of_numbers(&table([0, 0, 0], &[], &[], &[vec![vec![RESET]]]));
        refuses_untouched(&no_rule, &[1, 1], room, Cause::ValueNotAllowed, 1);
    }
}

/// By numbers the place is an index: 300 has two bytes.
#[test]
fn places_by_numbers() {
    let mut numbers = BENCH_TABLE;
    numbers[7] = 300;
    numbers[8] = 3;
    let refused = |cause, place| Ran::Refused(RefusedRun { refusal: Refusal::new(cause, place), process: 0 });
    assert_eq!(run_numbers(&numbers, &BENCH_INPUTS), refused(Cause::ValueNotAllowed, 8));
    refuses_untouched(&bytes_of_numbers(&numbers), &[0], 20480, Cause::ValueNotAllowed, 9);
    assert_eq!(run_numbers(&BENCH_TABLE, &[3, 1, 300, 300]), refused(Cause::CutShort, 4));
}

/// "5 to 8 leave the trace buffer all zero": "the whole lent slice". "An accepted run zeroes the trace bytes past its end."
#[test]
fn what_is_left_in_the_buffer() {
    let good_table = bytes_of_numbers(&BENCH_TABLE);
    for room in [20480, 20481, 20500] {
        let mut buffer = vec![0xEE; room];
        let ran = run(&good_table, &[3, 1, 0, 1, 0], &mut buffer);
        assert_eq!(ran, Ran::Closed { positions: 12, loop_start: 4, trace: BENCH.to_vec() });
        assert_eq!(buffer[..60], BENCH);
        assert!(buffer[60..].iter().all(|byte| *byte == 0));

        let mut buffer = vec![0xEE; room];
        let ran = run(&good_table, &[3, 1, 0, 1, 1], &mut buffer);
        let refusal = Refusal::new(Cause::EndStateDiffers, 3);
        assert_eq!(ran, Ran::Refused(RefusedRun { refusal, process: 0 }));
        assert_eq!(refusal.number(), 8);
        assert!(buffer.iter().all(|byte| *byte == 0));
    }
    let numbers = [Cause::NoRule, Cause::TooManyActions, Cause::TooManyStates].map(Cause::number);
    assert_eq!(numbers, [5, 6, 7]);
}
