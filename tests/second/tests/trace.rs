//! The check of a lent lasso trace.

use second::trace::check_trace;
use second::{Cause, Refusal};

fn trace(phases: &[u8]) -> Vec<u8> {
    phases.iter().flat_map(|phase| [*phase, 0x12, 0x34, 0x56, 0xFF]).collect()
}

fn refuses(phases: &[u8], loop_start: usize, cause: Cause, place: usize) {
    assert_eq!(check_trace(&trace(phases), loop_start), Err(Refusal { cause, place }), "{phases:?} {loop_start}");
}

fn accepts(phases: &[u8], loop_start: usize) {
    assert_eq!(check_trace(&trace(phases), loop_start), Ok(phases.len()), "{phases:?} {loop_start}");
}

/// "Twelve positions, loop start 4; Input at 1, 5, 9; Output at 0, 4, 8"
#[test]
fn bench_trace() {
    accepts(&[2, 0, 1, 1, 2, 0, 1, 1, 2, 0, 1, 1], 4);
}

/// "trace length 0, over 20,480 or not a multiple of 5 (place: length)"
#[test]
fn lengths() {
    let refused = |place| Err(Refusal { cause: Cause::TraceLength, place });
    assert_eq!(check_trace(&[], 0), refused(0));
    assert_eq!(check_trace(&[0; 14], 0), refused(14));
    assert_eq!(check_trace(&[2; 16], 99), refused(16));
    assert_eq!(check_trace(&vec![9; 20485], 0), refused(20485));
    let mut phases = vec![1; 4096];
    phases[0] = 2;
    phases[1] = 0;
    accepts(&phases, 0);
}

/// "loop start not below the position count (place: that count)"
#[test]
fn loop_starts() {
    refuses(&[2, 0, 1], 3, Cause::LoopStart, 3);
    refuses(&[9, 9], usize::MAX, Cause::LoopStart, 2);
    accepts(&[2, 0, 1], 0);
}

/// "phases 2, 0, 7 with loop start 0 give 1. Only a bad phase at position 0 is found at 0."
#[test]
fn bad_phases() {
    refuses(&[2, 0, 7], 0, Cause::Phase, 1);
    refuses(&[7, 0, 1, 2], 1, Cause::Phase, 0);
    refuses(&[3], 0, Cause::Phase, 0);
    refuses(&[255, 2, 0, 1], 1, Cause::Phase, 0);
}

/// "Output is followed by Input, Input by Exe, Exe by Exe or Output, at the join too"
#[test]
fn phases_that_may_follow() {
    accepts(&[0, 1, 2], 0);
    accepts(&[1, 2, 0], 0);
    accepts(&[1, 1, 2, 0, 1], 0);
    refuses(&[0, 0, 1, 2], 0, Cause::Phase, 0);
    refuses(&[0, 2], 0, Cause::Phase, 0);
    refuses(&[2, 1], 0, Cause::Phase, 0);
    refuses(&[2, 2], 0, Cause::Phase, 0);
    refuses(&[2, 0, 1, 0, 1, 2], 0, Cause::Phase, 2);
}

/// "The last position is followed by the loop start."
#[test]
fn join() {
    refuses(&[2, 0, 1], 1, Cause::Phase, 2);
    refuses(&[1, 2, 0, 1, 2], 0, Cause::Phase, 4);
    accepts(&[1, 2, 0, 1, 2], 2);
}

/// "no Output in the loop (loop start)"
#[test]
fn no_output_in_the_loop() {
    refuses(&[1], 0, Cause::NoOutputInLoop, 0);
    refuses(&[2, 0, 1, 1], 2, Cause::NoOutputInLoop, 2);
    refuses(&[2, 0, 1, 1], 3, Cause::NoOutputInLoop, 3);
}
