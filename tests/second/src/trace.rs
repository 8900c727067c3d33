//! The check of a lent lasso trace, refusal 9.
//!
//! "In the trace each has 5 bytes: phase, then 32 atoms, atom 0 the lowest bit, low byte first"

use crate::refusal::{Cause, Refusal};

/// "Output (2)", "Input (0)", "Exe (1)"
pub const INPUT: u8 = 0;
pub const EXE: u8 = 1;
pub const OUTPUT: u8 = 2;

/// The check of a trace; answers with its position count. "9 | in this order"
pub fn check_trace(trace: &[u8], loop_start: usize) -> Result<usize, Refusal> {
    // "trace length 0, over 20,480 or not a multiple of 5 (place: length)"
    let length = trace.len();
    if length == 0 || length > 20480 || length % 5 != 0 {
        return Err(Refusal::new(Cause::TraceLength, length));
    }
    // "loop start not below the position count (place: that count)"
    let count = length / 5;
    if loop_start >= count {
        return Err(Refusal::new(Cause::LoopStart, count));
    }
    let phases: Vec<u8> = (0..count).map(|position| trace[5 * position]).collect();
    check_phases(&phases, loop_start)?;
    // "no Output in the loop (loop start)"
    if !phases[loop_start..].contains(&OUTPUT) {
        return Err(Refusal::new(Cause::NoOutputInLoop, loop_start));
    }
    Ok(count)
}

/// "bad phase or followed by a phase not allowed (first such position)": "positions ascending, each with both questions"
fn check_phases(phases: &[u8], loop_start: usize) -> Result<(), Refusal> {
    for position in 0..phases.len() {
        // "The last position is followed by the loop start."
        let next = if position + 1 < phases.len() { position + 1 } else { loop_start };
        let bad = phases[position] > OUTPUT;
        if bad || !may_follow(phases[position], phases[next]) {
            return Err(Refusal::new(Cause::Phase, position));
        }
    }
    Ok(())
}

/// "Output is followed by Input, Input by Exe, Exe by Exe or Output, at the join too"
pub fn may_follow(phase: u8, next: u8) -> bool {
    match phase {
        OUTPUT => next == INPUT,
        INPUT => next == EXE,
        EXE => next == EXE || next == OUTPUT,
        _ => false,
    }
}
