//! What the program scancheck prints for what it reads from standard input.
//!
//! "three blocks (table, inputs, untranslated requirement), each after its length as a number of the coding"

use crate::judging::{judge, list_needed, work_needed};
use crate::number::read_number;
use crate::refusal::{Cause, Refusal};
use crate::requirement::Which;
use crate::run::{run, Ran, ROOM};

/// "input over 60,000 bytes": "Exactly 60,000 bytes is allowed."
pub const MOST_BYTES: usize = 60_000;

/// The lines for the whole of the input. "A line feed ends every line."
pub fn report(input: &[u8]) -> Vec<u8> {
    let mut printed = Vec::new();
    for line in lines(input) {
        printed.extend(line.as_bytes());
        printed.push(b'\n');
    }
    printed
}

/// "A refusal prints one line, `refused` number `at` place."
fn lines(input: &[u8]) -> Vec<String> {
    match accepted_lines(input) {
        Ok(lines) => lines,
        Err(refusal) => vec![format!("refused {} at {}", refusal.number(), refusal.place)],
    }
}

/// "framing of all three blocks first, then table, inputs and scans, then the requirement"
fn accepted_lines(input: &[u8]) -> Result<Vec<String>, Refusal> {
    let blocks = blocks(input)?;
    let lasso = closed_run(blocks.table, blocks.inputs)?;
    let judged = judged(blocks.requirement, &lasso)?;
    // "Lines: position count and loop start; verdict at 0 (`holds` or `fails`); findings count; one line per finding."
    let mut lines = vec![
        format!("positions {} loop {}", lasso.positions, lasso.loop_start),
        format!("verdict {}", if judged.holds { "holds" } else { "fails" }),
        format!("fails {}", judged.findings.len()),
    ];
    for position in judged.findings {
        lines.push(format!("at {position}"));
    }
    Ok(lines)
}

/// The three blocks of an input, in their order.
#[derive(Clone, Copy, Debug, PartialEq, Eq)]
pub struct Blocks<'a> {
    pub table: &'a [u8],
    pub inputs: &'a [u8],
    pub requirement: &'a [u8],
}

/// "First, input over 60,000 bytes is refusal 1 at 60,000, then a faulty length, a block cut short or left-over bytes is
/// refusal 1, placed in the whole input"
pub fn blocks(input: &[u8]) -> Result<Blocks<'_>, Refusal> {
    if input.len() > MOST_BYTES {
        return Err(Refusal::new(Cause::LeftOver, MOST_BYTES));
    }
    let (table, after_table) = block(input, 0)?;
    let (inputs, after_inputs) = block(input, after_table)?;
    let (requirement, after_requirement) = block(input, after_inputs)?;
    // "left-over bytes at the first of them"
    if after_requirement < input.len() {
        return Err(Refusal::new(Cause::LeftOver, after_requirement));
    }
    Ok(Blocks { table, inputs, requirement })
}

/// The block whose length begins at `place`, and the place after it. "a number's fault stands at its first byte, a text
/// or block cut short at its length's first byte"
fn block(input: &[u8], place: usize) -> Result<(&[u8], usize), Refusal> {
    let length = read_number(input, place)?;
    let after = length.after + length.value as usize;
    if after > input.len() {
        return Err(Refusal::new(Cause::CutShort, place));
    }
    Ok((&input[length.after..after], after))
}

/// A run that closed.
struct Lasso {
    positions: usize,
    loop_start: usize,
    trace: Vec<u8>,
}

/// "then it runs": with as much room as a run asks for, so that 10 does not come.
fn closed_run(table: &[u8], inputs: &[u8]) -> Result<Lasso, Refusal> {
    let mut buffer = vec![0; ROOM];
    match run(table, inputs, &mut buffer) {
        Ran::Closed { positions, loop_start, trace } => Ok(Lasso { positions, loop_start, trace }),
        Ran::Refused(refused) => Err(refused.refusal),
    }
}

/// A verdict and the positions of the findings.
struct Judged {
    holds: bool,
    findings: Vec<usize>,
}

/// "and judges": with room for a requirement of any depth, so that 10 does not come, nor does 9 for a run's trace.
fn judged(requirement: &[u8], lasso: &Lasso) -> Result<Judged, Refusal> {
    let mut work = vec![0; work_needed(Which::Untranslated.most_depth(), lasso.positions)];
    let mut list = vec![0; list_needed(&lasso.trace)];
    let judged = judge(Which::Untranslated, requirement, &lasso.trace, lasso.loop_start, &mut work, &mut list)?;
    // "the list holds 2-byte positions, low byte first"
    let listed = list.chunks(2).map(|pair| pair[0] as usize + 256 * pair[1] as usize);
    Ok(Judged { holds: judged.holds, findings: listed.take(judged.findings).collect() })
}
