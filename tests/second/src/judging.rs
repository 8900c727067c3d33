//! Judging: verdict and findings of a requirement on a lent lasso trace.

use crate::code::Code;
use crate::meaning::{truth_by_position, EndlessRun};
use crate::refusal::{Cause, Refusal};
use crate::requirement::{check_requirement, Which};
use crate::trace::INPUT;

/// "The answer has the verdict and the number of findings"
#[derive(Clone, Copy, Debug, PartialEq, Eq)]
pub struct Judged {
    pub holds: bool,
    pub findings: usize,
}

/// "Judging checks: requirement, trace, work buffer [...], list buffer [...]." "1 to 4 and 9 to 11 change no buffer":
/// nothing is written before the last check.
pub fn judge(
    which: Which,
    code: &[u8],
    trace: &[u8],
    loop_start: usize,
    work: &mut [u8],
    list: &mut [u8],
) -> Result<Judged, Refusal> {
    let requirement = check_requirement(Code::Bytes(code), which)?;
    let run = EndlessRun::new(trace, loop_start)?;
    check_room(work, work_needed(requirement.depth, run.position_count()))?;
    check_room(list, list_needed(trace))?;
    let truth = truth_by_position(&requirement.tree, &run);
    let findings = findings(&run, &truth);
    write_findings(&findings, list);
    // "Judging ends with work all zero": "the whole lent work"
    work.fill(0);
    // "The verdict is taken at moment 0."
    Ok(Judged { holds: truth[0], findings: findings.len() })
}

/// "work buffer under depth times row bytes (positions over 8, rounded up)": "the requirement's own depth (not the
/// limit)"
pub fn work_needed(depth: usize, position_count: usize) -> usize {
    let row_bytes = (position_count + 7) / 8;
    depth * row_bytes
}

/// "list buffer under 2 bytes per Input position": "whether or not it fails"
pub fn list_needed(trace: &[u8]) -> usize {
    2 * trace.chunks(5).filter(|position| position[0] == INPUT).count()
}

/// "10 | a lent buffer too short | bytes needed"
fn check_room(buffer: &[u8], needed: usize) -> Result<(), Refusal> {
    if buffer.len() < needed {
        return Err(Refusal::new(Cause::BufferTooShort, needed));
    }
    Ok(())
}

/// "Findings are the stored Input positions, the part before the loop too, at which the requirement is false": "each
/// once, ascending, nothing else".
fn findings(run: &EndlessRun, truth: &[bool]) -> Vec<usize> {
    let inputs = (0..run.position_count()).filter(|position| run.phase(*position) == INPUT);
    inputs.filter(|position| !truth[*position]).collect()
}

/// "the list holds 2-byte positions, low byte first, and its rest is unchanged"
fn write_findings(findings: &[usize], list: &mut [u8]) {
    for (index, position) in findings.iter().enumerate() {
        list[2 * index] = (position % 256) as u8;
        list[2 * index + 1] = (position / 256) as u8;
    }
}
