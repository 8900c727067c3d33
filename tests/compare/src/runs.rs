//! Runs, and judging on the traces that they leave.

use second::code::{bytes_of_numbers, Code};
use second::inputs::check_inputs;
use second::random::{self, MadeQuestion, MadeTrace, Random};
use second::random_report::{requirement_for, LONG};
use second::random_run::{run_case, widest_inputs, widest_table, RunCase, WIDEST_MOST};
use second::requirement::Which;
use second::run::{run, Ran, ROOM};
use second::table::{check_table, State, Table, MOST_PROCESSES};

use crate::tally::Tally;
use crate::{calls, judge_both, same, told};

pub const FULL_TABLE: &str = "a run of 8 processes of 8 states of 16 actions, 32 variables, 32 tests";
pub const FULL_TABLE_CLOSED: &str = "a run of 8 processes of 8 states of 16 actions, 32 variables, 32 tests that closed";
pub const ALL_SCANS: &str = "a run of 1,365 scans";
pub const ALL_SCANS_CLOSED: &str = "a run of 1,365 scans that closed";
pub const ALL_INPUTS_CLOSED: &str = "a run of 1,365 scans of 32 inputs that closed";
pub const MOST_POSITIONS: &str = "a run that closed with 4,096 positions";
pub const BYTE_SHORT: &str = "a trace buffer one byte short";
pub const EXACT_ROOM: &str = "a trace buffer of just 20,480 bytes";
pub const MORE_ROOM: &str = "a longer trace buffer";

/// A run of any kind; where it closes, a requirement is judged on its trace.
pub fn runs(random: &mut Random, tally: &mut Tally) -> Result<(), String> {
    let case = if random.once_in(200) { widest_case(random) } else { run_case(random) };
    let mut mine = random.bytes(case.room);
    let mut theirs = mine.clone();
    let given = calls::run(&case.table, &case.inputs, &mut mine);
    let ran = run(&case.table, &case.inputs, &mut theirs);
    let wanted = told(match &ran {
        Ran::Closed { positions, loop_start, .. } => Ok((*positions as u64, *loop_start as u64)),
        Ran::Refused(refused) => Err(refused.refusal),
    });
    let input = (&case.table, &case.inputs, case.room);
    same("run", &given, &wanted, &input)?;
    same("run's trace, at the first other byte,", &first_other(&mine, &theirs), &first_other(&theirs, &mine), &input)?;
    tally.note("run", given.refusal);

    let table = check_table(Code::Bytes(&case.table), MOST_PROCESSES).ok();
    if let Some(table) = &table {
        meet_sizes(&case, table, &ran, tally);
    }
    meet_room(&case, tally);
    match (ran, table) {
        (Ran::Closed { positions, loop_start, .. }, Some(table)) => {
            mine.truncate(5 * positions);
            let lasso = MadeTrace { trace: mine, loop_start };
            judge_run(random, lasso, table.tests.len(), tally)
        }
        _ => Ok(()),
    }
}

/// The first byte of a buffer that differs from one of the same length, with its place.
fn first_other(buffer: &[u8], from: &[u8]) -> Option<(usize, u8)> {
    let place = (0..buffer.len()).find(|place| buffer[*place] != from[*place])?;
    Some((place, buffer[place]))
}

/// Everything that inputs can have at its limit.
fn widest_case(random: &mut Random) -> RunCase {
    let table = bytes_of_numbers(&widest_table(random));
    let bytes = random.between(32 * 1365, WIDEST_MOST);
    RunCase { table, inputs: bytes_of_numbers(&widest_inputs(random, bytes)), room: ROOM }
}

/// A requirement of either kind on the trace that the checker's own run left. On long traces the second program is slow, so
/// only some of them are judged, and none with a translated requirement.
fn judge_run(random: &mut Random, lasso: MadeTrace, tests: usize, tally: &mut Tally) -> Result<(), String> {
    let long = lasso.trace.len() > 5 * LONG;
    if long && !random.once_in(4) {
        return Ok(());
    }
    let which = if !long && random.once_in(4) { Which::Translated } else { Which::Untranslated };
    let numbers = requirement_for(random, which, &lasso, tests);
    let case = random::judging_case_of(random, which, MadeQuestion { numbers, lasso });
    judge_both("judge a run's trace", &case, random, tally)
}

/// The extreme sizes of a run whose table is well-formed.
fn meet_sizes(case: &RunCase, table: &Table, ran: &Ran, tally: &mut Tally) {
    let closed = matches!(ran, Ran::Closed { .. });
    if is_full(table) {
        tally.meet(FULL_TABLE);
        if closed {
            tally.meet(FULL_TABLE_CLOSED);
        }
    }
    if let Ok(inputs) = check_inputs(Code::Bytes(&case.inputs), table.counts.inputs as usize) {
        if inputs.scans == 1365 {
            tally.meet(ALL_SCANS);
        }
        if inputs.scans == 1365 && closed {
            tally.meet(ALL_SCANS_CLOSED);
        }
        if inputs.scans == 1365 && closed && table.counts.inputs == 32 {
            tally.meet(ALL_INPUTS_CLOSED);
        }
    }
    if let Ran::Closed { positions: 4096, .. } = ran {
        tally.meet(MOST_POSITIONS);
    }
}

fn is_full(table: &Table) -> bool {
    let full_process = |states: &[State]| states.len() == 8 && states.iter().all(|state| state.actions.len() == 16);
    table.counts.total() == 32
        && table.tests.len() == 32
        && table.processes.len() == 8
        && table.processes.iter().all(|process| full_process(&process.states))
}

fn meet_room(case: &RunCase, tally: &mut Tally) {
    if case.room + 1 == ROOM {
        tally.meet(BYTE_SHORT);
    } else if case.room == ROOM {
        tally.meet(EXACT_ROOM);
    } else if case.room > ROOM {
        tally.meet(MORE_ROOM);
    }
}
