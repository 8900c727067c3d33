//! The run of a table over recorded inputs, and its closing to a lasso trace.

use crate::code::Code;
use crate::controller::Controller;
use crate::inputs::{check_inputs, Inputs};
use crate::refusal::{Cause, Refusal};
use crate::table::{check_table, Table, MOST_PROCESSES};
use crate::trace::{EXE, INPUT, OUTPUT};

/// "a state numbered above 4,096 would arise (the start is 0)"
pub const HIGHEST_STATE: usize = 4096;
/// "after at most 64 actions, skip and end counted"
pub const MOST_ACTIONS: usize = 64;
/// "trace buffer under 20,480 bytes (10)"
pub const ROOM: usize = 20480;

/// What came of a run.
#[derive(Clone, Debug, PartialEq, Eq)]
pub enum Ran {
    /// The trace has 5 bytes for each position.
    Closed { positions: usize, loop_start: usize, trace: Vec<u8> },
    Refused(RefusedRun),
}

/// "Refusals carry number and place, else nothing." A run that was stopped (5 and 6) also tells here whose turn it was.
#[derive(Clone, Copy, Debug, PartialEq, Eq, PartialOrd, Ord)]
pub struct RefusedRun {
    pub refusal: Refusal,
    /// The process (from 1) whose turn it was at a 5 or 6; 0 for all others.
    pub process: usize,
}

impl From<Refusal> for RefusedRun {
    fn from(refusal: Refusal) -> RefusedRun {
        RefusedRun { refusal, process: 0 }
    }
}

/// The run of a table given as numbers; places of 1 and 2 are indices. "A run checks: [...] table, inputs, scans."
pub fn run_numbers(table: &[u16], inputs: &[u16]) -> Ran {
    run_code(Code::Numbers(table), Code::Numbers(inputs))
}

/// The run of a table given as bytes into a lent trace buffer. "A run checks: trace buffer under 20,480 bytes (10), table,
/// inputs, scans."
pub fn run(table: &[u8], inputs: &[u8], buffer: &mut [u8]) -> Ran {
    if buffer.len() < ROOM {
        return Ran::Refused(Refusal::new(Cause::BufferTooShort, ROOM).into());
    }
    let ran = run_code(Code::Bytes(table), Code::Bytes(inputs));
    leave(&ran, buffer);
    ran
}

/// What a run leaves in a lent buffer that is long enough.
fn leave(ran: &Ran, buffer: &mut [u8]) {
    match ran {
        // "An accepted run zeroes the trace bytes past its end": those of "the whole lent slice, past 20,480 too".
        Ran::Closed { trace, .. } => {
            buffer.fill(0);
            for (index, byte) in trace.iter().enumerate() {
                buffer[index] = *byte;
            }
        }
        // "1 to 4 and 9 to 11 change no buffer; 5 to 8 leave the trace buffer all zero."
        Ran::Refused(refused) => {
            if matches!(refused.refusal.number(), 5..=8) {
                buffer.fill(0);
            }
        }
    }
}

fn run_code(table: Code, inputs: Code) -> Ran {
    match closed_run(table, inputs) {
        Ok(ran) => ran,
        Err(refused) => Ran::Refused(refused),
    }
}

/// "table, inputs, scans"
fn closed_run(table: Code, inputs: Code) -> Result<Ran, RefusedRun> {
    let table = check_table(table, MOST_PROCESSES)?;
    let inputs = check_inputs(inputs, table.counts.inputs as usize)?;
    let mut path = Path::new(&table);
    path.scans(&table, &inputs.values)?;
    close(&table, &inputs, &path)
}

/// The states of a run, in order of arising.
#[derive(Clone, Debug, PartialEq, Eq)]
pub struct Path {
    pub states: Vec<Controller>,
    pub phases: Vec<u8>,
    /// `ends[s]` is the number of the state that ended scan s; `ends[0]` is the start's.
    pub ends: Vec<usize>,
}

impl Path {
    /// "The state before the first read [...] is Output (2)"
    pub fn new(table: &Table) -> Path {
        Path { states: vec![Controller::start(table)], phases: vec![OUTPUT], ends: vec![0] }
    }

    /// A scan for each of the inputs, or up to the first refusal.
    pub fn scans(&mut self, table: &Table, values: &[Vec<u16>]) -> Result<(), RefusedRun> {
        for inputs in values {
            self.scan(table, inputs)?;
            self.ends.push(self.states.len() - 1);
        }
        Ok(())
    }

    /// One scan: the read, the turn of each process, the write. The phases: "each just after a write, is Output (2); just
    /// after a read is Input (0); all others are Exe (1)".
    fn scan(&mut self, table: &Table, inputs: &[u16]) -> Result<(), RefusedRun> {
        self.arise(INPUT, self.last().read(inputs))?;
        // "Each process passes its turn exactly once a scan, ascending"
        for process in 1..=table.processes.len() {
            self.turn(table, process)?;
        }
        self.arise(OUTPUT, self.last().write(table))
    }

    /// "after at most 64 actions, skip and end counted; a 65th is refusal 6, looked for before 5, and 5 before 7"
    fn turn(&mut self, table: &Table, process: usize) -> Result<(), RefusedRun> {
        let mut actions_done = 0;
        while self.last().counter == process {
            if actions_done == MOST_ACTIONS {
                return Err(self.stopped(Cause::TooManyActions, process));
            }
            match self.last().act(table) {
                None => return Err(self.stopped(Cause::NoRule, process)),
                Some(after) => self.arise(EXE, after)?,
            }
            actions_done += 1;
        }
        Ok(())
    }

    fn last(&self) -> &Controller {
        &self.states[self.states.len() - 1]
    }

    /// "7 | a state numbered above 4,096 would arise (the start is 0)"; "Reads and writes can be 7 too."
    fn arise(&mut self, phase: u8, state: Controller) -> Result<(), RefusedRun> {
        let number = self.states.len();
        if number > HIGHEST_STATE {
            return Err(Refusal::new(Cause::TooManyStates, self.scan_number()).into());
        }
        self.states.push(state);
        self.phases.push(phase);
        Ok(())
    }

    /// The scan that is going on, "from 1": one more than have ended.
    fn scan_number(&self) -> usize {
        self.ends.len()
    }

    fn stopped(&self, cause: Cause, process: usize) -> RefusedRun {
        RefusedRun { refusal: Refusal::new(cause, self.scan_number()), process }
    }
}

/// "The run closes if the whole state after scan q equals that after scan b (b = 0: the start)."
fn close(table: &Table, inputs: &Inputs, path: &Path) -> Result<Ran, RefusedRun> {
    let last = path.ends[inputs.scans as usize];
    let loop_start = path.ends[inputs.return_scan as usize];
    if path.states[last] != path.states[loop_start] {
        return Err(Refusal::new(Cause::EndStateDiffers, inputs.scans as usize).into());
    }
    // "The last state is then dropped and its predecessor is followed by the state that ended scan b."
    let positions = last;
    let mut trace = Vec::new();
    for position in 0..positions {
        trace.extend(position_bytes(table, path.phases[position], &path.states[position]));
    }
    Ok(Ran::Closed { positions, loop_start, trace })
}

/// "5 bytes: phase, then 32 atoms, atom 0 the lowest bit, low byte first; an atom without a test is 0"
fn position_bytes(table: &Table, phase: u8, state: &Controller) -> [u8; 5] {
    let mut bytes = [phase, 0, 0, 0, 0];
    // "Test k is atom k."
    for (atom, test) in table.tests.iter().enumerate() {
        if state.test(test) {
            bytes[1 + atom / 8] += 1 << (atom % 8);
        }
    }
    bytes
}
