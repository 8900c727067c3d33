//! The controller's state and its rules: the read, the write, and one action of the process whose turn it is.
//!
//! The rules are those of paper 003, with paper 000's counter to n+1 and its write; document 01 decides the open places.

use crate::table::{Action, Table, Test};

/// "b (0 stop, 1 upward active, 255 err)"
pub const STOP: u16 = 0;
pub const ERR: u16 = 255;

/// "f_i(s) is its current functional state, a_i(s) is an action counter in state f_i(s), and t_i(s) is the value of its
/// timer"
#[derive(Clone, Copy, Debug, PartialEq, Eq)]
pub struct Record {
    pub state: u16,
    /// From 1; none at the end of the body and in an inactive state.
    pub action: Option<u16>,
    pub timer: Option<u16>,
}

/// "The whole state is every variable (inputs, internals, outputs, unset or a value), every process's record and the
/// counter."
#[derive(Clone, Debug, PartialEq, Eq)]
pub struct Controller {
    pub variables: Vec<Option<u16>>,
    /// That of process 1 is `records[0]`.
    pub records: Vec<Record>,
    /// 0 before the read, then the process whose turn it is (from 1), then n+1 before the write.
    pub counter: usize,
}

/// "goes to the first action of the corresponding functional states and stops the timer"
fn beginning(state: u16) -> Record {
    Record { state, action: Some(1), timer: None }
}

/// "f' = stop, a' = ⊥, t' = ⊥", and the same for err.
fn inactive(state: u16) -> Record {
    Record { state, action: None, timer: None }
}

impl Controller {
    /// "Start: process 1 in state 1 at action 1, others stopped, no timers, counter 0." "A variable starts unset."
    pub fn start(table: &Table) -> Controller {
        let mut records = vec![inactive(STOP); table.processes.len()];
        records[0] = beginning(1);
        Controller { variables: vec![None; table.counts.total() as usize], records, counter: 0 }
    }

    /// "Read: inputs taken, running timers up by 1"; "the process counter points to the first process"
    pub fn read(&self, inputs: &[u16]) -> Controller {
        let mut after = self.clone();
        for (variable, value) in inputs.iter().enumerate() {
            after.variables[variable] = Some(*value);
        }
        for record in &mut after.records {
            record.timer = record.timer.map(|timer| timer + 1);
        }
        after.counter = 1;
        after
    }

    /// "the write (each output takes its source) sets it to 0"; "writing from an unset source makes the output unset"
    pub fn write(&self, table: &Table) -> Controller {
        let mut after = self.clone();
        let first_output = (table.counts.inputs + table.counts.internals) as usize;
        for (output, source) in table.sources.iter().enumerate() {
            after.variables[first_output + output] = self.variables[*source as usize];
        }
        after.counter = 0;
        after
    }

    /// "The controller's state goes in, one action is done, and the state comes out." None: "no rule for the action".
    pub fn act(&self, table: &Table) -> Option<Controller> {
        let record = self.own();
        // "Process p_i does nothing in inactive states stop and err"
        if record.state == STOP || record.state == ERR {
            return Some(self.skip());
        }
        let body = &table.processes[self.counter - 1].states[record.state as usize - 1];
        let action = match record.action {
            None => return Some(self.end()),
            Some(number) => &body.actions[number as usize - 1],
        };
        let next = self.next_action(table, action);
        match action.op {
            1 => Some(self.constant(action, next)),
            2 => Some(self.copy(action, next)),
            3 => Some(self.add(action, next)),
            4 => self.tout(action, next),
            5 => self.reset(),
            6 => Some(self.start_process(action, next)),
            7 => Some(self.stop_process(action, next)),
            8 => Some(self.start_again()),
            9 => Some(self.set(action)),
            10 => Some(self.next_state()),
            11 => Some(self.stop()),
            12 => Some(self.err()),
            op => unreachable!("op {op} in an accepted table"),
        }
    }

    /// The record of the process whose turn it is.
    fn own(&self) -> Record {
        self.records[self.counter - 1]
    }

    /// The same but for that record: "non-mentioned right elements are not changed".
    fn with_own(&self, record: Record) -> Controller {
        let mut after = self.clone();
        after.records[self.counter - 1] = record;
        after
    }

    /// The same, and the turn is the next process's (or the write's).
    fn passing_on(&self, record: Record) -> Controller {
        let mut after = self.with_own(record);
        after.counter = self.counter + 1;
        after
    }

    /// Is the test true in this state?
    pub fn test(&self, test: &Test) -> bool {
        match test.kind {
            // "0 variable a equals the number b"; "A test of an unset variable is false"
            0 => self.variables[test.a as usize] == Some(test.b),
            // "1 variable a exceeds the number b"
            1 => match self.variables[test.a as usize] {
                None => false,
                Some(value) => value > test.b,
            },
            // "2 process a (from 1) is in state b"
            2 => self.records[test.a as usize - 1].state == test.b,
            kind => unreachable!("kind {kind} in an accepted table"),
        }
    }

    /// "An action is always done; its guard, tested on the state before it, only chooses next-if or next-else".
    /// "Guard 0 is always true, guard k+1 is test k; next 0 is the end of the body."
    fn next_action(&self, table: &Table, action: &Action) -> Option<u16> {
        let holds = action.guard == 0 || self.test(&table.tests[action.guard as usize - 1]);
        let next = if holds { action.next_if } else { action.next_else };
        if next == 0 {
            None
        } else {
            Some(next)
        }
    }

    /// skip: "passes control to the next process"
    fn skip(&self) -> Controller {
        self.passing_on(self.own())
    }

    /// end: "it goes to the first action of the body and transfers control to the next process"; "end does not clear it",
    /// the timer.
    fn end(&self) -> Controller {
        self.passing_on(Record { action: Some(1), ..self.own() })
    }

    /// The same but for one variable, and the process goes to the next action.
    fn updated(&self, variable: u16, value: Option<u16>, next: Option<u16>) -> Controller {
        let mut after = self.with_own(Record { action: next, ..self.own() });
        after.variables[variable as usize] = value;
        after
    }

    /// "op 1, x takes the number y"
    fn constant(&self, action: &Action, next: Option<u16>) -> Controller {
        self.updated(action.x, Some(action.y), next)
    }

    /// "2, x takes variable y"; "copying copies unset"
    fn copy(&self, action: &Action, next: Option<u16>) -> Controller {
        self.updated(action.x, self.variables[action.y as usize], next)
    }

    /// "3, x takes its own value plus y, modulo 65,536"; "adding to an unset one leaves it unset"
    fn add(&self, action: &Action, next: Option<u16>) -> Controller {
        let sum = |value: u16| ((value as u32 + action.y as u32) % 65536) as u16;
        self.updated(action.x, self.variables[action.x as usize].map(sum), next)
    }

    /// "tout with no timer starts it at 0 and passes on; below the bound passes on; equal to the bound clears it and goes
    /// on. A timer above its bound [has] no rule". "tout and reset that pass on set the action to 1."
    fn tout(&self, action: &Action, next: Option<u16>) -> Option<Controller> {
        let record = self.own();
        let bound = action.x;
        match record.timer {
            None => Some(self.passing_on(Record { action: Some(1), timer: Some(0), ..record })),
            Some(timer) if timer < bound => Some(self.passing_on(Record { action: Some(1), ..record })),
            Some(timer) if timer == bound => Some(self.with_own(Record { action: next, timer: None, ..record })),
            Some(_) => None,
        }
    }

    /// "(t_i ≠ ⊥) reset (a' = 1, t' = 0, pc' = i + 1)"; "reset with no timer, have no rule"
    fn reset(&self) -> Option<Controller> {
        let record = self.own();
        match record.timer {
            None => None,
            Some(_) => Some(self.passing_on(Record { action: Some(1), timer: Some(0), ..record })),
        }
    }

    /// The same but for another process's record, and the process goes to the next action. "startP and stopP act whatever
    /// state the other process is in, and clear its timer."
    fn commanded(&self, process: u16, record: Record, next: Option<u16>) -> Controller {
        let mut after = self.with_own(Record { action: next, ..self.own() });
        after.records[process as usize - 1] = record;
        after
    }

    /// "startP (f'_k = f_k^1, a'_k = 1, t'_k = ⊥, a'_i = next(a))"
    fn start_process(&self, action: &Action, next: Option<u16>) -> Controller {
        self.commanded(action.x, beginning(1), next)
    }

    /// "stopP (f'_k = stop, a'_k = ⊥, t'_k = ⊥, a'_i = next(a))"
    fn stop_process(&self, action: &Action, next: Option<u16>) -> Controller {
        self.commanded(action.x, inactive(STOP), next)
    }

    /// "start (f'_i = f_i^1, a'_i = 1, t'_i = ⊥)"; "set, start and next leave the turn with the same process"
    fn start_again(&self) -> Controller {
        self.with_own(beginning(1))
    }

    /// "set (f'_i = f_i^k, a'_i = 1, t'_i = ⊥)"
    fn set(&self, action: &Action) -> Controller {
        self.with_own(beginning(action.x))
    }

    /// "next (f'_i = f_i^{j+1}, a'_i = 1, t'_i = ⊥)"
    fn next_state(&self) -> Controller {
        self.with_own(beginning(self.own().state + 1))
    }

    /// "stop (f'_i = stop, a'_i = ⊥, t'_i = ⊥)"; "stop and err leave the counter; the skip that follows is an action of its
    /// own"
    fn stop(&self) -> Controller {
        self.with_own(inactive(STOP))
    }

    /// "err (f'_i = err, a'_i = ⊥, t'_i = ⊥)"
    fn err(&self) -> Controller {
        self.with_own(inactive(ERR))
    }
}
