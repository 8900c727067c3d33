//! The run of a table over recorded inputs, closed to a lasso trace.

#![forbid(unsafe_code)]

use super::number::Cursor;
use super::{refuse, table, Answer, Refusal};

const ROOM: usize = 20480;
const HIGHEST_STATE: usize = 4096;
const MOST_ACTIONS: usize = 64;

/// No variable has this value, and no test is true of it.
const UNSET: u32 = 1 << 31;
const NO_TIMER: u16 = u16::MAX;
const STOP: u8 = 0;
const ERR: u8 = 255;

#[derive(Clone, Copy, Debug)]
enum Op {
    Constant { x: u8, value: u16 },
    Copy { x: u8, from: u8 },
    Add { x: u8, value: u16 },
    Tout { bound: u16 },
    Reset,
    StartOther { process: u8 },
    StopOther { process: u8 },
    Start,
    Set { state: u8 },
    Next,
    Stop,
    Err,
}

#[derive(Clone, Copy, Debug)]
struct Action {
    op: Op,
    guard: u8,
    next_if: u8,
    next_else: u8,
}

/// A test is true of values from `low` to `low` + `span`. Processes' states stand behind the 32 variables.
#[derive(Clone, Copy, Debug)]
struct Test {
    slot: u8,
    low: u32,
    span: u32,
}

/// No value is this, set or unset.
const NEVER: Test = Test { slot: 0, low: 1 << 30, span: 0 };

/// Only 40 are used, but with a power of two no place needs a check.
const SLOTS: usize = 64;

/// A table in arrays. They are kept between calls, so that nothing is allocated.
pub struct Runner {
    numbers: Vec<u16>,
    inputs: Vec<u16>,
    sources: Vec<u8>,
    tests: [Test; 32],
    /// The tests of each variable and of each process, as bits.
    tests_of: [u32; 32],
    tests_of_process: [u32; 8],
    actions: Vec<Action>,
    /// Where the body of a state begins.
    bodies: [[u16; 9]; 8],
    processes: usize,
    input_count: usize,
    first_output: usize,
}

#[derive(Clone, Copy, Debug, PartialEq, Eq)]
struct Record {
    state: u8,
    /// 0 at the end of the body and in an inactive state.
    action: u8,
    timer: u16,
}

const STOPPED: Record = Record { state: STOP, action: 0, timer: NO_TIMER };

fn beginning(state: u8) -> Record {
    Record { state, action: 1, timer: NO_TIMER }
}

/// All that a scan's end is compared by; the counter is then 0.
#[derive(Clone, Copy, PartialEq, Eq)]
struct Whole {
    values: [u32; SLOTS],
    records: [Record; 8],
}

/// A run that goes on. If KEPT, the atoms are kept up to date by what an action changes; else all tests are done anew
/// at every position.
struct Going<'a, const KEPT: bool> {
    table: &'a Runner,
    whole: Whole,
    atoms: u32,
    /// The number of the last state.
    number: usize,
    trace: &'a mut [u8],
}

impl Runner {
    pub fn new() -> Runner {
        Runner {
            numbers: Vec::new(),
            inputs: Vec::new(),
            sources: Vec::new(),
            tests: [NEVER; 32],
            tests_of: [0; 32],
            tests_of_process: [0; 8],
            actions: Vec::new(),
            bodies: [[0; 9]; 8],
            processes: 0,
            input_count: 0,
            first_output: 0,
        }
    }

    /// Runs; positions and loop start.
    pub fn run<const KEPT: bool>(&mut self, table: &[u8], inputs: &[u8], trace: &mut [u8]) -> Answer {
        if trace.len() < ROOM {
            return refuse(10, ROOM);
        }
        table::numbers_of(table, &mut self.numbers)?;
        self.arrange();
        let (scans, return_scan) = self.read_inputs(inputs)?;
        let ran = Going::<KEPT>::new(self, trace).all(scans, return_scan);
        match ran {
            Ok((positions, _)) => trace[5 * positions..].fill(0),
            Err(_) => trace.fill(0),
        }
        ran
    }

    /// The numbers of an accepted table into arrays.
    fn arrange(&mut self) {
        let mut numbers = self.numbers.iter().copied();
        let mut take = || numbers.next().unwrap();
        let (inputs, internals, outputs) = (take(), take(), take());
        self.input_count = inputs as usize;
        self.first_output = (inputs + internals) as usize;
        self.sources.clear();
        self.sources.extend((0..outputs).map(|_| take() as u8));
        self.tests = [NEVER; 32];
        self.tests_of = [0; 32];
        self.tests_of_process = [0; 8];
        for k in 0..take() {
            let (kind, a, b) = (take(), take(), take() as u32);
            self.tests[k as usize] = match kind {
                0 => Test { slot: a as u8, low: b, span: 0 },
                1 => Test { slot: a as u8, low: b + 1, span: 65535 - b.min(65534) - 1 },
                _ => Test { slot: 31 + a as u8, low: b, span: 0 },
            };
            match kind {
                2 => self.tests_of_process[a as usize - 1] |= 1 << k,
                _ => self.tests_of[a as usize] |= 1 << k,
            }
        }
        self.processes = take() as usize;
        self.actions.clear();
        for process in 0..self.processes {
            for state in 1..=take() as usize {
                self.bodies[process][state] = self.actions.len() as u16;
                for _ in 0..take() {
                    let (op, x, y) = (take(), take(), take());
                    let op = match op {
                        1 => Op::Constant { x: x as u8, value: y },
                        2 => Op::Copy { x: x as u8, from: y as u8 },
                        3 => Op::Add { x: x as u8, value: y },
                        4 => Op::Tout { bound: x },
                        5 => Op::Reset,
                        6 => Op::StartOther { process: x as u8 - 1 },
                        7 => Op::StopOther { process: x as u8 - 1 },
                        8 => Op::Start,
                        9 => Op::Set { state: x as u8 },
                        10 => Op::Next,
                        11 => Op::Stop,
                        _ => Op::Err,
                    };
                    let [guard, next_if, next_else] = [take() as u8, take() as u8, take() as u8];
                    self.actions.push(Action { op, guard, next_if, next_else });
                }
            }
        }
    }

    fn read_inputs(&mut self, code: &[u8]) -> Result<(usize, usize), Refusal> {
        let mut cursor = Cursor::new(code);
        let scans = cursor.allowed(|scans| (1..=1365).contains(&scans))?;
        let return_scan = cursor.allowed(|scan| scan < scans)?;
        let count = scans as usize * self.input_count;
        self.inputs.clear();
        self.inputs.reserve(count);
        for _ in 0..count {
            self.inputs.push(cursor.number()?);
        }
        cursor.end()?;
        Ok((scans as usize, return_scan as usize))
    }

    #[inline(always)]
    fn holds(&self, test: usize, values: &[u32; SLOTS]) -> bool {
        let test = &self.tests[test];
        values[test.slot as usize % SLOTS].wrapping_sub(test.low) <= test.span
    }
}

impl<'a, const KEPT: bool> Going<'a, KEPT> {
    fn new(table: &'a Runner, trace: &'a mut [u8]) -> Going<'a, KEPT> {
        let mut values = [UNSET; SLOTS];
        values[32..40].fill(STOP as u32);
        values[32] = 1;
        let mut records = [STOPPED; 8];
        records[0] = beginning(1);
        let mut going = Going { table, whole: Whole { values, records }, atoms: 0, number: 0, trace };
        going.refresh_all();
        going.store(2);
        going
    }

    fn all(mut self, scans: usize, return_scan: usize) -> Answer {
        let mut kept = self.whole;
        let mut loop_start = 0;
        for scan in 1..=scans {
            self.scan(scan)?;
            if scan == return_scan {
                kept = self.whole;
                loop_start = self.number;
            }
        }
        if kept != self.whole {
            return refuse(8, scans);
        }
        Ok((self.number, loop_start))
    }

    #[inline]
    fn scan(&mut self, scan: usize) -> Result<(), Refusal> {
        let table = self.table;
        let inputs = &table.inputs[(scan - 1) * table.input_count..][..table.input_count];
        for (variable, value) in inputs.iter().enumerate() {
            self.take_value(variable, *value as u32);
        }
        for record in &mut self.whole.records[..table.processes] {
            if record.timer != NO_TIMER {
                record.timer += 1;
            }
        }
        self.arise(0, scan)?;
        for process in 0..table.processes {
            self.turn(process, scan)?;
        }
        for (index, source) in table.sources.iter().enumerate() {
            self.take_value(table.first_output + index, self.whole.values[*source as usize]);
        }
        self.arise(2, scan)
    }

    fn turn(&mut self, process: usize, scan: usize) -> Result<(), Refusal> {
        for _ in 0..MOST_ACTIONS {
            let passed = match self.act(process) {
                Some(passed) => passed,
                None => return refuse(5, scan),
            };
            self.arise(1, scan)?;
            if passed {
                return Ok(());
            }
        }
        refuse(6, scan)
    }

    /// One action; whether the turn is passed on. None: no rule.
    #[inline(always)]
    fn act(&mut self, process: usize) -> Option<bool> {
        let table = self.table;
        let record = self.whole.records[process];
        if record.state == STOP || record.state == ERR {
            return Some(true);
        }
        if record.action == 0 {
            self.whole.records[process].action = 1;
            return Some(true);
        }
        let body = table.bodies[process][record.state as usize] as usize;
        let action = table.actions[body + record.action as usize - 1];
        let holds = action.guard == 0 || self.atoms >> (action.guard - 1) & 1 == 1;
        let next = if holds { action.next_if } else { action.next_else };
        match action.op {
            Op::Constant { x, value } => {
                self.whole.records[process].action = next;
                self.take_value(x as usize, value as u32);
            }
            Op::Copy { x, from } => {
                self.whole.records[process].action = next;
                self.take_value(x as usize, self.whole.values[from as usize]);
            }
            Op::Add { x, value } => {
                self.whole.records[process].action = next;
                let old = self.whole.values[x as usize];
                if old != UNSET {
                    self.take_value(x as usize, (old + value as u32) & 65535);
                }
            }
            Op::Tout { bound } => {
                let own = &mut self.whole.records[process];
                if own.timer == NO_TIMER || own.timer < bound {
                    if own.timer == NO_TIMER {
                        own.timer = 0;
                    }
                    own.action = 1;
                    return Some(true);
                }
                if own.timer > bound {
                    return None;
                }
                own.timer = NO_TIMER;
                own.action = next;
            }
            Op::Reset => {
                let own = &mut self.whole.records[process];
                if own.timer == NO_TIMER {
                    return None;
                }
                own.timer = 0;
                own.action = 1;
                return Some(true);
            }
            Op::StartOther { process: other } => {
                self.whole.records[process].action = next;
                self.enter(other as usize, beginning(1));
            }
            Op::StopOther { process: other } => {
                self.whole.records[process].action = next;
                self.enter(other as usize, STOPPED);
            }
            Op::Start => self.enter(process, beginning(1)),
            Op::Set { state } => self.enter(process, beginning(state)),
            Op::Next => self.enter(process, beginning(record.state + 1)),
            Op::Stop => self.enter(process, STOPPED),
            Op::Err => self.enter(process, Record { state: ERR, ..STOPPED }),
        }
        Some(false)
    }

    #[inline(always)]
    fn take_value(&mut self, variable: usize, value: u32) {
        self.whole.values[variable] = value;
        if KEPT {
            self.refresh(self.table.tests_of[variable]);
        }
    }

    #[inline(always)]
    fn enter(&mut self, process: usize, record: Record) {
        self.whole.records[process] = record;
        self.whole.values[32 + process] = record.state as u32;
        if KEPT {
            self.refresh(self.table.tests_of_process[process]);
        }
    }

    /// Does some tests anew.
    #[inline(always)]
    fn refresh(&mut self, tests: u32) {
        self.atoms &= !tests;
        let mut left = tests;
        while left != 0 {
            let test = left.trailing_zeros();
            left &= left - 1;
            self.atoms |= (self.table.holds(test as usize, &self.whole.values) as u32) << test;
        }
    }

    /// Does all tests anew.
    #[inline(always)]
    fn refresh_all(&mut self) {
        let mut atoms = 0;
        for test in 0..32 {
            atoms |= (self.table.holds(test, &self.whole.values) as u32) << test;
        }
        self.atoms = atoms;
    }

    #[inline(always)]
    fn arise(&mut self, phase: u8, scan: usize) -> Result<(), Refusal> {
        if self.number == HIGHEST_STATE {
            return refuse(7, scan);
        }
        self.number += 1;
        if !KEPT {
            self.refresh_all();
        }
        self.store(phase);
        Ok(())
    }

    /// The last state's five bytes; a state 4,096 is the one that is dropped.
    #[inline(always)]
    fn store(&mut self, phase: u8) {
        if let Some(place) = self.trace.get_mut(5 * self.number..5 * self.number + 5) {
            let [a, b, c, d] = self.atoms.to_le_bytes();
            place.copy_from_slice(&[phase, a, b, c, d]);
        }
    }
}
