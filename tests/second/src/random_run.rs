//! Random runs: tables that do something, inputs that let many of them close, and damage to both.
//!
//! The same seed gives the same cases. A case that is to close has its return scan looked up in the second program's own
//! run; what the run is then compared with does not depend on how the case was found.

use crate::code::{bytes_of_numbers, Code};
use crate::controller::{Controller, ERR as ERR_STATE};
use crate::random::{self, Random};
use crate::run::{Path, ROOM};
use crate::table::{check_table, Counts, Table, MOST_PROCESSES};

/// All that a run is given: the bytes of a table and of inputs, and the length of the lent trace buffer.
#[derive(Clone, Debug, PartialEq, Eq)]
pub struct RunCase {
    pub table: Vec<u8>,
    pub inputs: Vec<u8>,
    pub room: usize,
}

/// A run of any kind: mostly well-formed, now and then with a damaged table, damaged inputs, both, or too little room.
pub fn run_case(random: &mut Random) -> RunCase {
    let made = made_run(random);
    let damage = random.below(32);
    let table = if damage <= 3 { damaged_table(random, &made.table) } else { bytes_of_numbers(&made.table) };
    let inputs = if damage >= 2 && damage <= 5 {
        random::damaged_bytes(random, &random::pieces_of_numbers(&made.inputs))
    } else {
        bytes_of_numbers(&made.inputs)
    };
    RunCase { table, inputs, room: room(random) }
}

/// Mostly enough, exactly or more; else a byte short, or nothing.
fn room(random: &mut Random) -> usize {
    match random.below(64) {
        0 => 0,
        1 | 2 => ROOM - 1,
        3..=20 => ROOM + 1,
        21..=36 => ROOM + 20,
        _ => ROOM,
    }
}

/// The bytes of a table with one field struck, or with damaged numbers or bytes.
fn damaged_table(random: &mut Random, numbers: &[u16]) -> Vec<u8> {
    if random.once_in(2) {
        let mut struck = numbers.to_vec();
        random::damage_table_field(random, &mut struck);
        return bytes_of_numbers(&struck);
    }
    random::damaged_bytes(random, &random::pieces_of_numbers(numbers))
}

/// A well-formed table and well-formed inputs for it, as numbers.
#[derive(Clone, Debug, PartialEq, Eq)]
pub struct MadeRun {
    pub table: Vec<u16>,
    pub inputs: Vec<u16>,
}

/// A well-formed run of any kind.
pub fn made_run(random: &mut Random) -> MadeRun {
    match random.below(64) {
        0..=2 => longest_run(random),
        3 => stopped_at_the_limit(random),
        4..=7 => {
            let table = random::table(random, MOST_PROCESSES);
            run_over(random, table)
        }
        _ => {
            let table = table_that_acts(random);
            run_over(random, table)
        }
    }
}

// ---------------------------------------------------------------------------------------------------------------------
// Tables
// ---------------------------------------------------------------------------------------------------------------------

type Line = [u16; 6];

/// A table while it is made.
struct Draft {
    counts: Counts,
    sources: Vec<u16>,
    tests: Vec<[u16; 3]>,
    /// For each process the count of its active states.
    state_counts: Vec<u16>,
    processes: Vec<Vec<Vec<Line>>>,
    /// Every body is filled up to so many actions.
    least_actions: usize,
    most_actions: usize,
    /// Once in so many a next goes anywhere and not onwards.
    wild: usize,
    /// No variable is ever set, so that the run may come back to its start.
    unset: bool,
}

/// A table of any size, with bodies that wait, count, choose, command, or are of any ops.
fn table_that_acts(random: &mut Random) -> Vec<u16> {
    let mut draft = match random.below(24) {
        0 => full_draft(random),
        1..=4 => draft(random, 8, 8, 16),
        5..=10 => draft(random, 4, 4, 6),
        _ => draft(random, 2, 3, 4),
    };
    for process in 1..=draft.process_count() {
        let mut bodies = Vec::new();
        for state in 1..=draft.state_counts[process as usize - 1] {
            bodies.push(body(random, &mut draft, process, state));
        }
        draft.processes.push(bodies);
    }
    draft.numbers()
}

/// A draft of at most that many processes, active states and actions.
fn draft(random: &mut Random, processes: u16, states: u16, actions: usize) -> Draft {
    let internals = random.number_between(1, 4);
    let counts = Counts {
        inputs: random.pick(&[0, 0, 1, 1, 1, 2, 3]),
        internals,
        outputs: random.pick(&[0, 0, 1, 2]),
    };
    let process_count = random.number_between(1, processes);
    let state_counts = (0..process_count).map(|_| random.number_between(1, states)).collect();
    let tests = random.below(6);
    new_draft(random, counts, tests, state_counts, 1, actions)
}

/// Everything at its limit: 32 variables, 32 tests, 8 processes of 8 active states of 16 actions.
fn full_draft(random: &mut Random) -> Draft {
    let inputs = random.pick(&[0, 1, 4, 16, 31]);
    let internals = random.number_between(1, 32 - inputs);
    let counts = Counts { inputs, internals, outputs: 32 - inputs - internals };
    new_draft(random, counts, 32, vec![8; 8], 16, 16)
}

fn new_draft(
    random: &mut Random,
    counts: Counts,
    tests: usize,
    state_counts: Vec<u16>,
    least_actions: usize,
    most_actions: usize,
) -> Draft {
    let wild = random.pick(&[6, 20, 100, 1000]);
    let mut draft = Draft {
        counts,
        sources: Vec::new(),
        tests: Vec::new(),
        state_counts,
        processes: Vec::new(),
        least_actions,
        most_actions,
        wild,
        unset: counts.inputs == 0 && random.once_in(4),
    };
    for _ in 0..counts.outputs {
        let source = draft.internal(random);
        draft.sources.push(source);
    }
    for _ in 0..tests {
        let test = draft.some_test(random);
        draft.tests.push(test);
    }
    draft
}

impl Draft {
    fn process_count(&self) -> u16 {
        self.state_counts.len() as u16
    }

    fn numbers(&self) -> Vec<u16> {
        let mut numbers = vec![self.counts.inputs, self.counts.internals, self.counts.outputs];
        numbers.extend(&self.sources);
        numbers.push(self.tests.len() as u16);
        numbers.extend(self.tests.iter().flatten());
        numbers.push(self.process_count());
        for bodies in &self.processes {
            numbers.push(bodies.len() as u16);
            for body in bodies {
                numbers.push(body.len() as u16);
                numbers.extend(body.iter().flatten());
            }
        }
        numbers
    }

    fn internal(&self, random: &mut Random) -> u16 {
        self.counts.inputs + random.number_between(0, self.counts.internals - 1)
    }

    fn variable(&self, random: &mut Random) -> u16 {
        random.number_between(0, self.counts.total() - 1)
    }

    /// A test of any kind that is now true and now false, with luck.
    fn some_test(&self, random: &mut Random) -> [u16; 3] {
        let kind = if self.unset { 2 } else { random.pick(&[0, 0, 0, 1, 1, 1, 2, 2]) };
        match kind {
            0 => [0, self.variable(random), small_number(random)],
            1 => [1, self.variable(random), small_number(random)],
            _ => {
                let process = random.between(1, self.state_counts.len());
                let state = random.number_between(0, self.state_counts[process - 1].min(3));
                [2, process as u16, if random.once_in(6) { ERR_STATE } else { state }]
            }
        }
    }

    /// The guard that is this test; where 32 tests are taken, any guard.
    fn guard_of(&mut self, random: &mut Random, test: [u16; 3]) -> u16 {
        if let Some(index) = self.tests.iter().position(|taken| *taken == test) {
            return index as u16 + 1;
        }
        if self.tests.len() == 32 {
            return random.number_between(0, 32);
        }
        self.tests.push(test);
        self.tests.len() as u16
    }

    /// No guard, one that is there already, or one of a process's state.
    fn some_guard(&mut self, random: &mut Random) -> u16 {
        if random.once_in(6) {
            let process = random.between(1, self.state_counts.len());
            let state = random.number_between(0, self.state_counts[process - 1].min(2));
            let state = if random.once_in(5) { ERR_STATE } else { state };
            return self.guard_of(random, [2, process as u16, state]);
        }
        random.number_between(0, self.tests.len() as u16)
    }

    /// A guard that depends on an input, where there is one.
    fn input_guard(&mut self, random: &mut Random) -> u16 {
        if self.counts.inputs == 0 {
            return self.some_guard(random);
        }
        let input = random.number_between(0, self.counts.inputs - 1);
        let kind = random.number_between(0, 1);
        let number = random.number_between(0, 2);
        self.guard_of(random, [kind, input, number])
    }

    /// An update of any of the three kinds.
    fn update(&self, random: &mut Random, guard: u16, next_if: u16, next_else: u16) -> Line {
        let x = self.internal(random);
        let (op, y) = match random.below(8) {
            0..=2 if !self.unset => (1, small_number(random)),
            3..=5 => (2, self.variable(random)),
            6 => (3, random.pick(&[1, 1, 2, 32768])),
            _ => (3, random.pick(&[65535, 0, 40000])),
        };
        line(op, x, y, guard, next_if, next_else)
    }

    /// startP or stopP of another process; an update where there is none.
    fn command(&self, random: &mut Random, process: u16, guard: u16, next_if: u16, next_else: u16) -> Line {
        let others: Vec<u16> = (1..=self.process_count()).filter(|other| *other != process).collect();
        if others.is_empty() {
            return self.update(random, guard, next_if, next_else);
        }
        let op = random.pick(&[6, 6, 7, 7]);
        line(op, random.pick(&others), 0, guard, next_if, next_else)
    }

    /// An action that leaves the state: start, set, next, stop or err.
    fn leaving(&self, random: &mut Random, process: u16, state: u16) -> Line {
        let state_count = self.state_counts[process as usize - 1];
        let op = random.pick(&[8, 9, 9, 10, 10, 11, 12]);
        match op {
            9 => line(9, random.number_between(1, state_count), 0, 0, 0, 0),
            10 if state == state_count => line(8, 0, 0, 0, 0, 0),
            _ => line(op, 0, 0, 0, 0, 0),
        }
    }

    /// Where action `at` of `count` goes: mostly to the one after it.
    fn onward(&self, random: &mut Random, at: usize, count: usize) -> u16 {
        if random.once_in(self.wild) {
            return random.between(0, count) as u16;
        }
        if at == count || random.once_in(8) {
            return 0;
        }
        if random.once_in(3) {
            return random.between(at + 1, count) as u16;
        }
        at as u16 + 1
    }
}

/// An action with "under guard 0, next-else is 0".
fn line(op: u16, x: u16, y: u16, guard: u16, next_if: u16, next_else: u16) -> Line {
    [op, x, y, guard, next_if, if guard == 0 { 0 } else { next_else }]
}

const RESET: Line = [5, 0, 0, 0, 0, 0];
const NEXT: Line = [10, 0, 0, 0, 0, 0];
const STOP: Line = [11, 0, 0, 0, 0, 0];
const ERR: Line = [12, 0, 0, 0, 0, 0];

/// Numbers that meet each other often.
fn small_number(random: &mut Random) -> u16 {
    if random.once_in(24) {
        return random.any_number();
    }
    random.pick(&[0, 0, 1, 1, 1, 2, 2, 3])
}

/// A body of any kind for that state of that process.
fn body(random: &mut Random, draft: &mut Draft, process: u16, state: u16) -> Vec<Line> {
    let first_of_all = process == 1 && state == 1;
    let mut body = match random.below(14) {
        _ if first_of_all && !draft.unset && !random.once_in(4) => first_body(random, draft),
        _ if process > 1 && random.once_in(8) => leaving_body(random, draft, process, state),
        0..=3 => waiting_body(random, draft, process, state),
        4 if !draft.unset => late_body(random, draft),
        5 if !draft.unset => counting_body(random, draft),
        6 | 7 => choosing_body(random, draft, process, state),
        8..=10 => commanding_body(random, draft, process),
        11 => mixed_body(random, draft, process, state),
        _ => updating_body(random, draft),
    };
    // The filling is reached by a next that goes astray, or never.
    let least = draft.least_actions;
    while body.len() < least {
        let at = body.len() + 1;
        let filling = updates_from(random, draft, at, least);
        body.extend(filling);
    }
    body
}

/// Some constants, a start of most other processes, and on to state 2.
fn first_body(random: &mut Random, draft: &Draft) -> Vec<Line> {
    let mut body = Vec::new();
    for internal in 0..draft.counts.internals.min(7) {
        if !random.once_in(4) {
            body.push(line(1, draft.counts.inputs + internal, small_number(random), 0, 0, 0));
        }
    }
    for other in 2..=draft.process_count() {
        if !random.once_in(4) {
            body.push(line(6, other, 0, 0, 0, 0));
        }
    }
    if draft.state_counts[0] > 1 {
        body.push(NEXT);
    }
    if body.is_empty() {
        body.push(draft.update(random, 0, 0, 0));
    }
    let count = body.len();
    for at in 1..count {
        body[at - 1][4] = at as u16 + 1;
    }
    body
}

/// Updates from action `at` to action `count`, each going onwards.
fn updates_from(random: &mut Random, draft: &mut Draft, at: usize, count: usize) -> Vec<Line> {
    let mut lines = Vec::new();
    for at in at..=count {
        let guard = draft.some_guard(random);
        let next_if = draft.onward(random, at, count);
        let next_else = draft.onward(random, at, count);
        lines.push(draft.update(random, guard, next_if, next_else));
    }
    lines
}

fn updating_body(random: &mut Random, draft: &mut Draft) -> Vec<Line> {
    let count = random.between(1, draft.most_actions.min(5));
    updates_from(random, draft, 1, count)
}

/// A choice between a tout and either a reset, a tout with another bound, the end, or leaving the state while the timer
/// runs; after the timeout an action.
fn waiting_body(random: &mut Random, draft: &mut Draft, process: u16, state: u16) -> Vec<Line> {
    let bound = random.pick(&[1, 1, 2, 2, 3, 4, 7, 4095]);
    let chooser = if !draft.unset && random.once_in(3) {
        // The variable is set when this is done first, so that a reset finds a timer.
        let variable = draft.internal(random);
        let guard = draft.guard_of(random, [0, variable, 1]);
        line(1, variable, 1, guard, 2, 3)
    } else {
        let guard = draft.input_guard(random);
        draft.update(random, guard, if guard == 0 { 3 } else { 2 }, 3)
    };
    let other = match random.below(6) {
        0 | 1 => RESET,
        2 => line(4, random.pick(&[1, 2, 3, 5]), 0, 0, 4, 0),
        3 => draft.update(random, 0, 0, 0),
        _ => draft.leaving(random, process, state),
    };
    let tout_guard = draft.some_guard(random);
    let after = if random.once_in(2) { draft.leaving(random, process, state) } else { draft.update(random, 0, 0, 0) };
    vec![chooser, other, line(4, bound, 0, tout_guard, 4, random.pick(&[0, 4])), after]
}

/// A count up to a number: within one turn, also to just 64 actions or one more; or over many scans.
fn counting_body(random: &mut Random, draft: &mut Draft) -> Vec<Line> {
    let variable = draft.internal(random);
    if random.once_in(2) {
        let up_to = match random.below(6) {
            0 => random.number_between(1, 40),
            1..=3 => random.number_between(50, 63),
            _ => 61,
        };
        let guard = draft.guard_of(random, [0, variable, up_to]);
        vec![line(1, variable, 0, 0, 2, 0), line(3, variable, 1, guard, 0, 2)]
    } else {
        let up_to = random.number_between(1, 5);
        let guard = draft.guard_of(random, [1, variable, up_to]);
        vec![line(3, variable, 1, guard, 2, 0), line(1, variable, 0, 0, 0, 0)]
    }
}

/// A count over many scans, and then an action that may have no rule, or a turn that never ends.
fn late_body(random: &mut Random, draft: &mut Draft) -> Vec<Line> {
    let variable = draft.internal(random);
    let most = random.pick(&[4, 12, 50]);
    let up_to = random.number_between(1, most);
    let guard = draft.guard_of(random, [1, variable, up_to]);
    let trap = match random.below(4) {
        0 => RESET,
        1 => line(8, 0, 0, 0, 0, 0),
        _ => line(3, variable, 1, 0, 2, 0),
    };
    vec![line(3, variable, 1, guard, 2, 0), trap]
}

/// By its guard it leaves the state or does not.
fn choosing_body(random: &mut Random, draft: &mut Draft, process: u16, state: u16) -> Vec<Line> {
    let guard = if random.once_in(3) {
        draft.some_guard(random)
    } else {
        draft.input_guard(random)
    };
    let (next_if, next_else) = random.pick(&[(2, 0), (3, 2), (2, 3), (3, 4), (4, 3)]);
    let first = draft.leaving(random, process, state);
    let other = draft.leaving(random, process, state);
    vec![
        draft.update(random, guard, next_if, next_else),
        first,
        draft.update(random, 0, 0, 0),
        if random.once_in(2) { other } else { draft.update(random, 0, 0, 0) },
    ]
}

/// It leaves the state at once, or after an update.
fn leaving_body(random: &mut Random, draft: &Draft, process: u16, state: u16) -> Vec<Line> {
    let leave = match random.below(3) {
        0 => ERR,
        1 => STOP,
        _ => draft.leaving(random, process, state),
    };
    if random.once_in(2) {
        vec![leave]
    } else {
        vec![draft.update(random, 0, 2, 0), leave]
    }
}

/// Some startP and stopP, under guards.
fn commanding_body(random: &mut Random, draft: &mut Draft, process: u16) -> Vec<Line> {
    let count = random.between(1, draft.most_actions.min(4));
    let mut body = Vec::new();
    for at in 1..=count {
        let guard = draft.input_guard(random);
        let next_if = draft.onward(random, at, count);
        let next_else = draft.onward(random, at, count);
        body.push(draft.command(random, process, guard, next_if, next_else));
    }
    body
}

/// Actions of any op; those that often have no rule or never end come seldom.
fn mixed_body(random: &mut Random, draft: &mut Draft, process: u16, state: u16) -> Vec<Line> {
    let count = random.between(1, draft.most_actions);
    let mut body = Vec::new();
    for at in 1..=count {
        let guard = draft.some_guard(random);
        let next_if = draft.onward(random, at, count);
        let next_else = draft.onward(random, at, count);
        body.push(match random.below(16) {
            0 if at > 1 => RESET,
            1 | 2 => line(4, random.pick(&[1, 2, 3]), 0, guard, next_if, next_else),
            3..=5 => draft.command(random, process, guard, next_if, next_else),
            6 if at > 1 => draft.leaving(random, process, state),
            _ => draft.update(random, guard, next_if, next_else),
        });
    }
    body
}

// ---------------------------------------------------------------------------------------------------------------------
// Inputs
// ---------------------------------------------------------------------------------------------------------------------

/// Inputs for a well-formed table: such that the run closes, that it nearly does, or any.
fn run_over(random: &mut Random, numbers: Vec<u16>) -> MadeRun {
    let table = check_table(Code::Numbers(&numbers), MOST_PROCESSES).expect("well-formed");
    let scans = match random.below(32) {
        0 => 1365,
        1 => random.between(60, 1365),
        2..=8 => random.between(13, 60),
        _ => random.between(1, 12),
    };
    let values = scan_values(random, table.counts.inputs as usize, scans);
    let (return_scan, scans) = match random.below(8) {
        0..=4 => closing_scans(random, &table, &values).unwrap_or_else(|| any_scans(random, scans)),
        5 if scans <= 60 => nearly_closing_scans(&table, &values).unwrap_or_else(|| any_scans(random, scans)),
        _ => any_scans(random, scans),
    };
    MadeRun { table: numbers, inputs: input_numbers(scans, return_scan, &values) }
}

fn input_numbers(scans: usize, return_scan: usize, values: &[Vec<u16>]) -> Vec<u16> {
    let mut numbers = vec![scans as u16, return_scan as u16];
    numbers.extend(values[..scans].iter().flatten());
    numbers
}

/// The last scan and a return scan below it, often just below.
fn any_scans(random: &mut Random, scans: usize) -> (usize, usize) {
    let back = random.pick(&[1, 1, 2, 3]);
    if random.once_in(2) && back <= scans {
        (scans - back, scans)
    } else {
        (random.below(scans), scans)
    }
}

/// So many numbers for each scan: constant, of a short period, with one change, of few values, or any.
fn scan_values(random: &mut Random, input_count: usize, scans: usize) -> Vec<Vec<u16>> {
    let kind = random.below(10);
    let period = random.pick(&[1, 2, 2, 3, 4, 5]);
    let change = random.below(scans + 1);
    let few: Vec<Vec<u16>> = (0..period.max(2)).map(|_| few_values(random, input_count)).collect();
    let mut values = Vec::new();
    for scan in 0..scans {
        values.push(match kind {
            0 | 1 => few[0].clone(),
            2..=4 => few[scan % period].clone(),
            5 | 6 => few[(scan >= change) as usize].clone(),
            7 => (0..input_count).map(|_| random.any_number()).collect(),
            _ => few_values(random, input_count),
        });
    }
    values
}

fn few_values(random: &mut Random, input_count: usize) -> Vec<u16> {
    (0..input_count).map(|_| random.pick(&[0, 0, 1, 1, 2, 3])).collect()
}

/// The states that ended the scans, up to the first refusal; the start first.
fn ends_of_scans(table: &Table, values: &[Vec<u16>]) -> Vec<Controller> {
    let mut path = Path::new(table);
    // A refusal only ends the path.
    let _ = path.scans(table, values);
    path.ends.iter().map(|end| path.states[*end].clone()).collect()
}

/// A return scan and a scan that end in the same state, if some are found soon: often the last scan of all, and any of the
/// scans that it could return to.
fn closing_scans(random: &mut Random, table: &Table, values: &[Vec<u16>]) -> Option<(usize, usize)> {
    let ends = ends_of_scans(table, values);
    if ends.len() < 2 {
        return None;
    }
    for attempt in 0..12 {
        let last = if attempt < 6 { ends.len() - 1 - attempt.min(ends.len() - 2) } else { random.between(1, ends.len() - 1) };
        let returns: Vec<usize> = (0..last).filter(|scan| ends[*scan] == ends[last]).collect();
        if !returns.is_empty() {
            return Some((random.pick(&returns), last));
        }
    }
    None
}

/// Two scans that end in states that differ, and in as few parts as any two of them do.
fn nearly_closing_scans(table: &Table, values: &[Vec<u16>]) -> Option<(usize, usize)> {
    let ends = ends_of_scans(table, values);
    let mut found = None;
    let mut fewest = usize::MAX;
    for last in 1..ends.len() {
        for scan in 0..last {
            let parts = differing_parts(&ends[scan], &ends[last]);
            if 0 < parts && parts < fewest {
                fewest = parts;
                found = Some((scan, last));
            }
        }
    }
    found
}

/// In how many variables and parts of records two states differ.
pub fn differing_parts(one: &Controller, other: &Controller) -> usize {
    let variables = one.variables.iter().zip(&other.variables).filter(|(one, other)| one != other).count();
    let mut parts = variables;
    for (one, other) in one.records.iter().zip(&other.records) {
        parts += (one.state != other.state) as usize;
        parts += (one.action != other.action) as usize;
        parts += (one.timer != other.timer) as usize;
    }
    parts
}

// ---------------------------------------------------------------------------------------------------------------------
// The longest runs
// ---------------------------------------------------------------------------------------------------------------------

/// A run whose last state is number 4,096, or a few below or above. Every scan has the same count of states but scan 1, which
/// has up to 16 more: some updates, and a next to a state with updates or a stop.
fn longest_run(random: &mut Random) -> MadeRun {
    let idle_processes = random.pick(&[0, 0, 1, 2, 7]);
    loop {
        // A process that acts has its updates and an end, one that has stopped a skip.
        let updates = random.pick(&[0, 0, 1, 1, 2, 3, 5, 8, 12, 16]);
        let states_of_scan = 3 + updates + idle_processes;
        let more = random.between(1, 16);
        let last = 4096 + random.pick(&[0, 0, 0, 0, 0, 0, 1, 1, 1, 2, 3]) - random.pick(&[0, 0, 0, 1, 2, 3]);
        let scans = (last - more) / states_of_scan;
        if (last - more) % states_of_scan != 0 || scans > 1365 {
            continue;
        }
        let input_count = random.between(0, 2);
        let table = longest_table(random, input_count as u16, updates, more, idle_processes);
        let values = scan_values(random, input_count, scans);
        // With the same inputs the scans end in the same state.
        let returns: Vec<usize> = (1..scans).filter(|scan| values[scan - 1] == values[scans - 1]).collect();
        let return_scan = match random.below(16) {
            0 => random.below(scans),
            _ if returns.is_empty() => scans - 1,
            _ => random.pick(&returns),
        };
        return MadeRun { table, inputs: input_numbers(scans, return_scan, &values) };
    }
}

fn longest_table(random: &mut Random, inputs: u16, updates: usize, more: usize, idle_processes: usize) -> Vec<u16> {
    let counts = Counts { inputs, internals: 1, outputs: random.number_between(0, 1) };
    let state_counts = vec![1; 1 + idle_processes];
    let mut draft = new_draft(random, counts, 3, state_counts, 1, 16);
    // Every update is of the one variable, which at the end of a scan is what the inputs make it.
    let update = |random: &mut Random, next: usize| {
        if inputs > 0 && random.once_in(2) {
            line(2, inputs, random.number_between(0, inputs - 1), 0, next as u16, 0)
        } else {
            line(1, inputs, random.number_between(0, 2), 0, next as u16, 0)
        }
    };
    let mut first: Vec<Line> = (1..more).map(|at| update(random, at + 1)).collect();
    first.push(if updates == 0 { STOP } else { NEXT });
    let mut bodies = vec![first];
    if updates > 0 {
        bodies.push((1..=updates).map(|at| update(random, if at == updates { 0 } else { at + 1 })).collect());
    }
    draft.state_counts[0] = bodies.len() as u16;
    draft.processes.push(bodies);
    for _ in 0..idle_processes {
        draft.processes.push(vec![vec![update(random, 0)]]);
    }
    draft.numbers()
}

/// The most bytes of numbers that `widest_inputs` can be asked for: three for each but those of two scans.
pub const WIDEST_MOST: usize = 3 * 32 * 1365 - 2 * 2 * 32;

/// A table with every variable an input, and up to 32 tests. Its one process stops at once, so that every scan has 3 states
/// and scan 1 one more: 1,365 scans have 4,096.
pub fn widest_table(random: &mut Random) -> Vec<u16> {
    let mut numbers = vec![32, 0, 0];
    let tests = random.between(0, 32);
    numbers.push(tests as u16);
    for _ in 0..tests {
        let kind = random.number_between(0, 1);
        numbers.extend([kind, random.number_between(0, 31), random.number_between(0, 3)]);
    }
    numbers.extend([1, 1, 1]);
    numbers.extend(STOP);
    numbers
}

/// Inputs for it that close: 1,365 scans of 32 numbers, which take so many bytes in all, at least one each. The scan
/// returned to has two bytes too.
pub fn widest_inputs(random: &mut Random, bytes: usize) -> Vec<u16> {
    let count = 32 * 1365;
    assert!(count <= bytes && bytes <= WIDEST_MOST);
    let return_scan = random.between(128, 1364);
    // The last scan and the one returned to have the same numbers, of one byte each.
    let kept = |index: usize| index / 32 == return_scan - 1 || index / 32 == 1364;
    let mut lengths = vec![1; count];
    let mut more = bytes - count;
    while more > 0 {
        let index = random.below(count);
        if !kept(index) && lengths[index] < 3 {
            lengths[index] += 1;
            more -= 1;
        }
    }
    let mut values: Vec<u16> = Vec::new();
    for length in lengths {
        values.push(match length {
            1 => random.number_between(0, 3),
            2 => random.number_between(128, 16383),
            _ => random.number_between(16384, 65535),
        });
    }
    for input in 0..32 {
        values[32 * (return_scan - 1) + input] = values[32 * 1364 + input];
    }
    let mut numbers = vec![1365, return_scan as u16];
    numbers.extend(values);
    numbers
}

/// A run that is stopped in its last scan by an action with no rule, or by a 65th, where that action would also make state
/// 4,097, or one near it. The input is 1 in that scan alone.
fn stopped_at_the_limit(random: &mut Random) -> MadeRun {
    loop {
        let idle_processes = random.pick(&[0, 1, 3]);
        let updates = random.between(1, 4);
        let states_of_scan = 3 + updates + idle_processes;
        let more = random.between(1, 16);
        let endless = random.once_in(2);
        // Read, update and reset; or read, 64 actions and the 65th.
        let states_of_last = if endless { 66 } else { 3 };
        let would_arise = random.pick(&[4095, 4096, 4097, 4097, 4097, 4098, 4099]);
        let before = would_arise - more - states_of_last;
        let scans = before / states_of_scan + 1;
        if before % states_of_scan != 0 || scans > 1365 {
            continue;
        }
        let mut first: Vec<Line> = (1..more).map(|at| line(1, 1, 0, 0, at as u16 + 1, 0)).collect();
        first.push(NEXT);
        let mut second: Vec<Line> = (1..=updates).map(|at| line(1, 1, 0, 0, at as u16 + 1, 0)).collect();
        second[updates - 1][4] = 0;
        let trap = updates as u16 + 1;
        second[0] = line(1, 1, 0, 1, trap, second[0][4]);
        second.push(if endless { line(1, 1, 0, 0, trap, 0) } else { RESET });
        let mut processes = vec![vec![first, second]];
        processes.extend(vec![vec![vec![STOP]]; idle_processes]);
        let draft = Draft {
            counts: Counts { inputs: 1, internals: 1, outputs: 0 },
            sources: Vec::new(),
            tests: vec![[0, 0, 1]],
            state_counts: vec![1; 1 + idle_processes],
            processes,
            least_actions: 1,
            most_actions: 16,
            wild: 1,
            unset: false,
        };
        let mut values = vec![vec![0]; scans];
        values[scans - 1] = vec![1];
        let return_scan = random.below(scans);
        return MadeRun { table: draft.numbers(), inputs: input_numbers(scans, return_scan, &values) };
    }
}
