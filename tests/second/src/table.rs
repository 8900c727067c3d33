//! A table: its check, its reader and its writer.

use crate::code::{bytes_of_numbers, fill, Code, Met, Walk};
use crate::refusal::{Cause, Refusal};

/// "processes (1 to 8)"
pub const MOST_PROCESSES: u16 = 8;

/// "counts of input, internal and output variables (total 0 to 32, numbered from 0 in that order)"
#[derive(Clone, Copy, Debug, PartialEq, Eq)]
pub struct Counts {
    pub inputs: u16,
    pub internals: u16,
    pub outputs: u16,
}

impl Counts {
    pub fn total(&self) -> u16 {
        self.inputs + self.internals + self.outputs
    }

    pub fn is_variable(&self, variable: u16) -> bool {
        variable < self.total()
    }

    /// "numbered from 0 in that order": the internal ones follow the inputs.
    pub fn is_internal(&self, variable: u16) -> bool {
        self.inputs <= variable && variable < self.inputs + self.internals
    }
}

/// "each as kind, a, b"
#[derive(Clone, Copy, Debug, PartialEq, Eq)]
pub struct Test {
    pub kind: u16,
    pub a: u16,
    pub b: u16,
}

/// "each as op, x, y, guard, next-if, next-else"
#[derive(Clone, Copy, Debug, PartialEq, Eq)]
pub struct Action {
    pub op: u16,
    pub x: u16,
    pub y: u16,
    pub guard: u16,
    pub next_if: u16,
    pub next_else: u16,
}

/// An active state with its body: action 1 is `actions[0]`.
#[derive(Clone, Debug, PartialEq, Eq)]
pub struct State {
    pub actions: Vec<Action>,
}

/// A process: active state 1 is `states[0]`.
#[derive(Clone, Debug, PartialEq, Eq)]
pub struct Process {
    pub states: Vec<State>,
}

/// A table that was accepted: test 0 is `tests[0]`, process 1 is `processes[0]`.
#[derive(Clone, Debug, PartialEq, Eq)]
pub struct Table {
    pub counts: Counts,
    /// For each output the number of its source.
    pub sources: Vec<u16>,
    pub tests: Vec<Test>,
    pub processes: Vec<Process>,
    /// The numbers of its code, in order.
    pub numbers: Vec<u16>,
}

impl Table {
    pub fn number_count(&self) -> usize {
        self.numbers.len()
    }
}

/// The check of a table with at most `most_processes` processes. "Codes are read left to right and the first fault
/// counts [...]; then left-over bytes; then kind 2's a (1 to the process count) and b, left to right."
pub fn check_table(code: Code, most_processes: u16) -> Result<Table, Refusal> {
    let mut walk = Walk::new(code);
    let counts = variable_counts(&mut walk)?;
    let sources = output_sources(&mut walk, &counts)?;
    let met_tests = tests(&mut walk, &counts)?;
    let processes = processes(&mut walk, &counts, met_tests.len() as u16, most_processes)?;
    walk.end()?;
    process_tests(&met_tests, &processes)?;
    Ok(Table {
        counts,
        sources,
        tests: met_tests.iter().map(MetTest::test).collect(),
        processes,
        numbers: walk.into_numbers(),
    })
}

/// The reader: the bytes of a table into its numbers; answers with how many.
pub fn read_table(bytes: &[u8], buffer: &mut [u16]) -> Result<usize, Refusal> {
    let table = check_table(Code::Bytes(bytes), MOST_PROCESSES)?;
    fill(&table.numbers, buffer)
}

/// The writer: the numbers of a table into its bytes; answers with how many.
pub fn write_table(numbers: &[u16], buffer: &mut [u8]) -> Result<usize, Refusal> {
    let table = check_table(Code::Numbers(numbers), MOST_PROCESSES)?;
    fill(&bytes_of_numbers(&table.numbers), buffer)
}

/// "counts of input, internal and output variables (total 0 to 32 [...])"
/// "the fault stands at the first count with which the running total passes 32"
fn variable_counts(walk: &mut Walk) -> Result<Counts, Refusal> {
    let inputs = walk.allowed_number(|count| count <= 32)?;
    let internals = walk.allowed_number(|count| count <= 32 - inputs)?;
    let outputs = walk.allowed_number(|count| count <= 32 - inputs - internals)?;
    Ok(Counts { inputs, internals, outputs })
}

/// "for each output its source, an internal variable"
fn output_sources(walk: &mut Walk, counts: &Counts) -> Result<Vec<u16>, Refusal> {
    let mut sources = Vec::new();
    for _ in 0..counts.outputs {
        sources.push(walk.allowed_number(|source| counts.is_internal(source))?);
    }
    Ok(sources)
}

/// A test with the places of its numbers, for kind 2 is looked at again.
struct MetTest {
    kind: u16,
    a: Met,
    b: Met,
}

impl MetTest {
    fn test(&self) -> Test {
        Test { kind: self.kind, a: self.a.value, b: self.b.value }
    }
}

/// "count of tests (0 to 32), each as kind, a, b"
fn tests(walk: &mut Walk, counts: &Counts) -> Result<Vec<MetTest>, Refusal> {
    let test_count = walk.allowed_number(|count| count <= 32)?;
    let mut tests = Vec::new();
    for _ in 0..test_count {
        tests.push(test(walk, counts)?);
    }
    Ok(tests)
}

/// "Test kinds: 0 variable a equals the number b; 1 variable a exceeds the number b; 2 process a (from 1) is in state b"
fn test(walk: &mut Walk, counts: &Counts) -> Result<MetTest, Refusal> {
    let kind = walk.allowed_number(|kind| kind <= 2)?;
    let a = walk.number()?;
    // "Kind 2's a and b are not looked at until after left-over bytes, not even a = 0"
    if kind != 2 && !counts.is_variable(a.value) {
        return Err(Refusal::new(Cause::ValueNotAllowed, a.place));
    }
    let b = walk.number()?;
    Ok(MetTest { kind, a, b })
}

/// "then kind 2's a (1 to the process count) and b, left to right"
fn process_tests(tests: &[MetTest], processes: &[Process]) -> Result<(), Refusal> {
    for test in tests {
        if test.kind == 2 {
            process_test(test, processes)?;
        }
    }
    Ok(())
}

/// "b (0 stop, 1 upward active, 255 err)"
/// "b is 0, 255 or at most that process's own count of active states"
fn process_test(test: &MetTest, processes: &[Process]) -> Result<(), Refusal> {
    let process_number = test.a.value as usize;
    if process_number < 1 || process_number > processes.len() {
        return Err(Refusal::new(Cause::ValueNotAllowed, test.a.place));
    }
    let state_count = processes[process_number - 1].states.len();
    let state = test.b.value as usize;
    if state > state_count && state != 255 {
        return Err(Refusal::new(Cause::ValueNotAllowed, test.b.place));
    }
    Ok(())
}

/// All that the allowed values of an action depend on.
struct Surroundings {
    counts: Counts,
    test_count: u16,
    process_count: u16,
    /// The process that the action belongs to, from 1, and its count of active states.
    process: u16,
    state_count: u16,
    /// The active state that the action belongs to, from 1, and its count of actions.
    state: u16,
    action_count: u16,
}

/// "processes (1 to 8)"
fn processes(
    walk: &mut Walk,
    counts: &Counts,
    test_count: u16,
    most_processes: u16,
) -> Result<Vec<Process>, Refusal> {
    let process_count = walk.allowed_number(|count| 1 <= count && count <= most_processes)?;
    let mut processes = Vec::new();
    for process in 1..=process_count {
        let mut surroundings = Surroundings {
            counts: *counts,
            test_count,
            process_count,
            process,
            state_count: 0,
            state: 0,
            action_count: 0,
        };
        processes.push(Process { states: states(walk, &mut surroundings)? });
    }
    Ok(processes)
}

/// "for each its active states (1 to 8)"
fn states(walk: &mut Walk, surroundings: &mut Surroundings) -> Result<Vec<State>, Refusal> {
    surroundings.state_count = walk.allowed_number(|count| 1 <= count && count <= 8)?;
    let mut states = Vec::new();
    for state in 1..=surroundings.state_count {
        surroundings.state = state;
        states.push(State { actions: actions(walk, surroundings)? });
    }
    Ok(states)
}

/// "for each of those its actions (1 to 16)"
fn actions(walk: &mut Walk, surroundings: &mut Surroundings) -> Result<Vec<Action>, Refusal> {
    surroundings.action_count = walk.allowed_number(|count| 1 <= count && count <= 16)?;
    let mut actions = Vec::new();
    for _ in 0..surroundings.action_count {
        actions.push(action(walk, surroundings)?);
    }
    Ok(actions)
}

/// "each as op, x, y, guard, next-if, next-else"
fn action(walk: &mut Walk, surroundings: &Surroundings) -> Result<Action, Refusal> {
    let op = walk.allowed_number(|op| op_allowed(op, surroundings))?;
    let x = walk.allowed_number(|x| x_allowed(op, x, surroundings))?;
    let y = walk.allowed_number(|y| y_allowed(op, y, surroundings))?;
    let guard = walk.allowed_number(|guard| guard_allowed(op, guard, surroundings))?;
    let next_if = walk.allowed_number(|next| next_if_allowed(op, next, surroundings))?;
    let next_else = walk.allowed_number(|next| next_else_allowed(op, guard, next, surroundings))?;
    Ok(Action { op, x, y, guard, next_if, next_else })
}

/// "op 1 to 12"; "10 next (not in the last state)"
fn op_allowed(op: u16, surroundings: &Surroundings) -> bool {
    let last_state = surroundings.state == surroundings.state_count;
    match op {
        1..=9 => true,
        10 => !last_state,
        11 | 12 => true,
        _ => false,
    }
}

fn x_allowed(op: u16, x: u16, surroundings: &Surroundings) -> bool {
    match op {
        // "x is internal"
        1..=3 => surroundings.counts.is_internal(x),
        // "Op 4 tout (x is the bound, 1 to 4,095)"
        4 => 1 <= x && x <= 4095,
        // "6 startP and 7 stopP (x another process)"
        6 | 7 => 1 <= x && x <= surroundings.process_count && x != surroundings.process,
        // "9 set (x an active state)"
        9 => 1 <= x && x <= surroundings.state_count,
        // "Unused fields are 0"
        _ => x == 0,
    }
}

fn y_allowed(op: u16, y: u16, surroundings: &Surroundings) -> bool {
    match op {
        // "op 1, x takes the number y", "3, x takes its own value plus y"
        1 | 3 => true,
        // "2, x takes variable y"; "Op 2's y is any variable, x itself and outputs too"
        2 => surroundings.counts.is_variable(y),
        // "Unused fields are 0"
        _ => y == 0,
    }
}

/// "Ops 1 to 4, 6 and 7 use guard and nexts"
fn uses_guard_and_nexts(op: u16) -> bool {
    matches!(op, 1 | 2 | 3 | 4 | 6 | 7)
}

/// "Guard 0 is always true, guard k+1 is test k": "guard up to the test count"
fn guard_allowed(op: u16, guard: u16, surroundings: &Surroundings) -> bool {
    if uses_guard_and_nexts(op) {
        guard <= surroundings.test_count
    } else {
        guard == 0
    }
}

/// "next 0 is the end of the body": "next up to the body's action count"
fn next_if_allowed(op: u16, next: u16, surroundings: &Surroundings) -> bool {
    if uses_guard_and_nexts(op) {
        next <= surroundings.action_count
    } else {
        next == 0
    }
}

/// "under guard 0, next-else is 0"
fn next_else_allowed(op: u16, guard: u16, next: u16, surroundings: &Surroundings) -> bool {
    if uses_guard_and_nexts(op) && guard != 0 {
        next <= surroundings.action_count
    } else {
        next == 0
    }
}
