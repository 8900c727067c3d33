//! Random inputs: a seeded generator, makers of well-formed codes, sheets, traces and whole cases, and damagers of
//! them.
//!
//! The same seed gives the same inputs.

use crate::code::{bytes_of_numbers, Code};
use crate::judging::{list_needed, work_needed};
use crate::meaning::{truth_by_position, EndlessRun};
use crate::number::spelled;
use crate::requirement::{check_requirement, Which};
use crate::trace::{may_follow, EXE, INPUT, OUTPUT};
use crate::translation::{translated_numbers, ROOM};

// ---------------------------------------------------------------------------------------------------------------------
// The generator
// ---------------------------------------------------------------------------------------------------------------------

/// A splitmix generator.
#[derive(Clone, Debug)]
pub struct Random {
    state: u64,
}

impl Random {
    pub fn new(seed: u64) -> Random {
        Random { state: seed }
    }

    pub fn next(&mut self) -> u64 {
        self.state = self.state.wrapping_add(0x9E37_79B9_7F4A_7C15);
        let mut mixed = self.state;
        mixed = (mixed ^ (mixed >> 30)).wrapping_mul(0xBF58_476D_1CE4_E5B9);
        mixed = (mixed ^ (mixed >> 27)).wrapping_mul(0x94D0_49BB_1331_11EB);
        mixed ^ (mixed >> 31)
    }

    /// A number below `bound`, which is not 0.
    pub fn below(&mut self, bound: usize) -> usize {
        (self.next() % bound as u64) as usize
    }

    /// A number from `low` to `high`, both included.
    pub fn between(&mut self, low: usize, high: usize) -> usize {
        low + self.below(high - low + 1)
    }

    /// The same for the numbers of a code.
    pub fn number_between(&mut self, low: u16, high: u16) -> u16 {
        self.between(low as usize, high as usize) as u16
    }

    /// True once in `times`.
    pub fn once_in(&mut self, times: usize) -> bool {
        self.below(times) == 0
    }

    pub fn byte(&mut self) -> u8 {
        self.below(256) as u8
    }

    pub fn bytes(&mut self, count: usize) -> Vec<u8> {
        (0..count).map(|_| self.byte()).collect()
    }

    /// One of the given.
    pub fn pick<T: Copy>(&mut self, from: &[T]) -> T {
        from[self.below(from.len())]
    }

    /// Any number of the coding; small ones and the edges come often.
    pub fn any_number(&mut self) -> u16 {
        match self.below(4) {
            0 => self.number_between(0, 3),
            1 => self.number_between(0, 300),
            2 => self.pick(&EDGES),
            _ => self.number_between(0, 65535),
        }
    }
}

/// Numbers at or just past a limit of document 01, or at a change of the spelling's length.
pub const EDGES: [u16; 46] = [
    0, 1, 2, 3, 5, 6, 7, 8, 9, 10, 11, 12, 13, 15, 16, 17, 19, 20, 23, 24, 31, 32, 33, 63, 64, 65, 127, 128, 129, 254,
    255, 256, 300, 1364, 1365, 1366, 4094, 4095, 4096, 16383, 16384, 16385, 32767, 32768, 65534, 65535,
];

// ---------------------------------------------------------------------------------------------------------------------
// Requirements
// ---------------------------------------------------------------------------------------------------------------------

/// A requirement within the limits, as numbers: small, of any size, or exactly at one limit or both.
pub fn requirement(random: &mut Random, which: Which) -> Vec<u16> {
    let most_nodes = which.most_nodes();
    let most_depth = which.most_depth();
    match random.below(6) {
        0 | 1 => {
            let nodes = random.between(1, 12);
            requirement_of(random, which, nodes, nodes, false)
        }
        2 => {
            let nodes = random.between(1, most_nodes);
            requirement_of(random, which, nodes, most_depth, false)
        }
        3 => requirement_of(random, which, most_nodes, most_depth, false),
        4 => {
            let nodes = random.between(most_depth, most_nodes);
            requirement_of(random, which, nodes, most_depth, true)
        }
        _ => requirement_of(random, which, most_nodes, most_depth, true),
    }
}

/// A requirement that is well-formed but for a limit: one node or one level of depth too much (or some more nodes).
pub fn requirement_past_limit(random: &mut Random, which: Which) -> Vec<u16> {
    let most_nodes = which.most_nodes();
    let most_depth = which.most_depth();
    match random.below(3) {
        0 => requirement_of(random, which, most_nodes + 1, most_depth, false),
        1 => {
            let nodes = random.between(most_nodes + 1, most_nodes + 40);
            requirement_of(random, which, nodes, most_depth, false)
        }
        _ => {
            let nodes = random.between(most_depth + 1, most_nodes);
            requirement_of(random, which, nodes, most_depth + 1, true)
        }
    }
}

/// A requirement of exactly so many nodes, and of at most (or exactly) that depth. The two must fit each other.
pub fn requirement_of(random: &mut Random, which: Which, nodes: usize, depth: usize, exactly: bool) -> Vec<u16> {
    assert!(fits(nodes, depth, exactly), "{nodes} nodes do not fit depth {depth}");
    let mut numbers = Vec::new();
    push_node(random, which, nodes, depth, exactly, &mut numbers);
    numbers
}

/// Is there a tree of so many nodes with at most (or exactly) that depth?
fn fits(nodes: usize, depth: usize, exactly: bool) -> bool {
    let most = if depth < 16 { (1 << depth) - 1 } else { 65535 };
    1 <= nodes && nodes <= most && (!exactly || nodes >= depth)
}

fn push_node(
    random: &mut Random,
    which: Which,
    nodes: usize,
    depth: usize,
    exactly: bool,
    numbers: &mut Vec<u16>,
) {
    if nodes == 1 {
        return push_leaf(random, numbers);
    }
    let one_operand = fits(nodes - 1, depth - 1, exactly);
    let first_exactly = exactly && random.once_in(2);
    let second_exactly = exactly && !first_exactly;
    let firsts: Vec<usize> = (1..nodes - 1)
        .filter(|first| fits(*first, depth - 1, first_exactly))
        .filter(|first| fits(nodes - 1 - first, depth - 1, second_exactly))
        .collect();
    if one_operand && (firsts.is_empty() || random.once_in(2)) {
        numbers.push(one_operand_tag(random, which));
        push_node(random, which, nodes - 1, depth - 1, exactly, numbers);
    } else {
        let first = random.pick(&firsts);
        numbers.push(two_operand_tag(random, which));
        push_node(random, which, first, depth - 1, first_exactly, numbers);
        push_node(random, which, nodes - 1 - first, depth - 1, second_exactly, numbers);
    }
}

fn push_leaf(random: &mut Random, numbers: &mut Vec<u16>) {
    if random.once_in(3) {
        numbers.push(random.number_between(3, 5));
    } else {
        numbers.push(0);
        numbers.push(random.number_between(0, 31));
    }
}

fn one_operand_tag(random: &mut Random, which: Which) -> u16 {
    match which {
        Which::Untranslated => random.pick(&[1, 8, 9, 10, 12, 13, 14, 16, 17, 18, 20, 21, 22]),
        Which::Translated => random.pick(&[1, 8, 9, 10]),
    }
}

fn two_operand_tag(random: &mut Random, which: Which) -> u16 {
    match which {
        Which::Untranslated => random.pick(&[2, 11, 15, 19, 23]),
        Which::Translated => random.pick(&[2, 11]),
    }
}

// ---------------------------------------------------------------------------------------------------------------------
// Tables
// ---------------------------------------------------------------------------------------------------------------------

/// How large a table is made.
#[derive(Clone, Debug)]
pub struct TableSize {
    pub inputs: u16,
    pub internals: u16,
    pub outputs: u16,
    pub tests: u16,
    /// For each process, for each of its active states, the count of actions.
    pub processes: Vec<Vec<u16>>,
}

impl TableSize {
    fn total(&self) -> u16 {
        self.inputs + self.internals + self.outputs
    }

    fn process_count(&self) -> u16 {
        self.processes.len() as u16
    }
}

/// A table within the limits, as numbers: small, of many variables and tests, or now and then of any size.
pub fn table(random: &mut Random, most_processes: u16) -> Vec<u16> {
    let size = match random.below(8) {
        0 => any_size(random, most_processes),
        1 | 2 => wide_size(random, most_processes),
        _ => small_size(random, most_processes),
    };
    table_of(random, &size)
}

/// A table at all its limits: 32 variables, 32 tests, 8 active states of 16 actions in each process.
pub fn full_table(random: &mut Random, processes: u16) -> Vec<u16> {
    let size = full_size(random, processes);
    table_of(random, &size)
}

fn small_size(random: &mut Random, most_processes: u16) -> TableSize {
    let internals = random.number_between(0, 3);
    TableSize {
        inputs: random.number_between(0, 3),
        internals,
        outputs: if internals == 0 { 0 } else { random.number_between(0, 3) },
        tests: random.number_between(0, 4),
        processes: process_sizes(random, most_processes.min(3), 3, 3),
    }
}

fn any_size(random: &mut Random, most_processes: u16) -> TableSize {
    let total = if random.once_in(2) { 32 } else { random.number_between(0, 32) };
    let (inputs, internals, outputs) = split(random, total);
    TableSize {
        inputs,
        internals,
        outputs: if internals == 0 { 0 } else { outputs },
        tests: random.number_between(0, 32),
        processes: process_sizes(random, most_processes, 8, 16),
    }
}

/// Many variables and tests, few processes.
fn wide_size(random: &mut Random, most_processes: u16) -> TableSize {
    TableSize { processes: process_sizes(random, most_processes.min(3), 3, 3), ..any_size(random, most_processes) }
}

fn full_size(random: &mut Random, processes: u16) -> TableSize {
    let (inputs, internals, outputs) = split(random, 31);
    TableSize {
        inputs,
        internals: internals + 1,
        outputs,
        tests: 32,
        processes: vec![vec![16; 8]; processes as usize],
    }
}

/// Three counts with that total.
fn split(random: &mut Random, total: u16) -> (u16, u16, u16) {
    let one = random.number_between(0, total);
    let other = random.number_between(0, total);
    let low = one.min(other);
    let high = one.max(other);
    (low, high - low, total - high)
}

fn process_sizes(random: &mut Random, most_processes: u16, most_states: u16, most_actions: u16) -> Vec<Vec<u16>> {
    let process_count = random.number_between(1, most_processes);
    let mut processes = Vec::new();
    for _ in 0..process_count {
        let state_count = random.number_between(1, most_states);
        processes.push((0..state_count).map(|_| random.number_between(1, most_actions)).collect());
    }
    processes
}

/// A well-formed table of that size, as numbers.
pub fn table_of(random: &mut Random, size: &TableSize) -> Vec<u16> {
    let mut numbers = vec![size.inputs, size.internals, size.outputs];
    for _ in 0..size.outputs {
        numbers.push(internal_variable(random, size));
    }
    numbers.push(size.tests);
    for _ in 0..size.tests {
        push_test(random, size, &mut numbers);
    }
    numbers.push(size.process_count());
    for process in 1..=size.process_count() {
        push_process(random, size, process, &mut numbers);
    }
    numbers
}

fn internal_variable(random: &mut Random, size: &TableSize) -> u16 {
    random.number_between(size.inputs, size.inputs + size.internals - 1)
}

fn push_test(random: &mut Random, size: &TableSize, numbers: &mut Vec<u16>) {
    let kind = if size.total() == 0 { 2 } else { random.number_between(0, 2) };
    numbers.push(kind);
    if kind == 2 {
        let process = random.between(1, size.processes.len());
        let state_count = size.processes[process - 1].len() as u16;
        numbers.push(process as u16);
        numbers.push(if random.once_in(4) { 255 } else { random.number_between(0, state_count) });
    } else {
        numbers.push(random.number_between(0, size.total() - 1));
        numbers.push(random.any_number());
    }
}

fn push_process(random: &mut Random, size: &TableSize, process: u16, numbers: &mut Vec<u16>) {
    let states = &size.processes[process as usize - 1];
    numbers.push(states.len() as u16);
    for (index, action_count) in states.iter().enumerate() {
        numbers.push(*action_count);
        let last_state = index + 1 == states.len();
        for _ in 0..*action_count {
            push_action(random, size, process, last_state, *action_count, numbers);
        }
    }
}

/// The ops that a well-formed action of that process and state may have.
fn possible_ops(size: &TableSize, last_state: bool) -> Vec<u16> {
    let mut ops = vec![4, 5, 8, 9, 11, 12];
    if size.internals > 0 {
        ops.extend([1, 2, 3]);
    }
    if size.process_count() > 1 {
        ops.extend([6, 7]);
    }
    if !last_state {
        ops.push(10);
    }
    ops
}

fn push_action(
    random: &mut Random,
    size: &TableSize,
    process: u16,
    last_state: bool,
    action_count: u16,
    numbers: &mut Vec<u16>,
) {
    let op = random.pick(&possible_ops(size, last_state));
    let x = match op {
        1..=3 => internal_variable(random, size),
        4 => random.pick(&[1, 2, 3, 4095, 128, 200]),
        6 | 7 => another_process(random, size, process),
        9 => random.number_between(1, size.processes[process as usize - 1].len() as u16),
        _ => 0,
    };
    let y = match op {
        1 | 3 => random.any_number(),
        2 => random.number_between(0, size.total() - 1),
        _ => 0,
    };
    let uses_guard_and_nexts = op <= 4 || op == 6 || op == 7;
    let guard = if uses_guard_and_nexts { random.number_between(0, size.tests) } else { 0 };
    let next_if = if uses_guard_and_nexts { random.number_between(0, action_count) } else { 0 };
    let next_else = if guard > 0 { random.number_between(0, action_count) } else { 0 };
    numbers.extend([op, x, y, guard, next_if, next_else]);
}

fn another_process(random: &mut Random, size: &TableSize, process: u16) -> u16 {
    let others: Vec<u16> = (1..=size.process_count()).filter(|other| *other != process).collect();
    random.pick(&others)
}

/// What a number of a table stands for.
#[derive(Clone, Copy, Debug, PartialEq, Eq, PartialOrd, Ord)]
pub enum Field {
    InputCount,
    InternalCount,
    OutputCount,
    Source,
    TestCount,
    Kind,
    VariableOfTest,
    NumberOfTest,
    ProcessOfTest,
    StateOfTest,
    ProcessCount,
    StateCount,
    ActionCount,
    Op,
    X,
    Y,
    Guard,
    NextIf,
    NextElse,
}

/// What each number of a well-formed table stands for.
pub fn fields_of_table(numbers: &[u16]) -> Vec<Field> {
    let mut fields = vec![Field::InputCount, Field::InternalCount, Field::OutputCount];
    let met = |fields: &Vec<Field>| numbers[fields.len() - 1];
    for _ in 0..met(&fields) {
        fields.push(Field::Source);
    }
    fields.push(Field::TestCount);
    for _ in 0..met(&fields) {
        fields.push(Field::Kind);
        match met(&fields) {
            2 => fields.extend([Field::ProcessOfTest, Field::StateOfTest]),
            _ => fields.extend([Field::VariableOfTest, Field::NumberOfTest]),
        }
    }
    fields.push(Field::ProcessCount);
    for _ in 0..met(&fields) {
        fields.push(Field::StateCount);
        for _ in 0..met(&fields) {
            fields.push(Field::ActionCount);
            for _ in 0..met(&fields) {
                fields.extend([Field::Op, Field::X, Field::Y, Field::Guard, Field::NextIf, Field::NextElse]);
            }
        }
    }
    fields
}

/// Replaces one number of a well-formed table; each of its fields is met equally often, however large the table.
pub fn damage_table_field(random: &mut Random, numbers: &mut [u16]) {
    let fields = fields_of_table(numbers);
    let mut present = fields.clone();
    present.sort();
    present.dedup();
    let field = random.pick(&present);
    let indices: Vec<usize> = (0..numbers.len()).filter(|index| fields[*index] == field).collect();
    let index = random.pick(&indices);
    numbers[index] = another_number(random, numbers[index]);
}

// ---------------------------------------------------------------------------------------------------------------------
// Inputs
// ---------------------------------------------------------------------------------------------------------------------

/// An inputs record within the limits, as numbers: mostly of few scans, now and then of up to 1,365.
pub fn inputs(random: &mut Random, input_count: usize) -> Vec<u16> {
    let scans = match random.below(12) {
        0 => 1365,
        1 => random.number_between(1, 1365),
        2 | 3 => 1,
        _ => random.number_between(1, 8),
    };
    inputs_of(random, scans, input_count)
}

/// A well-formed inputs record of so many scans, as numbers.
pub fn inputs_of(random: &mut Random, scans: u16, input_count: usize) -> Vec<u16> {
    let mut numbers = vec![scans, random.number_between(0, scans - 1)];
    for _ in 0..scans as usize * input_count {
        numbers.push(random.any_number());
    }
    numbers
}

/// An input count: mostly small, now and then at the limit, seldom past it.
pub fn input_count(random: &mut Random) -> usize {
    match random.below(12) {
        0 => 32,
        1 => random.between(33, 40),
        2 => random.between(0, 32),
        _ => random.between(0, 4),
    }
}

// ---------------------------------------------------------------------------------------------------------------------
// Sheets
// ---------------------------------------------------------------------------------------------------------------------

/// An entry of a sheet that is made.
#[derive(Clone, Debug, PartialEq, Eq)]
pub struct MadeEntry {
    pub name: Vec<u8>,
    pub body: Vec<u8>,
}

/// Entries of a well-formed sheet: mostly few, now and then 32.
pub fn entries(random: &mut Random) -> Vec<MadeEntry> {
    let count = match random.below(8) {
        0 => 32,
        1 => random.between(0, 32),
        _ => random.between(0, 5),
    };
    entries_of(random, count)
}

/// So many entries; 33 make a sheet that is refused.
pub fn entries_of(random: &mut Random, count: usize) -> Vec<MadeEntry> {
    let mut entries: Vec<MadeEntry> = Vec::new();
    for _ in 0..count {
        let name = entry_name(random, &entries);
        let body = entry_body(random);
        entries.push(MadeEntry { name, body });
    }
    entries
}

/// A name of 1 to 16 bytes of any value; now and then that of an entry before, or the like of it.
fn entry_name(random: &mut Random, before: &[MadeEntry]) -> Vec<u8> {
    if !before.is_empty() && random.once_in(4) {
        return before[random.below(before.len())].name.clone();
    }
    let length = random.pick(&[1, 1, 2, 3, 8, 15, 16]);
    if random.once_in(2) {
        vec![b'a'; length]
    } else {
        random.bytes(length)
    }
}

/// A body: empty, a requirement, or any bytes; seldom so long that its length has three bytes.
fn entry_body(random: &mut Random) -> Vec<u8> {
    let length = match random.below(64) {
        0 => random.between(16384, 20000),
        1..=4 => random.between(120, 300),
        5..=20 => 0,
        21..=40 => random.between(1, 12),
        _ => return bytes_of_numbers(&requirement(random, Which::Untranslated)),
    };
    random.bytes(length)
}

/// A name to ask for: mostly one of the sheet's, also others, too short and too long ones.
pub fn name_to_ask(random: &mut Random, entries: &[MadeEntry]) -> Vec<u8> {
    if !entries.is_empty() && !random.once_in(4) {
        let mut name = entries[random.below(entries.len())].name.clone();
        match random.below(8) {
            0 => name.truncate(name.len() - 1),
            1 => name.push(b'a'),
            _ => {}
        }
        return name;
    }
    let length = random.pick(&[0, 1, 2, 16, 17, 40]);
    random.bytes(length)
}

// ---------------------------------------------------------------------------------------------------------------------
// Traces
// ---------------------------------------------------------------------------------------------------------------------

/// A lasso trace that is made.
#[derive(Clone, Debug, PartialEq, Eq)]
pub struct MadeTrace {
    pub trace: Vec<u8>,
    pub loop_start: usize,
}

/// A well-formed lasso trace of at most so many positions (at least 3), with any atoms.
pub fn lasso_trace(random: &mut Random, most_positions: usize) -> MadeTrace {
    loop {
        let count = random.between(3, most_positions);
        let phases = phases(random, count);
        let starts = loop_starts(&phases);
        if !starts.is_empty() {
            return MadeTrace { trace: trace_of_phases(random, &phases), loop_start: random.pick(&starts) };
        }
    }
}

/// Phases that may follow each other. "Position 0 may have any phase."
fn phases(random: &mut Random, count: usize) -> Vec<u8> {
    let mut phase = random.pick(&[INPUT, EXE, OUTPUT]);
    let mut phases = Vec::new();
    for _ in 0..count {
        phases.push(phase);
        phase = match phase {
            OUTPUT => INPUT,
            INPUT => EXE,
            _ => random.pick(&[EXE, OUTPUT]),
        };
    }
    phases
}

/// The positions to which the last one may go back with an Output in between.
fn loop_starts(phases: &[u8]) -> Vec<usize> {
    let last = phases[phases.len() - 1];
    (0..phases.len())
        .filter(|start| may_follow(last, phases[*start]))
        .filter(|start| phases[*start..].contains(&OUTPUT))
        .collect()
}

/// Five bytes for each position, the atoms any.
fn trace_of_phases(random: &mut Random, phases: &[u8]) -> Vec<u8> {
    let mut trace = Vec::new();
    for phase in phases {
        trace.push(*phase);
        trace.extend(random.bytes(4));
    }
    trace
}

/// Damages a trace once: a phase, its length or the loop start.
pub fn damage_trace(random: &mut Random, made: &mut MadeTrace) {
    let count = made.trace.len() / 5;
    match random.below(6) {
        0..=2 if count > 0 => made.trace[5 * random.below(count)] = random.pick(&[0, 1, 2, 3, 7, 128, 255]),
        3 => made.loop_start = random.below(count + 3),
        4 => made.trace.truncate(random.below(made.trace.len() + 1)),
        _ => damage_bytes(random, &mut made.trace),
    }
}

// ---------------------------------------------------------------------------------------------------------------------
// Judging
// ---------------------------------------------------------------------------------------------------------------------

/// Atoms that are set with thought; the requirements that are judged have mostly these alone.
const FEW_ATOMS: usize = 3;

/// A requirement whose truth varies, as numbers: mostly small and over few atoms, now and then of any size, seldom over
/// all 32 atoms.
pub fn judged_requirement(random: &mut Random, which: Which) -> Vec<u16> {
    let mut numbers = match random.below(8) {
        0 => requirement(random, which),
        1 | 2 if which == Which::Translated => translated_requirement(random),
        1..=3 => {
            let nodes = random.between(6, 20);
            requirement_of(random, which, nodes, 16, false)
        }
        _ => {
            let nodes = random.between(1, 6);
            requirement_of(random, which, nodes, nodes, false)
        }
    };
    if !random.once_in(12) {
        let atoms = random.between(1, FEW_ATOMS);
        keep_atoms_below(&mut numbers, atoms as u16);
    }
    numbers
}

/// The translation of a requirement, as numbers.
fn translated_requirement(random: &mut Random) -> Vec<u16> {
    let numbers = judged_requirement(random, Which::Untranslated);
    let requirement = check_requirement(Code::Numbers(&numbers), Which::Untranslated).expect("well-formed");
    translated_numbers(&requirement.tree)
}

/// Makes every atom of a well-formed requirement one below `bound`.
pub fn keep_atoms_below(numbers: &mut [u16], bound: u16) {
    let mut index = 0;
    while index < numbers.len() {
        if numbers[index] == 0 {
            index += 1;
            numbers[index] %= bound;
        }
        index += 1;
    }
}

/// What is asked of a lasso besides being well-formed.
#[derive(Clone, Copy, Debug, PartialEq, Eq)]
pub enum Shape {
    Any,
    /// Every position is in the loop.
    NoPrefix,
    /// At least an Input before the loop.
    InputBeforeLoop,
    /// So that the second of the input sequence is a lap after the first.
    OneInputInLoop,
    /// The position to which the last one goes back has that phase.
    LoopStartAt(u8),
    /// "Position 0 may have any phase."
    FirstPosition(u8),
}

pub const SHAPES: [Shape; 10] = [
    Shape::Any,
    Shape::NoPrefix,
    Shape::InputBeforeLoop,
    Shape::OneInputInLoop,
    Shape::LoopStartAt(INPUT),
    Shape::LoopStartAt(EXE),
    Shape::LoopStartAt(OUTPUT),
    Shape::FirstPosition(INPUT),
    Shape::FirstPosition(EXE),
    Shape::FirstPosition(OUTPUT),
];

/// Has the lasso that shape?
pub fn has_shape(phases: &[u8], loop_start: usize, shape: Shape) -> bool {
    let inputs_in_loop = phases[loop_start..].iter().filter(|phase| **phase == INPUT).count();
    match shape {
        Shape::Any => true,
        Shape::NoPrefix => loop_start == 0,
        Shape::InputBeforeLoop => phases[..loop_start].contains(&INPUT),
        Shape::OneInputInLoop => inputs_in_loop == 1,
        Shape::LoopStartAt(phase) => phases[loop_start] == phase,
        Shape::FirstPosition(phase) => phases[0] == phase,
    }
}

/// A small lasso of any of the shapes, with few atoms set.
pub fn small_lasso(random: &mut Random) -> MadeTrace {
    let shape = random.pick(&SHAPES);
    lasso_of_shape(random, shape, 14)
}

/// A lasso of that shape and of at most so many positions (at least 6), with few atoms set.
pub fn lasso_of_shape(random: &mut Random, shape: Shape, most_positions: usize) -> MadeTrace {
    let (phases, loop_start) = phases_of_shape(random, shape, 3, most_positions);
    let rows = atom_rows(random, phases.len());
    MadeTrace { trace: trace_of_rows(random, &phases, &rows), loop_start }
}

/// A lasso of exactly 4,096 positions, with few atoms set.
pub fn long_lasso(random: &mut Random) -> MadeTrace {
    let shape = random.pick(&[Shape::Any, Shape::NoPrefix, Shape::InputBeforeLoop]);
    let (phases, loop_start) = phases_of_shape(random, shape, 4096, 4096);
    let rows = atom_rows(random, phases.len());
    MadeTrace { trace: trace_of_rows(random, &phases, &rows), loop_start }
}

/// The phases and the loop start of a lasso of that shape.
fn phases_of_shape(random: &mut Random, shape: Shape, least: usize, most: usize) -> (Vec<u8>, usize) {
    loop {
        let count = random.between(least, most);
        let phases = phases(random, count);
        let mut starts = loop_starts(&phases);
        starts.retain(|start| has_shape(&phases, *start, shape));
        if !starts.is_empty() {
            let loop_start = random.pick(&starts);
            return (phases, loop_start);
        }
    }
}

/// Where each of the few atoms is set.
fn atom_rows(random: &mut Random, count: usize) -> Vec<Vec<bool>> {
    (0..FEW_ATOMS).map(|_| atom_row(random, count)).collect()
}

/// An atom at one position, at all but one, along a stretch, or here and there.
fn atom_row(random: &mut Random, count: usize) -> Vec<bool> {
    let chosen = random.below(count);
    let end = random.between(chosen, count);
    let times = random.pick(&[2, 2, 3, 8]);
    let kind = random.below(8);
    let mut row = Vec::new();
    for position in 0..count {
        row.push(match kind {
            0 | 1 => position == chosen,
            2 => position != chosen,
            3 => chosen <= position && position < end,
            4 => !random.once_in(times),
            _ => random.once_in(times),
        });
    }
    row
}

/// Five bytes for each position: row k is atom k. The atoms without a row are 0 at every position, or any.
fn trace_of_rows(random: &mut Random, phases: &[u8], rows: &[Vec<bool>]) -> Vec<u8> {
    let others_any = random.once_in(3);
    let mut trace = Vec::new();
    for (position, phase) in phases.iter().enumerate() {
        let mut atoms = if others_any { random.next() as u32 } else { 0 };
        for (atom, row) in rows.iter().enumerate() {
            atoms &= !(1 << atom);
            atoms |= (row[position] as u32) << atom;
        }
        trace.push(*phase);
        trace.extend(atoms.to_le_bytes());
    }
    trace
}

/// A requirement, as numbers, and a lasso.
#[derive(Clone, Debug, PartialEq, Eq)]
pub struct MadeQuestion {
    pub numbers: Vec<u16>,
    pub lasso: MadeTrace,
}

/// A requirement and a small lasso on which its truth mostly varies from position to position.
pub fn small_question(random: &mut Random, which: Which) -> MadeQuestion {
    let lasso = small_lasso(random);
    let mut numbers = judged_requirement(random, which);
    for _ in 0..random.below(8) {
        if truth_varies(&numbers, which, &lasso) {
            break;
        }
        numbers = judged_requirement(random, which);
    }
    MadeQuestion { numbers, lasso }
}

/// Does the requirement hold at a stored position, and fail at another?
pub fn truth_varies(numbers: &[u16], which: Which, lasso: &MadeTrace) -> bool {
    let requirement = check_requirement(Code::Numbers(numbers), which).expect("well-formed");
    let run = EndlessRun::new(&lasso.trace, lasso.loop_start).expect("well-formed");
    let truth = truth_by_position(&requirement.tree, &run);
    truth.contains(&true) && truth.contains(&false)
}

/// "An until that is granted by going round the loop for ever": a0 until a1, of any family, where a0 is everywhere and
/// a1 nowhere in the loop.
pub fn until_never_fulfilled(random: &mut Random) -> MadeQuestion {
    let shape = random.pick(&SHAPES);
    let (phases, loop_start) = phases_of_shape(random, shape, 3, 14);
    let everywhere = vec![true; phases.len()];
    let mut nowhere_in_loop = vec![false; phases.len()];
    for position in 0..loop_start {
        nowhere_in_loop[position] = random.once_in(4);
    }
    let trace = trace_of_rows(random, &phases, &[everywhere, nowhere_in_loop]);
    let until = random.pick(&[11, 15, 19, 23]);
    MadeQuestion { numbers: vec![until, 0, 0, 0, 1], lasso: MadeTrace { trace, loop_start } }
}

/// "Walking the loop once only, so that F misses what lies before the join": F, F^i or F^o of a0, where a0 is at one
/// position alone. The loop holds it, and goes on after it.
pub fn met_across_the_join(random: &mut Random) -> MadeQuestion {
    let (finally, wanted) = random.pick(&[(9, None), (17, Some(INPUT)), (21, Some(OUTPUT))]);
    loop {
        let shape = random.pick(&SHAPES);
        let (phases, loop_start) = phases_of_shape(random, shape, 3, 14);
        let mut positions: Vec<usize> = (loop_start..phases.len() - 1).collect();
        positions.retain(|position| wanted.is_none() || wanted == Some(phases[*position]));
        if positions.is_empty() {
            continue;
        }
        let met = random.pick(&positions);
        let row = (0..phases.len()).map(|position| position == met).collect();
        let trace = trace_of_rows(random, &phases, &[row]);
        return MadeQuestion { numbers: vec![finally, 0, 0], lasso: MadeTrace { trace, loop_start } };
    }
}

/// All that judging is given.
#[derive(Clone, Debug, PartialEq, Eq)]
pub struct JudgingCase {
    pub which: Which,
    pub code: Vec<u8>,
    pub trace: Vec<u8>,
    pub loop_start: usize,
    /// The lent buffers, with any bytes in them.
    pub work: Vec<u8>,
    pub list: Vec<u8>,
}

/// A well-formed requirement, a well-formed lasso, and buffers that are mostly long enough.
pub fn judging_case(random: &mut Random) -> JudgingCase {
    let which = any_which(random);
    let question = match random.below(16) {
        0 if which == Which::Untranslated => until_never_fulfilled(random),
        1 if which == Which::Untranslated => met_across_the_join(random),
        _ => small_question(random, which),
    };
    judging_case_of(random, which, question)
}

/// The same on 4,096 positions.
pub fn long_judging_case(random: &mut Random) -> JudgingCase {
    let which = any_which(random);
    let numbers = judged_requirement(random, which);
    let lasso = long_lasso(random);
    judging_case_of(random, which, MadeQuestion { numbers, lasso })
}

fn any_which(random: &mut Random) -> Which {
    random.pick(&[Which::Untranslated, Which::Untranslated, Which::Untranslated, Which::Translated])
}

/// A well-formed requirement and lasso with buffers that are mostly long enough.
pub fn judging_case_of(random: &mut Random, which: Which, question: MadeQuestion) -> JudgingCase {
    let requirement = check_requirement(Code::Numbers(&question.numbers), which).expect("well-formed");
    let MadeTrace { trace, loop_start } = question.lasso;
    let work = lent_buffer(random, work_needed(requirement.depth, trace.len() / 5));
    let list = lent_buffer(random, list_needed(&trace));
    JudgingCase { which, code: bytes_of_numbers(&question.numbers), trace, loop_start, work, list }
}

/// A judging case in which the requirement, the trace or both are damaged, or the other kind of requirement is told.
pub fn damaged_judging_case(random: &mut Random) -> JudgingCase {
    let mut case = judging_case(random);
    let damage = random.below(8);
    if damage <= 3 {
        case.code = damaged_requirement(random, &case.code, case.which);
    }
    if damage >= 2 && damage <= 6 {
        let mut made = MadeTrace { trace: case.trace, loop_start: case.loop_start };
        damage_trace(random, &mut made);
        case.trace = made.trace;
        case.loop_start = made.loop_start;
    }
    if damage == 7 {
        case.which = if case.which == Which::Translated { Which::Untranslated } else { Which::Translated };
    }
    case
}

/// The bytes of a well-formed requirement, damaged.
fn damaged_requirement(random: &mut Random, code: &[u8], which: Which) -> Vec<u8> {
    let requirement = check_requirement(Code::Bytes(code), which).expect("well-formed");
    damaged_bytes(random, &pieces_of_numbers(&requirement.numbers))
}

/// A lent buffer of which `needed` bytes are needed: one byte short, exact or longer, seldom empty.
pub fn lent_buffer(random: &mut Random, needed: usize) -> Vec<u8> {
    let length = match random.below(16) {
        0 => 0,
        1 | 2 => needed.saturating_sub(1),
        3..=8 => needed,
        9 => needed + 1,
        _ => needed + random.below(40),
    };
    random.bytes(length)
}

/// All that translating is given.
#[derive(Clone, Debug, PartialEq, Eq)]
pub struct TranslatingCase {
    pub code: Vec<u8>,
    /// The lent buffer, with any bytes in it.
    pub buffer: Vec<u8>,
}

/// A requirement, now and then damaged or past a limit, and a buffer around the 1,408 bytes asked for.
pub fn translating_case(random: &mut Random) -> TranslatingCase {
    let numbers = match random.below(8) {
        0 => requirement_past_limit(random, Which::Untranslated),
        1..=3 => requirement(random, Which::Untranslated),
        _ => judged_requirement(random, Which::Untranslated),
    };
    let code = if random.once_in(4) {
        damaged_bytes(random, &pieces_of_numbers(&numbers))
    } else {
        bytes_of_numbers(&numbers)
    };
    TranslatingCase { code, buffer: lent_buffer(random, ROOM) }
}

// ---------------------------------------------------------------------------------------------------------------------
// Damagers
// ---------------------------------------------------------------------------------------------------------------------

/// A piece of a code or sheet: a number, spelled as it must be, or bytes that stand as they are.
#[derive(Clone, Debug, PartialEq, Eq)]
pub enum Piece {
    Number(u16),
    Bytes(Vec<u8>),
}

pub fn pieces_of_numbers(numbers: &[u16]) -> Vec<Piece> {
    numbers.iter().map(|value| Piece::Number(*value)).collect()
}

pub fn pieces_of_entries(entries: &[MadeEntry]) -> Vec<Piece> {
    let mut pieces = vec![Piece::Number(entries.len() as u16)];
    for entry in entries {
        pieces.push(Piece::Number(entry.name.len() as u16));
        pieces.push(Piece::Bytes(entry.name.clone()));
        pieces.push(Piece::Number(entry.body.len() as u16));
        pieces.push(Piece::Bytes(entry.body.clone()));
    }
    pieces
}

pub fn bytes_of_pieces(pieces: &[Piece]) -> Vec<u8> {
    let mut bytes = Vec::new();
    for piece in pieces {
        match piece {
            Piece::Number(value) => bytes.extend(spelled(*value)),
            Piece::Bytes(given) => bytes.extend(given),
        }
    }
    bytes
}

/// The bytes of the pieces, damaged one to three times, in the numbers or in the bytes.
pub fn damaged_bytes(random: &mut Random, pieces: &[Piece]) -> Vec<u8> {
    let mut pieces = pieces.to_vec();
    let times = random.pick(&[1, 1, 1, 1, 2, 3]);
    let of_pieces = random.between(0, times);
    for _ in 0..of_pieces {
        damage_pieces(random, &mut pieces);
    }
    let mut bytes = bytes_of_pieces(&pieces);
    for _ in of_pieces..times {
        damage_bytes(random, &mut bytes);
    }
    bytes
}

/// The numbers, damaged one to three times.
pub fn damaged_numbers(random: &mut Random, numbers: &[u16]) -> Vec<u16> {
    let mut numbers = numbers.to_vec();
    let times = random.pick(&[1, 1, 1, 1, 2, 3]);
    for _ in 0..times {
        damage_numbers(random, &mut numbers);
    }
    numbers
}

/// Damages bytes once: flips a bit, replaces, inserts, deletes, cuts the end off or appends.
pub fn damage_bytes(random: &mut Random, bytes: &mut Vec<u8>) {
    let length = bytes.len();
    match random.below(6) {
        0 if length > 0 => bytes[random.below(length)] ^= 1 << random.below(8),
        1 if length > 0 => bytes[random.below(length)] = random.byte(),
        2 => bytes.insert(random.below(length + 1), random.byte()),
        3 if length > 0 => {
            bytes.remove(random.below(length));
        }
        4 if length > 0 => bytes.truncate(random.below(length)),
        _ => {
            let count = random.between(1, 4);
            bytes.extend(random.bytes(count));
        }
    }
}

/// Damages numbers once: replaces (mostly), inserts, deletes, exchanges, cuts the end off or appends.
pub fn damage_numbers(random: &mut Random, numbers: &mut Vec<u16>) {
    let length = numbers.len();
    match random.below(10) {
        0..=4 if length > 0 => {
            let index = random.below(length);
            numbers[index] = another_number(random, numbers[index]);
        }
        5 => numbers.insert(random.below(length + 1), random.any_number()),
        6 if length > 0 => {
            numbers.remove(random.below(length));
        }
        7 if length > 0 => numbers.swap(random.below(length), random.below(length)),
        8 if length > 0 => numbers.truncate(random.below(length)),
        _ => numbers.push(random.any_number()),
    }
}

/// Damages a number of the pieces once: another value, a longer spelling, one too large, or none at all; or doubles a
/// piece.
pub fn damage_pieces(random: &mut Random, pieces: &mut Vec<Piece>) {
    let indices: Vec<usize> = (0..pieces.len()).filter(|index| matches!(pieces[*index], Piece::Number(_))).collect();
    if indices.is_empty() {
        return;
    }
    let index = random.pick(&indices);
    let Piece::Number(value) = pieces[index] else { return };
    match random.below(8) {
        0..=3 => pieces[index] = Piece::Number(another_number(random, value)),
        4 => pieces[index] = Piece::Bytes(longer_spelling(random, value)),
        5 => pieces[index] = Piece::Bytes(too_large_spelling(random)),
        6 => {
            pieces.remove(index);
        }
        _ => pieces.insert(index, pieces[index].clone()),
    }
}

/// Another number than the given one: a neighbour, one at an edge, a small one or any.
pub fn another_number(random: &mut Random, value: u16) -> u16 {
    loop {
        let other = match random.below(5) {
            0 => value.wrapping_add(1),
            1 => value.wrapping_sub(1),
            2 => random.pick(&EDGES),
            3 => random.number_between(0, 40),
            _ => random.number_between(0, 65535),
        };
        if other != value {
            return other;
        }
    }
}

/// A spelling of the number that is not the shortest, of up to four bytes.
pub fn longer_spelling(random: &mut Random, value: u16) -> Vec<u8> {
    let mut bytes = spelled(value);
    let last = bytes.len() - 1;
    bytes[last] += 0x80;
    let length = random.between(bytes.len() + 1, 4);
    while bytes.len() + 1 < length {
        bytes.push(0x80);
    }
    bytes.push(0x00);
    bytes
}

/// A spelling whose third byte is above 03.
pub fn too_large_spelling(random: &mut Random) -> Vec<u8> {
    let first = random.byte() | 0x80;
    let second = random.byte() | 0x80;
    let third = random.pick(&[0x04, 0x05, 0x7F, 0x80, 0x83, 0xFF]);
    vec![first, second, third]
}

/// A length for a lent buffer of which `needed` are needed: mostly enough, also exactly so much, one less, or none.
pub fn buffer_length(random: &mut Random, needed: usize) -> usize {
    match random.below(8) {
        0 => needed,
        1 => needed.saturating_sub(1),
        2 => 0,
        3 => random.below(needed + 1),
        4 => needed + 1,
        _ => needed + random.below(20),
    }
}
