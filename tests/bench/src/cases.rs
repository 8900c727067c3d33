//! What is measured on. Everything is made from fixed seeds, so every run of the bench has the same inputs.

use crate::peers::judge::Judge;
use second::code::{bytes_of_numbers, Code};
use second::random::{self, Random, TableSize};
use second::random_run::{widest_inputs, widest_table};
use second::requirement::Which;
use second::run::{run, Path, Ran};
use second::table::check_table;
use second::trace::INPUT;

/// A requirement and a trace of 4,096 positions.
pub struct Judging {
    pub code: Vec<u8>,
    pub depth: usize,
    pub trace: Vec<u8>,
    pub start: usize,
}

/// A table and its inputs, which run and close.
pub struct Running {
    pub table: Vec<u8>,
    pub inputs: Vec<u8>,
    pub scans: usize,
    pub positions: usize,
    pub loop_start: usize,
    /// What the second program leaves in 20,480 bytes.
    pub trace: Vec<u8>,
}

const MOST_SCANS: usize = 1365;
const MOST_POSITIONS: usize = 4096;

/// The search begins here, as from 0 on it takes seconds. What it ends with is checked to be such as is sought.
const FIRST_SEED: u64 = 363_619;

/// A requirement of 64 nodes, 8 deep, with every operator and every mark. It fails at some Inputs and holds at others.
pub fn mixed_judging() -> Judging {
    let every: Vec<u16> = (0..24).filter(|tag| *tag != 6 && *tag != 7).collect();
    let mut case = judging(Vec::new(), 8);
    let inputs = case.trace.chunks_exact(5).filter(|position| position[0] == INPUT).count();
    let mut list = vec![0; 2 * inputs];
    let mut judge = Judge::default();
    for seed in FIRST_SEED.. {
        let numbers = random::requirement_of(&mut Random::new(seed), Which::Untranslated, 64, 8, true);
        let tags = tags_of(&numbers);
        if every.iter().all(|tag| tags.contains(tag)) {
            case.code = bytes_of_numbers(&numbers);
            let (_, findings) = judge.judge(false, &case.code, &case.trace, case.start, &mut list).unwrap();
            if (inputs / 8..inputs - inputs / 8).contains(&findings) {
                break;
            }
        }
    }
    case
}

fn tags_of(numbers: &[u16]) -> Vec<u16> {
    let mut tags = Vec::new();
    let mut numbers = numbers.iter();
    while let Some(tag) = numbers.next() {
        tags.push(*tag);
        if *tag == 0 {
            numbers.next();
        }
    }
    tags
}

/// One until over two atoms.
pub fn single_until() -> Judging {
    judging(vec![11, 0, 0, 0, 1], 2)
}

/// A lasso of 4,096 positions. Atom 1 and those from 16 on are set seldom, the others mostly.
fn judging(code: Vec<u8>, depth: usize) -> Judging {
    let mut random = Random::new(7);
    let made = loop {
        let made = random::long_lasso(&mut random);
        let lap = MOST_POSITIONS - made.loop_start;
        if lap > MOST_POSITIONS / 4 && lap < MOST_POSITIONS {
            break made;
        }
    };
    let mut trace = made.trace;
    for position in trace.chunks_exact_mut(5) {
        let mut atoms = 0u32;
        for atom in 0..32 {
            let seldom = random.once_in(8);
            let set = if atom < 16 && atom != 1 { !seldom } else { seldom };
            atoms |= (set as u32) << atom;
        }
        position[1..].copy_from_slice(&atoms.to_le_bytes());
    }
    Judging { code, depth, trace, start: made.loop_start }
}

/// A table of 6,348 numbers, the most there can be.
pub fn longest_table() -> Vec<u8> {
    let size = TableSize { inputs: 0, internals: 1, outputs: 31, tests: 32, processes: vec![vec![16; 8]; 8] };
    let numbers = random::table_of(&mut Random::new(11), &size);
    assert_eq!(numbers.len(), 6348);
    bytes_of_numbers(&numbers)
}

/// The longest input of the program: 1,365 scans of 32 inputs with 4,096 positions, and a requirement of 64 nodes, in
/// just 60,000 bytes.
pub fn longest_input(requirement: &[u8]) -> Vec<u8> {
    let mut random = Random::new(13);
    let table = bytes_of_numbers(&widest_table(&mut random));
    let block = |bytes: &[u8]| [bytes_of_numbers(&[bytes.len() as u16]), bytes.to_vec()].concat();
    let (first, last) = (block(&table), block(requirement));
    // The length of the inputs has three bytes, and each of their first two numbers has two.
    let inputs = bytes_of_numbers(&widest_inputs(&mut random, 60_000 - first.len() - last.len() - 3 - 4));
    let input = [first, block(&inputs), last].concat();
    assert_eq!(input.len(), 60_000);
    input
}

const INPUTS: u16 = 8;
const INTERNALS: u16 = 16;
const OUTPUTS: u16 = 8;
const TESTS: u16 = 32;

/// 8 inputs, 16 internal variables, 8 outputs, 32 tests: the first eight ask for the clock, which is input 0.
fn heading(random: &mut Random, processes: u16, states: u16) -> Vec<u16> {
    let mut numbers = vec![INPUTS, INTERNALS, OUTPUTS];
    numbers.extend((0..OUTPUTS).map(|output| INPUTS + 2 * output));
    numbers.push(TESTS);
    for test in 0..TESTS {
        match test {
            0..=7 => numbers.extend([0, 0, test + 1]),
            8..=11 => numbers.extend([2, 1 + test % processes, 1 + test % states]),
            12..=15 => numbers.extend([0, internal(random), random.number_between(0, 9)]),
            _ => numbers.extend([1, random.number_between(0, INPUTS + INTERNALS + OUTPUTS - 1), random.any_number()]),
        }
    }
    numbers.push(processes);
    numbers
}

/// A table of full size, whose processes all do several actions in each scan, over as many scans as 4,096 positions
/// allow. Process 1 starts the others whenever the clock is 1. In the scan in which the clock is s, a process does the
/// updates of its state s, goes to the next state and ends its turn there, for the clock is not yet s + 1.
pub fn busy_run() -> Running {
    let mut random = Random::new(5);
    let mut numbers = heading(&mut random, 8, 8);
    for process in 1..=8 {
        numbers.push(8);
        for state in 1..=8 {
            numbers.push(16);
            push_busy_body(&mut random, process, state, &mut numbers);
        }
    }
    running(&mut random, numbers, 8)
}

fn push_busy_body(random: &mut Random, process: u16, state: u16, numbers: &mut Vec<u16>) {
    let own = INPUTS + 2 * (process - 1);
    // In state 1 the process's own variables are set anew, so that the whole state comes again.
    numbers.extend(if state == 1 { [2, own, 1, state, 2, 0] } else { [3, own, 3, state, 2, 0] });
    let starts = process == 1 && state == 1;
    let last = if starts { 9 } else { 6 };
    for action in 2..=16 {
        let next = action + 1;
        if starts && action < last {
            numbers.extend([6, action, 0, 0, next, 0]);
        } else if action < last {
            let guard = random.number_between(9, TESTS);
            let skipping = (action + 2).min(last);
            let x = if action % 2 == 0 { own + 1 } else { own };
            let first = state == 1 && action == 2;
            match if first { 1 } else { random.between(1, 3) } {
                1 => numbers.extend([1, x, random.any_number(), guard, next, skipping]),
                2 => numbers.extend([2, x, random.number_between(0, INPUTS - 1), guard, next, skipping]),
                _ => numbers.extend([3, x, random.any_number(), guard, next, skipping]),
            }
        } else if action == last {
            numbers.extend(if state < 8 { [10, 0, 0, 0, 0, 0] } else { [9, 1, 0, 0, 0, 0] });
        } else {
            // Never reached, but there to be read.
            numbers.extend([3, internal(random), random.any_number(), random.number_between(1, TESTS), next.min(16), 1]);
        }
    }
}

fn internal(random: &mut Random) -> u16 {
    random.number_between(INPUTS, INPUTS + INTERNALS - 1)
}

/// Processes that do nothing: the first stops at once. With one process a scan has 3 positions and 1,365 scans fit into
/// 4,096; each further process adds the position of its skip, so with 8 declared only 409 scans fit.
pub fn idle_run(processes: u16) -> Running {
    let mut random = Random::new(6);
    let mut numbers = heading(&mut random, processes, 1);
    for _ in 0..processes {
        numbers.extend([1, 1, 11, 0, 0, 0, 0, 0]);
    }
    running(&mut random, numbers, 1)
}

/// With inputs that come again after 16 scans, and as many scans as there are positions for; closed at the earliest
/// scan whose end is the last one's too.
fn running(random: &mut Random, numbers: Vec<u16>, clock: usize) -> Running {
    let table = check_table(Code::Numbers(&numbers), 8).unwrap();
    let lap: Vec<Vec<u16>> = (0..16)
        .map(|scan| {
            let mut values = vec![(scan % clock) as u16 + 1];
            values.extend((1..INPUTS).map(|_| random.any_number()));
            values
        })
        .collect();
    let values: Vec<Vec<u16>> = lap.iter().cycle().take(MOST_SCANS).cloned().collect();
    let mut path = Path::new(&table);
    // Too many states is what ends it, if anything does.
    let ended = path.scans(&table, &values);
    assert!(ended.map_or_else(|refused| refused.refusal.number(), |()| 7) == 7, "{ended:?}");
    let scans = path.ends.len() - 1;
    let end = &path.states[path.ends[scans]];
    let return_scan = (1..scans).find(|scan| path.states[path.ends[*scan]] == *end).expect("the run closes");
    let mut inputs = vec![scans as u16, return_scan as u16];
    inputs.extend(values[..scans].iter().flatten());
    let table = bytes_of_numbers(&numbers);
    let inputs = bytes_of_numbers(&inputs);
    let mut trace = vec![255; 20480];
    match run(&table, &inputs, &mut trace) {
        Ran::Closed { positions, loop_start, .. } => Running { table, inputs, scans, positions, loop_start, trace },
        Ran::Refused(refused) => panic!("{refused:?}"),
    }
}
