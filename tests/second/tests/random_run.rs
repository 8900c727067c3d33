//! The makers of runs reach every outcome, in many scans and at the limits, and every rule.

use std::collections::{BTreeMap, BTreeSet};

use second::code::bytes_of_numbers;
use second::controller::{Controller, ERR, STOP};
use second::inputs::{check_inputs, Inputs};
use second::random::Random;
use second::random_run::{differing_parts, made_run, run_case, MadeRun, RunCase};
use second::run::{run, run_numbers, Path, Ran, RefusedRun};
use second::table::{check_table, Table, MOST_PROCESSES};
use second::trace::{check_trace, EXE};
use second::{Cause, Code};

const CASES: u64 = 20_000;

/// The answer, and what is left of a buffer of EE.
fn answer(case: &RunCase) -> (Ran, Vec<u8>) {
    let mut buffer = vec![0xEE; case.room];
    let ran = run(&case.table, &case.inputs, &mut buffer);
    (ran, buffer)
}

/// The buffer is as document 01 says, byte by byte.
fn check_buffer(ran: &Ran, buffer: &[u8]) {
    match ran {
        Ran::Closed { positions, loop_start, trace } => {
            assert_eq!(check_trace(trace, *loop_start), Ok(*positions));
            assert_eq!(buffer[..trace.len()], trace[..]);
            assert!(buffer[trace.len()..].iter().all(|byte| *byte == 0));
        }
        Ran::Refused(refused) => {
            let left = if matches!(refused.refusal.number(), 5..=8) { 0 } else { 0xEE };
            assert!(buffer.iter().all(|byte| *byte == left));
        }
    }
}

/// How often each outcome came (0 is closed), at which places, and in whose turn.
#[derive(Default)]
struct Outcomes {
    counts: BTreeMap<u16, usize>,
    places: BTreeMap<u16, BTreeSet<usize>>,
    turns: BTreeMap<u16, BTreeSet<usize>>,
    position_counts: BTreeMap<usize, usize>,
    /// Closed runs whose loop begins at the start.
    from_the_start: usize,
}

impl Outcomes {
    fn note(&mut self, ran: &Ran) {
        match ran {
            Ran::Closed { positions, loop_start, .. } => {
                *self.counts.entry(0).or_default() += 1;
                *self.position_counts.entry(*positions).or_default() += 1;
                self.from_the_start += (*loop_start == 0) as usize;
            }
            Ran::Refused(RefusedRun { refusal, process }) => {
                let number = refusal.number();
                *self.counts.entry(number).or_default() += 1;
                self.places.entry(number).or_default().insert(refusal.place);
                self.turns.entry(number).or_default().insert(*process);
            }
        }
    }
}

#[test]
fn every_outcome_often() {
    let mut outcomes = Outcomes::default();
    for seed in 0..CASES {
        let case = run_case(&mut Random::new(seed));
        let (ran, buffer) = answer(&case);
        check_buffer(&ran, &buffer);
        outcomes.note(&ran);
    }
    let counts = &outcomes.counts;
    assert_eq!(counts.keys().copied().collect::<Vec<u16>>(), [0, 1, 2, 5, 6, 7, 8, 10]);
    for (number, count) in counts {
        assert!(*count >= 100, "{number} came {count} times");
    }
    // At least a third close, of many lengths, also of the greatest, and some right at the start.
    assert!(3 * counts[&0] >= CASES as usize);
    assert!(outcomes.position_counts.len() >= 300);
    assert!(outcomes.position_counts[&4096] >= 100);
    assert!(outcomes.from_the_start >= 100, "{}", outcomes.from_the_start);
    // In many scans, and in the turn of every process.
    for number in 5..=8 {
        let scans = outcomes.places[&number].len();
        assert!(scans >= 20, "{number} came in {scans} scans");
    }
    for number in [5, 6] {
        assert_eq!(outcomes.turns[&number], (1..=8).collect());
    }
    for number in [1, 2, 7, 8, 10] {
        assert_eq!(outcomes.turns[&number], BTreeSet::from([0]));
    }
    assert_eq!(outcomes.places[&10], BTreeSet::from([20480]));
}

/// The same seed gives the same case; all rooms are met.
#[test]
fn cases_are_seeded() {
    let mut rooms = BTreeSet::new();
    for seed in 0..400 {
        let case = run_case(&mut Random::new(seed));
        assert_eq!(case, run_case(&mut Random::new(seed)));
        rooms.insert(case.room);
    }
    assert_eq!(rooms, BTreeSet::from([0, 20479, 20480, 20481, 20500]));
}

fn checked(made: &MadeRun) -> (Table, Inputs) {
    let table = check_table(Code::Numbers(&made.table), MOST_PROCESSES).expect("well-formed");
    let inputs = check_inputs(Code::Numbers(&made.inputs), table.counts.inputs as usize).expect("well-formed");
    (table, inputs)
}

/// By numbers and by bytes the answer is the same where both are well-formed. Tables of full size are among them.
#[test]
fn made_runs_are_well_formed() {
    let mut full = 0;
    for seed in 0..2000 {
        let made = made_run(&mut Random::new(seed));
        let (table, _) = checked(&made);
        let mut buffer = vec![0xEE; 20480];
        let ran = run(&bytes_of_numbers(&made.table), &bytes_of_numbers(&made.inputs), &mut buffer);
        assert_eq!(ran, run_numbers(&made.table, &made.inputs));
        full += is_full(&table) as usize;
    }
    assert!(full >= 20, "{full}");
}

fn is_full(table: &Table) -> bool {
    table.counts.total() == 32
        && table.tests.len() == 32
        && table.processes.len() == 8
        && table.processes.iter().all(|process| process.states.len() == 8)
        && table.processes.iter().flat_map(|process| &process.states).all(|state| state.actions.len() == 16)
}

/// The extreme sizes come among the cases, and runs of them close.
#[test]
fn extreme_sizes_come() {
    let mut counts: BTreeMap<&str, usize> = BTreeMap::new();
    for seed in 0..CASES {
        let case = run_case(&mut Random::new(seed));
        *counts.entry("a byte short").or_default() += (case.room == 20479) as usize;
        *counts.entry("exact room").or_default() += (case.room == 20480) as usize;
        *counts.entry("more room").or_default() += (case.room > 20480) as usize;
        let Ok(table) = check_table(Code::Bytes(&case.table), MOST_PROCESSES) else { continue };
        let Ok(inputs) = check_inputs(Code::Bytes(&case.inputs), table.counts.inputs as usize) else { continue };
        let (ran, _) = answer(&case);
        let closed_with = if let Ran::Closed { positions, .. } = ran { positions } else { 0 };
        let all_scans = inputs.scans == 1365;
        *counts.entry("full table").or_default() += is_full(&table) as usize;
        *counts.entry("full table, closed").or_default() += (is_full(&table) && closed_with > 0) as usize;
        *counts.entry("1,365 scans").or_default() += all_scans as usize;
        *counts.entry("1,365 scans, closed").or_default() += (all_scans && closed_with > 0) as usize;
        *counts.entry("4,096 positions").or_default() += (closed_with == 4096) as usize;
    }
    for (what, count) in &counts {
        assert!(*count >= 4, "{what}: {count}");
    }
    assert_eq!(counts.len(), 8);
}

/// What rule the process whose turn it is will follow, by the words of document 01 and 003.
fn rule(table: &Table, before: &Controller) -> String {
    let process = before.counter;
    let record = before.records[process - 1];
    if record.state == STOP || record.state == ERR {
        return format!("skip in {}", record.state);
    }
    let Some(number) = record.action else {
        return format!("end with timer {}", record.timer.is_some());
    };
    let action = table.processes[process - 1].states[record.state as usize - 1].actions[number as usize - 1];
    let guard = match action.guard {
        0 => "no guard".to_string(),
        guard => {
            let test = &table.tests[guard as usize - 1];
            format!("guard of kind {} {}", test.kind, before.test(test))
        }
    };
    match action.op {
        1 => format!("constant, {guard}"),
        2 => format!("copy of set {}, {guard}", before.variables[action.y as usize].is_some()),
        3 => match before.variables[action.x as usize] {
            None => "add to unset".to_string(),
            Some(value) => format!("add, over {}, {guard}", value as u32 + action.y as u32 > 65535),
        },
        4 => match record.timer {
            None => "tout starts".to_string(),
            Some(timer) if timer < action.x => "tout below".to_string(),
            Some(timer) if timer == action.x => format!("tout equal, {guard}"),
            Some(_) => "tout above".to_string(),
        },
        6 | 7 => {
            let other = before.records[action.x as usize - 1];
            let state = if other.state == STOP || other.state == ERR { other.state } else { 1 };
            let timer = other.timer.is_some();
            format!("op {} of lower {} in {state} with timer {timer}", action.op, (action.x as usize) < process)
        }
        op => format!("op {op} with timer {}", record.timer.is_some()),
    }
}

/// Every rule is followed in many runs, under every kind of guard.
#[test]
fn every_rule_often() {
    let mut runs: BTreeMap<String, usize> = BTreeMap::new();
    for seed in 0..12_000 {
        let (table, inputs) = checked(&made_run(&mut Random::new(seed)));
        let mut path = Path::new(&table);
        let refused = path.scans(&table, &inputs.values).is_err();
        let mut rules = BTreeSet::new();
        for number in 1..path.states.len() {
            if path.phases[number] == EXE {
                rules.insert(rule(&table, &path.states[number - 1]));
            }
        }
        if refused && (1..=table.processes.len()).contains(&path.states[path.states.len() - 1].counter) {
            rules.insert("refused: ".to_string() + &rule(&table, &path.states[path.states.len() - 1]));
        }
        for rule in rules {
            *runs.entry(rule).or_default() += 1;
        }
    }
    let mut wanted = Vec::new();
    for rule in ["skip in 0", "skip in 255", "end with timer false", "end with timer true", "add to unset"] {
        wanted.push(rule.to_string());
    }
    for guard in GUARDS {
        wanted.push(format!("constant, {guard}"));
        wanted.push(format!("copy of set true, {guard}"));
        wanted.push(format!("copy of set false, {guard}"));
        wanted.push(format!("tout equal, {guard}"));
        wanted.push(format!("add, over false, {guard}"));
        wanted.push(format!("add, over true, {guard}"));
    }
    wanted.extend(["tout starts", "tout below", "refused: tout above", "refused: op 5 with timer false"].map(String::from));
    wanted.push("op 5 with timer true".to_string());
    for op in 8..=12 {
        wanted.push(format!("op {op} with timer false"));
        wanted.push(format!("op {op} with timer true"));
    }
    for op in [6, 7] {
        for lower in [false, true] {
            for other in ["0 with timer false", "255 with timer false", "1 with timer false", "1 with timer true"] {
                wanted.push(format!("op {op} of lower {lower} in {other}"));
            }
        }
    }
    for rule in wanted {
        let count = runs.get(&rule).copied().unwrap_or(0);
        assert!(count >= 8, "{rule}: {count}");
    }
}

const GUARDS: [&str; 7] = [
    "no guard",
    "guard of kind 0 false",
    "guard of kind 0 true",
    "guard of kind 1 false",
    "guard of kind 1 true",
    "guard of kind 2 false",
    "guard of kind 2 true",
];

/// How many actions the longest turn of the path has.
fn longest_turn(path: &Path) -> usize {
    let mut longest = 0;
    let mut length = 0;
    let mut turn_of = 0;
    for number in 1..path.states.len() {
        if path.phases[number] == EXE {
            let process = path.states[number - 1].counter;
            length = if process == turn_of { length + 1 } else { 1 };
            turn_of = process;
            longest = longest.max(length);
        } else {
            turn_of = 0;
        }
    }
    longest
}

/// The limits from both sides: turns of 64 actions in runs that close, 7 at a read, at an action and at a write, 5 and 6
/// where the state would have been above 4,096, and end states that differ in one part alone.
#[test]
fn limits_from_both_sides() {
    let mut counts: BTreeMap<String, usize> = BTreeMap::new();
    for seed in 0..CASES {
        let made = made_run(&mut Random::new(seed));
        let (table, inputs) = checked(&made);
        let mut path = Path::new(&table);
        let refused = path.scans(&table, &inputs.values).err();
        let last = &path.states[path.states.len() - 1];
        let what = match refused {
            Some(refused) if refused.refusal.cause == Cause::TooManyStates => match last.counter {
                0 => "7 at a read".to_string(),
                counter if counter > table.processes.len() => "7 at a write".to_string(),
                _ => "7 at an action".to_string(),
            },
            Some(refused) if path.states.len() == 4097 => format!("{} at the limit", refused.refusal.number()),
            Some(_) => continue,
            None => {
                let end = &path.states[path.ends[inputs.return_scan as usize]];
                if last == end {
                    format!("closed, a turn of 64: {}", longest_turn(&path) == 64)
                } else if differing_parts(last, end) == 1 {
                    format!("8 by {} alone", differing_part(&table, last, end))
                } else {
                    "8 by more".to_string()
                }
            }
        };
        *counts.entry(what).or_default() += 1;
    }
    for what in [
        "7 at a read",
        "7 at a write",
        "7 at an action",
        "5 at the limit",
        "6 at the limit",
        "closed, a turn of 64: true",
        "8 by an input alone",
        "8 by an internal variable alone",
        "8 by unset alone",
        "8 by a state alone",
        "8 by a timer alone",
    ] {
        let count = counts.get(what).copied().unwrap_or(0);
        assert!(count >= 10, "{what}: {count}");
    }
}

/// The one part in which two states differ.
fn differing_part(table: &Table, one: &Controller, other: &Controller) -> &'static str {
    for variable in 0..one.variables.len() {
        let (first, second) = (one.variables[variable], other.variables[variable]);
        if first != second {
            return match (first, second) {
                (Some(_), Some(_)) if variable < table.counts.inputs as usize => "an input",
                (Some(_), Some(_)) if table.counts.is_internal(variable as u16) => "an internal variable",
                (Some(_), Some(_)) => "an output",
                _ => "unset",
            };
        }
    }
    for (first, second) in one.records.iter().zip(&other.records) {
        if first.state != second.state {
            return "a state";
        }
        if first.timer != second.timer {
            return "a timer";
        }
    }
    "an action"
}
