//! Writes what the program `vectors_run` is run on and what it must print, by the second program alone.
//!
//!     vectors_run FOLDER          writes FOLDER/stdin and FOLDER/stdout
//!     vectors_run FOLDER SEED     the same, of random cases of any size alone, as many as the program's input holds
//!
//! First document 01's bench case; then its actions, turns, limits and refusals, sentence by sentence; then random and
//! damaged cases. A case that is written out here carries the answer that its sentence gives, and the second program must
//! give it too. In the comments `s1: read 1, copy 2` says that in scan 1 the read makes state 1 and the copy state 2.

use std::collections::BTreeMap;
use std::fmt::Write;

use second::code::bytes_of_numbers;
use second::random::Random;
use second::random_run::{run_case, RunCase};
use second::run::{run, Ran, ROOM as NEEDED};
use second::trace::{EXE, INPUT, OUTPUT};

const SEED: u64 = 3;
const SMALL_CASES: usize = 300;
const SMALL: usize = 400;
const LARGE_CASES: usize = 12;
const LARGE: usize = 8000;
/// The program's input is that long at most.
const INPUT_ROOM: usize = 300_000;

fn main() {
    let folder = std::env::args().nth(1).expect("FOLDER");
    let mut vectors = Vectors::default();
    match std::env::args().nth(2) {
        Some(seed) => random_cases_alone(&mut vectors, seed.parse().expect("SEED")),
        None => all_cases(&mut vectors),
    }
    assert!(vectors.stdin.len() < INPUT_ROOM);
    std::fs::write(format!("{folder}/stdin"), &vectors.stdin).expect("stdin is written");
    std::fs::write(format!("{folder}/stdout"), &vectors.stdout).expect("stdout is written");
    println!("{} cases, {} bytes: {:?}", vectors.cases, vectors.stdin.len(), vectors.answers);
}

fn all_cases(vectors: &mut Vectors) {
    bench_case(vectors);
    updates_of_variables(vectors);
    tests_of_variables(vectors);
    timers(vectors);
    other_processes(vectors);
    own_state(vectors);
    no_rule(vectors);
    long_turns(vectors);
    long_runs(vectors);
    end_state_differs(vectors);
    order_of_stops(vectors);
    longest_codes(vectors);
    rooms(vectors);
    table_refusals(vectors);
    process_test_refusals(vectors);
    inputs_refusals(vectors);
    println!("{} cases are written out", vectors.cases);
    random_cases(vectors);
}

// ---------------------------------------------------------------------------------------------------------------------
// Records and lines
// ---------------------------------------------------------------------------------------------------------------------

/// The size of the program's buffer, the most room that it lends.
const ROOM: usize = 20500;
/// What stands in its buffer before it is lent.
const BEFORE: u8 = 165;
/// Of a trace so many positions are printed.
const SHOWN: usize = 16;

fn closed(loop_start: usize, trace: &[u8]) -> String {
    let mut words = format!("closed {} loop {loop_start}, trace", trace.len() / 5);
    for position in trace.chunks(5).take(SHOWN) {
        words.push(' ');
        for byte in position {
            write!(words, "{byte:02x}").expect("a string takes all");
        }
    }
    words
}

/// A 5, 6, 7 or 8; the process is 0 but for 5 and 6.
fn halted(number: u16, scan: usize, process: usize) -> String {
    format!("halted {number} at {scan} process {process}")
}

fn refused(number: u16, place: usize) -> String {
    format!("refused {number} at {place}")
}

fn answer_words(ran: &Ran) -> String {
    match ran {
        Ran::Closed { loop_start, trace, .. } => closed(*loop_start, trace),
        Ran::Refused(refused_run) => {
            let refusal = refused_run.refusal;
            match refusal.number() {
                5..=8 => halted(refusal.number(), refusal.place, refused_run.process),
                number => refused(number, refusal.place),
            }
        }
    }
}

/// "1 to 4 and 9 to 11 change no buffer; 5 to 8 leave the trace buffer all zero. An accepted run zeroes the trace bytes past
/// its end."
fn left(ran: &Ran, lent: usize) -> [u8; ROOM] {
    let mut buffer = [BEFORE; ROOM];
    match ran {
        Ran::Closed { trace, .. } => {
            buffer[..lent].fill(0);
            buffer[..trace.len()].copy_from_slice(trace);
        }
        Ran::Refused(refused_run) if (5..=8).contains(&refused_run.refusal.number()) => buffer[..lent].fill(0),
        Ran::Refused(_) => {}
    }
    buffer
}

/// Changes with every byte of a buffer and with its place.
fn checksum(buffer: &[u8]) -> u64 {
    buffer.iter().fold(0, |sum, byte| (sum * 257 + *byte as u64) % 4294967291)
}

/// The records, and the line for each.
#[derive(Default)]
struct Vectors {
    stdin: Vec<u8>,
    stdout: String,
    cases: usize,
    /// How many cases have each kind of answer.
    answers: BTreeMap<String, usize>,
}

impl Vectors {
    /// A run with so many bytes of trace buffer.
    fn run(&mut self, table: &[u8], inputs: &[u8], room: usize) -> String {
        let mut buffer = [BEFORE; ROOM];
        let lent = room.min(ROOM);
        let ran = run(table, inputs, &mut buffer[..lent]);
        let answer = answer_words(&ran);
        assert!(buffer == left(&ran, lent), "{answer}");
        let asked = format!("run table {} inputs {} room {lent}", table.len(), inputs.len());
        writeln!(self.stdout, "{asked}: {answer}; buffer {}", checksum(&buffer)).expect("a string takes all");
        self.record(room, table, inputs);
        let kind = match &ran {
            Ran::Closed { .. } => "closed".to_string(),
            Ran::Refused(refused_run) => format!("refusal {:2}", refused_run.refusal.number()),
        };
        *self.answers.entry(kind).or_default() += 1;
        answer
    }

    /// Command 0, three numbers, and the two codes.
    fn record(&mut self, room: usize, table: &[u8], inputs: &[u8]) {
        self.stdin.push(0);
        for number in [room, table.len(), inputs.len()] {
            self.stdin.extend(u16::try_from(number).expect("two bytes").to_le_bytes());
        }
        self.stdin.extend(table);
        self.stdin.extend(inputs);
        self.cases += 1;
    }

    /// A run of well-formed codes with all the room that there is.
    fn ask(&mut self, table: &[u16], inputs: &[u16]) -> String {
        self.run(&bytes_of_numbers(table), &bytes_of_numbers(inputs), ROOM)
    }

    /// The run closes at that loop start. `phases` has a letter for each position: i, e or o; a group of letters is a scan
    /// with the Output before it. Each of `atoms` is the positions at which that atom is 1; all the others are 0.
    fn close(&mut self, table: &[u16], inputs: &[u16], loop_start: usize, phases: &str, atoms: &[&[usize]]) {
        assert_eq!(self.ask(table, inputs), closed(loop_start, &trace(phases, atoms)), "{table:?} {inputs:?}");
    }

    /// Only how many positions and where the loop starts, for long runs.
    fn close_at(&mut self, table: &[u16], inputs: &[u16], positions: usize, loop_start: usize) {
        let answer = self.ask(table, inputs);
        assert!(answer.starts_with(&format!("closed {positions} loop {loop_start},")), "{answer}");
    }

    fn halt(&mut self, table: &[u16], inputs: &[u16], number: u16, scan: usize, process: usize) {
        assert_eq!(self.ask(table, inputs), halted(number, scan, process), "{table:?} {inputs:?}");
    }

    fn refuse(&mut self, table: &[u8], inputs: &[u8], number: u16, place: usize) {
        assert_eq!(self.run(table, inputs, ROOM), refused(number, place), "{table:?} {inputs:?}");
    }
}

fn trace(phases: &str, atoms: &[&[usize]]) -> Vec<u8> {
    let mut bytes = Vec::new();
    for (position, phase) in phases.bytes().filter(|byte| *byte != b' ').enumerate() {
        let mut bits: u32 = 0;
        for (atom, positions) in atoms.iter().enumerate() {
            bits |= (positions.contains(&position) as u32) << atom;
        }
        bytes.push(match phase {
            b'i' => INPUT,
            b'e' => EXE,
            _ => OUTPUT,
        });
        bytes.extend(bits.to_le_bytes());
    }
    bytes
}

fn range(from: usize, to: usize) -> Vec<usize> {
    (from..=to).collect()
}

// ---------------------------------------------------------------------------------------------------------------------
// Tables
// ---------------------------------------------------------------------------------------------------------------------

/// "each as op, x, y, guard, next-if, next-else"
type Action = [u16; 6];
type Body = Vec<Action>;

const RESET: Action = [5, 0, 0, 0, 0, 0];
const START: Action = [8, 0, 0, 0, 0, 0];
const NEXT: Action = [10, 0, 0, 0, 0, 0];
const STOP: Action = [11, 0, 0, 0, 0, 0];
const ERR: Action = [12, 0, 0, 0, 0, 0];

/// Op 1 without a guard, and then that action.
fn constant(x: u16, y: u16, next: u16) -> Action {
    [1, x, y, 0, next, 0]
}

/// Op 4 without a guard, and then that action.
fn tout(bound: u16, next: u16) -> Action {
    [4, bound, 0, 0, next, 0]
}

/// Variable 1 takes the input 0; where the first test is true, and where not.
fn choose(next_if: u16, next_else: u16) -> Action {
    [2, 1, 0, 1, next_if, next_else]
}

/// The numbers of a table: counts, sources, tests, and for each process its bodies.
fn table(counts: [u16; 3], sources: &[u16], tests: &[[u16; 3]], processes: &[Vec<Body>]) -> Vec<u16> {
    let mut numbers = counts.to_vec();
    numbers.extend(sources);
    numbers.push(tests.len() as u16);
    numbers.extend(tests.iter().flatten());
    numbers.push(processes.len() as u16);
    for bodies in processes {
        numbers.push(bodies.len() as u16);
        for body in bodies {
            numbers.push(body.len() as u16);
            numbers.extend(body.iter().flatten());
        }
    }
    numbers
}

/// So many updates of a variable, each going on to the one after it, and last the given action.
fn updates_then(variable: u16, count: u16, last: Action) -> Body {
    let mut body: Body = (1..=count).map(|number| constant(variable, 1, number + 1)).collect();
    body.push(last);
    body
}

// ---------------------------------------------------------------------------------------------------------------------
// The bench case
// ---------------------------------------------------------------------------------------------------------------------

/// "Table: 1 1 1 1 2 0 0 1 0 2 1 1 1 1 2 1 0 0 0 0 (20 bytes). Inputs: 3 1 0 1 0."
const BENCH_TABLE: [u16; 20] = [1, 1, 1, 1, 2, 0, 0, 1, 0, 2, 1, 1, 1, 1, 2, 1, 0, 0, 0, 0];
const BENCH_INPUTS: [u16; 5] = [3, 1, 0, 1, 0];

/// "Twelve positions, loop start 4; Input at 1, 5, 9; Output at 0, 4, 8; atom 0 at 5 to 8, atom 1 at 8 to 11."
fn bench_case(vectors: &mut Vectors) {
    vectors.close(&BENCH_TABLE, &BENCH_INPUTS, 4, "oiee oiee oiee", &[&range(5, 8), &range(8, 11)]);
    // "end state differs"
    vectors.halt(&BENCH_TABLE, &[3, 1, 0, 1, 1], 8, 3, 0);
    vectors.halt(&BENCH_TABLE, &[3, 0, 0, 1, 0], 8, 3, 0);
    vectors.halt(&BENCH_TABLE, &[3, 2, 0, 1, 0], 8, 3, 0);
}

// ---------------------------------------------------------------------------------------------------------------------
// Updates and tests
// ---------------------------------------------------------------------------------------------------------------------

/// Ops 1 to 3.
fn updates_of_variables(vectors: &mut Vectors) {
    // Op 1: "its guard, tested on the state before it, only chooses": the first update finds the variable unset and goes to
    // next-else, though it makes the test true. s1: read 1, update 2, update 3, end 4, write 5. s2: 6 to 9.
    let op_1 = table([0, 1, 0], &[], &[[0, 0, 7]], &[vec![vec![[1, 0, 7, 1, 0, 2], constant(0, 7, 0)]]]);
    vectors.close(&op_1, &[2, 1], 5, "oieee oiee", &[&range(2, 8)]);
    vectors.halt(&op_1, &[2, 0], 8, 2, 0);
    // Op 2: "copying copies unset". s1: read 1, constant 2, copy 3, end 4, write 5, which is the start again.
    let op_2 = table([0, 2, 0], &[], &[[0, 0, 0], [0, 1, 0]], &[vec![vec![constant(0, 0, 2), [2, 0, 1, 0, 0, 0]]]]);
    vectors.close(&op_2, &[1, 0], 0, "oieee", &[&[2], &[]]);
    vectors.close(&op_2, &[3, 0], 0, "oieee oieee oieee", &[&[2, 7, 12], &[]]);
    // "Op 2's y is any variable, x itself and outputs too": the output 2 has the source 0.
    let outputs = [vec![vec![constant(0, 5, 2), [2, 1, 2, 0, 0, 0]]]];
    let of_output = table([0, 2, 1], &[0], &[[0, 1, 5], [0, 2, 5]], &outputs);
    vectors.close(&of_output, &[3, 2], 10, "oieee oieee oieee", &[&range(8, 14), &range(5, 14)]);
    vectors.halt(&of_output, &[3, 1], 8, 3, 0);
    let of_itself = table([0, 1, 0], &[], &[[0, 0, 0]], &[vec![vec![[2, 0, 0, 0, 0, 0]]]]);
    vectors.close(&of_itself, &[1, 0], 0, "oiee", &[&[]]);
    // Op 3: "modulo 65,536". 65,535 + 2 is 1. s1: read 1, constant 2, add 3, end 4, write 5. s2: 6 to 9.
    let sum = vec![constant(0, 65535, 2), [3, 0, 2, 0, 0, 0]];
    let op_3 = table([0, 1, 0], &[], &[[1, 0, 65534], [0, 0, 1]], &[vec![sum]]);
    vectors.close(&op_3, &[2, 1], 5, "oieee oieee", &[&[2, 7], &[3, 4, 5, 6, 8, 9]]);
    // "adding to an unset one leaves it unset"; "Unset is not 0: \"exceeds\" is false of it"
    let unset = [[0, 0, 5], [0, 0, 0], [1, 0, 0]];
    let to_unset = table([0, 1, 0], &[], &unset, &[vec![vec![[3, 0, 5, 0, 0, 0]]]]);
    vectors.close(&to_unset, &[1, 0], 0, "oiee", &[&[], &[], &[]]);
    // "writing from an unset source makes the output unset". s1 (input 1): read 1, v1 := 3 2, end 3, write (v3 is 3) 4.
    // s2 (input 0): read 5, v1 := 3 6, v1 := v2 (unset) 7, end 8, write (v3 is unset) 9. s3: 10 to 14.
    let body = vec![[1, 1, 3, 1, 0, 2], [2, 1, 2, 0, 0, 0]];
    let unsets = table([1, 2, 1], &[1], &[[0, 0, 1], [0, 3, 3], [0, 1, 3]], &[vec![body]]);
    let atoms: [&[usize]; 3] = [&range(1, 4), &range(4, 8), &[2, 3, 4, 5, 6, 11]];
    vectors.close(&unsets, &[3, 2, 1, 0, 0], 9, "oiee oieee oieee", &atoms);
}

/// Kinds 0 and 1, and the bits of the atoms.
fn tests_of_variables(vectors: &mut Vectors) {
    // Kind 1 is strict: 2 exceeds 1 and not 2. s1: read 1, stop 2, skip 3, write 4. s2: read 5, skip 6, write 7.
    let strict = table([1, 0, 0], &[], &[[1, 0, 1], [1, 0, 2], [0, 0, 2]], &[vec![vec![STOP]]]);
    vectors.close(&strict, &[2, 1, 2, 2], 4, "oiee oie", &[&range(1, 6), &[], &range(1, 6)]);
    // 0 and 65,535 as values and as bounds
    let ends = [[0, 0, 0], [0, 0, 65535], [1, 0, 0], [1, 0, 65534], [1, 0, 65535]];
    let extremes = table([1, 0, 0], &[], &ends, &[vec![vec![STOP]]]);
    let high = [1, 2, 3, 4, 8, 9];
    let atoms: [&[usize]; 5] = [&[5, 6, 7], &high, &high, &high, &[]];
    vectors.close(&extremes, &[3, 1, 65535, 0, 65535], 4, "oiee oie oie", &atoms);
    // "atom 0 the lowest bit, low byte first": of 32 tests one is true
    for atom in [0, 7, 8, 15, 16, 23, 24, 31] {
        let mut tests = vec![[0, 0, 0]; 32];
        tests[atom] = [0, 0, 1];
        let mut atoms: Vec<&[usize]> = vec![&[]; 32];
        atoms[atom] = &[1, 2, 3, 4, 5, 6];
        vectors.close(&table([1, 0, 0], &[], &tests, &[vec![vec![STOP]]]), &[2, 1, 1, 1], 4, "oiee oie", &atoms);
    }
}

// ---------------------------------------------------------------------------------------------------------------------
// Timers
// ---------------------------------------------------------------------------------------------------------------------

/// Ops 4 and 5.
fn timers(vectors: &mut Vectors) {
    // Op 4 with bound 2. s1: read 1, tout (starts) 2, write 3. s2: read (1) 4, tout (below) 5, write 6. s3: read (2) 7, tout
    // (equal) 8, constant 9, end 10, write 11. s4: read 12, tout (starts) 13, write 14. s5: 15 to 17. s6: 18 to 22.
    let op_4 = table([0, 1, 0], &[], &[[0, 0, 1]], &[vec![vec![tout(2, 2), constant(0, 1, 0)]]]);
    vectors.close(&op_4, &[7, 4], 14, "oie oie oieee oie oie oieee oie", &[&range(9, 24)]);
    vectors.close_at(&op_4, &[6, 3], 22, 11);
    vectors.halt(&op_4, &[7, 5], 8, 7, 0);
    vectors.halt(&op_4, &[4, 3], 8, 4, 0);
    // "A timer started and raised in the same scan" would be at the bound 1 in scan 1. In scan 2 it is, and the guard is
    // false: next-else. s1: read 1, tout 2, write 3. s2: read 4, tout 5, action 3 at 6, end 7, write 8. s3: 9 to 11.
    // s4: read 12, tout (the guard is true: next-if) 13, action 2 at 14, end 15, write 16. s5: 17 to 19. s6: 20 to 24.
    let body = vec![[4, 1, 0, 1, 2, 3], constant(0, 4, 0), constant(0, 3, 0)];
    let guarded = table([0, 1, 0], &[], &[[1, 0, 0], [0, 0, 4]], &[vec![body]]);
    let phases = "oie oieee oie oieee oie oieee";
    vectors.close(&guarded, &[6, 4], 16, phases, &[&range(6, 23), &range(14, 23)]);
    // The highest bound.
    let highest = table([0, 0, 0], &[], &[], &[vec![vec![tout(4095, 0)]]]);
    vectors.halt(&highest, &[40, 39], 8, 40, 0);
    // Op 5. The input chooses between reset and tout 2. s1: read 1, copy 2, tout (starts) 3, write 4. s2: read (1) 5, copy 6,
    // tout 7, write 8. s3: read (2) 9, copy 10, reset (0) 11, write 12. s4: read (1) 13, copy 14, tout 15, write 16. s5: read
    // (2) 17, copy 18, tout 19, v1 := 9 20, end 21, write 22. s6: read 23, copy 24, tout (starts) 25, write 26.
    let body = vec![choose(2, 3), RESET, tout(2, 4), constant(1, 9, 0)];
    let op_5 = table([1, 1, 0], &[], &[[0, 0, 1], [0, 1, 9]], &[vec![body]]);
    let phases = "oiee oiee oiee oiee oieeee oiee";
    vectors.close(&op_5, &[6, 1, 0, 0, 1, 0, 0, 0], 4, phases, &[&range(9, 12), &range(20, 23)]);
    // "reset with no timer"
    vectors.halt(&op_5, &[1, 0, 1], 5, 1, 1);
    vectors.halt(&op_5, &[6, 1, 0, 0, 1, 0, 0, 1], 5, 6, 1);
    // "end does not clear it": the input chooses between tout 2 and the end. s1: read 1, copy 2, tout 3, write 4. s2: read 5,
    // copy 6, end 7, write 8. s3: read 9, copy 10, tout (equal) 11, v1 := 9 12, end 13, write 14. s4: 15 to 18.
    let body = vec![choose(0, 2), tout(2, 3), constant(1, 9, 0)];
    let past_end = table([1, 1, 0], &[], &[[0, 0, 1], [0, 1, 9]], &[vec![body]]);
    vectors.close(&past_end, &[4, 1, 0, 1, 0, 0], 4, "oiee oiee oieeee oiee", &[&range(5, 8), &range(12, 15)]);
    // It rises with no tout to look at it, and is above its bound when there is one: in scan 4, and in scan 41.
    vectors.halt(&past_end, &[4, 3, 0, 1, 1, 1], 8, 4, 0);
    vectors.halt(&past_end, &[4, 3, 0, 1, 1, 0], 5, 4, 1);
    vectors.halt(&past_end, &[vec![41, 39, 0], vec![1; 39], vec![0]].concat(), 5, 41, 1);
    // "Several touts with different bounds": the input chooses between 3 and 1. At 1 in scan 2, above 1 in scan 3.
    let two_bounds = table([1, 1, 0], &[], &[[0, 0, 1]], &[vec![vec![choose(3, 2), tout(3, 0), tout(1, 0)]]]);
    vectors.close(&two_bounds, &[3, 1, 0, 1, 0], 4, "oiee oieee oiee", &[&range(5, 9)]);
    vectors.halt(&two_bounds, &[3, 1, 0, 0, 1], 5, 3, 1);
    // "running timers up by 1": those of two processes, with bounds 2 and 3, come back together after 12 scans.
    let starts = vec![[6, 2, 0, 0, 2, 0], NEXT];
    let first = vec![starts, vec![tout(2, 0)]];
    let both = table([0, 0, 0], &[], &[], &[first, vec![vec![tout(3, 0)]]]);
    vectors.halt(&both, &[12, 1], 8, 12, 0);
    vectors.close_at(&both, &[13, 1], 61, 6);
}

// ---------------------------------------------------------------------------------------------------------------------
// Processes and their states
// ---------------------------------------------------------------------------------------------------------------------

/// Ops 6 and 7, upwards and downwards.
fn other_processes(vectors: &mut Vectors) {
    // Op 6 upwards, out of stop and out of err: "whatever state the other process is in". Kind 2 with 0, 1 and 255.
    // s1: read 1, startP 2, end 3, err 4, skip 5, write 6. s2: 7 to 12.
    let states = [[2, 2, 0], [2, 2, 1], [2, 2, 255]];
    let op_6 = table([0, 0, 0], &[], &states, &[vec![vec![[6, 2, 0, 0, 0, 0]]], vec![vec![ERR]]]);
    vectors.close(&op_6, &[2, 1], 6, "oieeee oieeee", &[&[0, 1], &[2, 3, 8, 9], &[4, 5, 6, 7, 10, 11]]);
    vectors.halt(&op_6, &[1, 0], 8, 1, 0);
    // Op 6 downwards: "A lower-numbered process acts in the next scan." s1: read 1, startP 2, v0 := 1 3, stop 4, skip 5,
    // v0 := 2 6, startP 7, stop 8, skip 9, write 10. s2: 11 to 20.
    let first = vec![vec![[6, 2, 0, 0, 2, 0], constant(0, 1, 3), STOP]];
    let second = vec![vec![constant(0, 2, 2), [6, 1, 0, 0, 3, 0], STOP]];
    let downwards = table([0, 1, 0], &[], &[[0, 0, 1], [0, 0, 2], [2, 1, 0]], &[first, second]);
    let atoms: [&[usize]; 3] =
        [&[3, 4, 5, 13, 14, 15], &[6, 7, 8, 9, 10, 11, 12, 16, 17, 18, 19], &[4, 5, 6, 14, 15, 16]];
    vectors.close(&downwards, &[2, 1], 10, "oieeeeeeee oieeeeeeee", &atoms);
    // Downwards it clears the timer: the tout 1 of process 1 is never at its bound. s1: read 1, startP 2, tout 3, startP 4,
    // end 5, write 6. s2: 7 to 12.
    let first = vec![vec![[6, 2, 0, 0, 2, 0], tout(1, 3), constant(0, 1, 0)]];
    let clears = table([0, 1, 0], &[], &[[0, 0, 1]], &[first, vec![vec![[6, 1, 0, 0, 0, 0]]]]);
    vectors.close(&clears, &[2, 1], 6, "oieeee oieeee", &[&[]]);
    // "ascending": process 2 is stopped, process 3 acts in the scan in which process 1 starts it. s1: read 1, startP 2,
    // end 3, skip 4, v0 := 3 5, end 6, write 7. s2: 8 to 13.
    let three = [vec![vec![[6, 3, 0, 0, 0, 0]]], vec![vec![constant(0, 9, 0)]], vec![vec![constant(0, 3, 0)]]];
    let ascending = table([0, 1, 0], &[], &[[0, 0, 3], [2, 3, 1]], &three);
    vectors.close(&ascending, &[2, 1], 7, "oieeeee oieeeee", &[&range(5, 13), &range(2, 13)]);
    // Op 7 upwards: after scan 3 process 2 is as if it had never been started. The input chooses. s1: read 1, copy 2, stopP 3,
    // end 4, skip 5, write 6. s2: read 7, copy 8, startP 9, end 10, tout 11, write 12. s3: 13 to 18.
    let first = vec![vec![choose(2, 3), [6, 2, 0, 0, 0, 0], [7, 2, 0, 0, 0, 0]]];
    let op_7 = table([1, 1, 0], &[], &[[0, 0, 1], [2, 2, 1]], &[first, vec![vec![tout(9, 0)]]]);
    vectors.close(&op_7, &[3, 1, 0, 1, 0], 6, "oieeee oieeee oieeee", &[&range(7, 12), &range(9, 14)]);
    vectors.close_at(&op_7, &[2, 1, 1, 1], 12, 6);
    // Op 7 downwards: process 1 has had its turn. s1: read 1, startP 2, end 3, stopP 4, end 5, write 6. s2: read 7, skip 8,
    // stopP 9, end 10, write 11.
    let stops = [vec![vec![[6, 2, 0, 0, 0, 0]]], vec![vec![[7, 1, 0, 0, 0, 0]]]];
    let downwards = table([0, 0, 0], &[], &[[2, 1, 0], [2, 1, 1]], &stops);
    vectors.close(&downwards, &[2, 1], 6, "oieeee oieee", &[&range(4, 10), &range(0, 3)]);
    // Their guards. s1: read 1, startP 2, end 3, v0 := 1 4, end 5, write 6. s2: read 7, startP 8, stopP 9, end 10, skip 11,
    // write 12. s3: 13 to 18.
    let first = vec![vec![[6, 2, 0, 1, 2, 0], [7, 2, 0, 1, 0, 1]]];
    let guarded = table([0, 1, 0], &[], &[[0, 0, 1], [2, 2, 0]], &[first, vec![vec![constant(0, 1, 0)]]]);
    let stopped = [0, 1, 9, 10, 11, 12, 13, 15, 16, 17];
    vectors.close(&guarded, &[3, 2], 12, "oieeee oieeee oieeee", &[&range(4, 17), &stopped]);
    // A guard of kind 2 with 255: process 1 sees process 2 in err from scan 2 on, and starts it no more. s1: read 1, v0 := 0 2,
    // startP 3, end 4, err 5, skip 6, write 7. s2: read 8, v0 := 0 9, end 10, skip 11, write 12.
    let first = vec![vec![[1, 0, 0, 1, 0, 2], [6, 2, 0, 0, 0, 0]]];
    let sees_err = table([0, 1, 0], &[], &[[2, 2, 255], [2, 1, 255]], &[first, vec![vec![ERR]]]);
    vectors.close(&sees_err, &[2, 1], 7, "oieeeee oieee", &[&range(5, 11), &[]]);
}

/// Ops 8 to 12.
fn own_state(vectors: &mut Vectors) {
    // Op 8 in state 1. s1: read 1, v0 := 1 (next-else) 2, start 3, v0 := 1 (next-if) 4, end 5, write 6. s2: 7 to 10.
    let op_8 = table([0, 1, 0], &[], &[[0, 0, 1]], &[vec![vec![[1, 0, 1, 1, 0, 2], START]]]);
    vectors.close(&op_8, &[2, 1], 6, "oieeee oiee", &[&range(2, 9)]);
    // Op 8 in state 2, in the same turn. s1: read 1, v0 := 1 2, next 3, start 4, v0 := 1 5, end 6, write 7. s2: 8 to 10.
    let back = vec![vec![[1, 0, 1, 2, 0, 2], NEXT], vec![START]];
    let back = table([0, 1, 0], &[], &[[2, 1, 2], [0, 0, 1], [2, 1, 1]], &[back]);
    let in_one = [0, 1, 2, 4, 5, 6, 7, 8, 9, 10];
    vectors.close(&back, &[2, 1], 7, "oieeeee oiee", &[&[3], &range(2, 10), &in_one]);
    // Op 9, and op 7 after it. s1: read 1, startP 2, set 3, stopP 4, end 5, skip 6, write 7. s2: 8 to 12.
    let first = vec![vec![[6, 2, 0, 0, 2, 0], [9, 2, 0, 0, 0, 0]], vec![[7, 2, 0, 0, 0, 0]]];
    let tests = [[2, 2, 1], [2, 1, 2], [0, 0, 5]];
    let op_9 = table([0, 1, 0], &[], &tests, &[first, vec![vec![constant(0, 5, 0)]]]);
    vectors.close(&op_9, &[2, 1], 7, "oieeeee oieee", &[&[2, 3], &range(3, 11), &[]]);
    // Op 10. s1: read 1, next 2, v0 := 3 3, end 4, write 5. s2: read 6, v0 := 3 7, end 8, write 9.
    let op_10 = table([0, 1, 0], &[], &[[2, 1, 2], [0, 0, 3]], &[vec![vec![NEXT], vec![constant(0, 3, 0)]]]);
    vectors.close(&op_10, &[2, 1], 5, "oieee oiee", &[&range(2, 8), &range(3, 8)]);
    // Ops 9 and 10 clear the timer, which is 3 in scan 4: else tout 1 would find it above its bound. s1 to s3: read, copy,
    // tout, write. s4: read 13, copy 14, set 15, tout (starts) 16, write 17. s5: 18 to 21. s6: 22 to 24.
    for leave in [[9, 2, 0, 0, 0, 0], NEXT] {
        let bodies = vec![vec![choose(2, 3), leave, tout(9, 0)], vec![tout(1, 0)]];
        let clears = table([1, 1, 0], &[], &[[0, 0, 1], [2, 1, 2]], &[bodies]);
        let phases = "oiee oiee oiee oieee oiee oie";
        vectors.close(&clears, &[6, 4, 0, 0, 0, 1, 1, 1], 17, phases, &[&range(13, 23), &range(15, 23)]);
    }
    // Op 8 clears it, which is 3 in scan 5. s1: read 1, tout 2, write 3. s2: read 4, tout 5, next 6, copy 7, tout 8, write 9.
    // s3: 10 to 13. s4: 14 to 17. s5: read 18, copy 19, start 20, tout (starts) 21, write 22. s6: read 23, tout 24, next 25,
    // copy 26, start 27, tout (starts) 28, write 29.
    let bodies = vec![vec![tout(1, 2), NEXT], vec![choose(2, 3), START, tout(9, 0)]];
    let clears = table([1, 1, 0], &[], &[[0, 0, 1], [2, 1, 2]], &[bodies]);
    let in_two = [range(6, 19), vec![25, 26]].concat();
    let phases = "oie oieeee oiee oiee oieee oieeeee";
    vectors.close(&clears, &[6, 5, 0, 0, 0, 0, 1, 1], 22, phases, &[&range(18, 28), &in_two]);
    // Ops 11 and 12 clear it: "the skip that follows is an action of its own". s1: read 1, copy 2, tout 3, write 4. s2: read 5,
    // copy 6, stop 7, skip 8, write 9. s3: read 10, skip 11, write 12.
    for (leave, state) in [(STOP, 0), (ERR, 255)] {
        let body = vec![choose(2, 3), leave, tout(9, 0)];
        let leaves = table([1, 1, 0], &[], &[[0, 0, 1], [2, 1, state]], &[vec![body]]);
        vectors.close(&leaves, &[3, 2, 0, 1, 1], 9, "oiee oieee oie", &[&range(5, 11), &range(7, 11)]);
    }
}

// ---------------------------------------------------------------------------------------------------------------------
// Runs that are stopped
// ---------------------------------------------------------------------------------------------------------------------

/// "5 | no rule for the action": in the turn of another process, and in a scan of its own.
fn no_rule(vectors: &mut Vectors) {
    let first = vec![vec![choose(2, 0), [6, 2, 0, 0, 0, 0]]];
    let numbers = table([1, 1, 0], &[], &[[0, 0, 1]], &[first, vec![vec![RESET]]]);
    for scan in 1..=6 {
        let mut inputs = vec![6, 1, 0, 0, 0, 0, 0, 0];
        inputs[scan + 1] = 1;
        vectors.halt(&numbers, &inputs, 5, scan, 2);
    }
    vectors.close_at(&numbers, &[6, 1, 0, 0, 0, 0, 0, 0], 30, 5);
    // Refused before the return scan is reached, and after it.
    vectors.halt(&numbers, &[6, 4, 0, 1, 0, 0, 0, 0], 5, 2, 2);
    vectors.halt(&numbers, &[6, 4, 0, 0, 0, 0, 1, 0], 5, 5, 2);
    // In the turn of process 8, which each of the others starts in its turn.
    let starter = |other: u16| vec![vec![[6, other, 0, 0, 0, 0]]];
    let mut processes: Vec<Vec<Body>> = (2..=8).map(starter).collect();
    processes.push(vec![vec![RESET]]);
    vectors.halt(&table([0, 0, 0], &[], &[], &processes), &[1, 0], 5, 1, 8);
    processes[7] = vec![vec![tout(1, 2), RESET]];
    vectors.close_at(&table([0, 0, 0], &[], &[], &processes), &[2, 1], 34, 17);
}

/// Three bodies of 15 updates and a next (48 actions), then the given.
fn after_48(last: Body) -> Vec<Body> {
    let longer = updates_then(0, 15, NEXT);
    vec![longer.clone(), longer.clone(), longer, last]
}

/// So many updates, then the end of the body.
fn updates(count: u16) -> Body {
    updates_then(0, count - 1, constant(0, 1, 0))
}

/// "at most 64 actions, skip and end counted; a 65th is refusal 6"
fn long_turns(vectors: &mut Vectors) {
    let one = |bodies: Vec<Body>| table([0, 1, 0], &[], &[], &[bodies]);
    // 48 + 15 + the end are 64. s1: read 1, actions 2 to 65, write 66. s2: read 67, 15 updates and the end, write 84.
    vectors.close_at(&one(after_48(updates(15))), &[2, 1], 84, 66);
    vectors.halt(&one(after_48(updates(16))), &[2, 1], 6, 1, 1);
    // 48 + 14 + the stop + the skip are 64. s2: read 67, skip 68, write 69.
    vectors.close_at(&one(after_48(updates_then(0, 14, STOP))), &[2, 1], 69, 66);
    vectors.halt(&one(after_48(updates_then(0, 15, STOP))), &[2, 1], 6, 1, 1);
    // 48 + 15 + the tout that passes on are 64.
    vectors.close_at(&one(after_48(updates_then(0, 15, tout(1, 0)))), &[3, 1], 103, 66);
    // "per process and scan, the passing one included": two processes of 64 each.
    let mut first = after_48(updates(15));
    first[0][0] = [6, 2, 0, 0, 2, 0];
    let both = |last: Body| table([0, 1, 0], &[], &[], &[first.clone(), after_48(last)]);
    vectors.close_at(&both(updates(15)), &[2, 1], 164, 130);
    vectors.halt(&both(updates(16)), &[2, 1], 6, 1, 2);
    // A turn that never ends, in the scan in which the input is 1: start, set, and an update that goes to itself.
    for leave in [START, [9, 1, 0, 0, 0, 0], constant(1, 3, 2)] {
        let numbers = table([1, 1, 0], &[], &[[0, 0, 1]], &[vec![vec![choose(2, 0), leave]]]);
        for scan in [1, 2, 4, 5] {
            let mut inputs = vec![5, 1, 0, 0, 0, 0, 0];
            inputs[scan + 1] = 1;
            vectors.halt(&numbers, &inputs, 6, scan, 1);
        }
        vectors.close_at(&numbers, &[3, 1, 0, 0, 0], 12, 4);
    }
}

/// "7 | a state numbered above 4,096 would arise (the start is 0)"
fn long_runs(vectors: &mut Vectors) {
    // Read, update, end, write: state 4,096 ends scan 1,024. "State 4,096 may arise, if it is the one that is dropped".
    let four = table([0, 1, 0], &[], &[[0, 0, 1]], &[vec![updates(1)]]);
    vectors.close_at(&four, &[1024, 1023], 4096, 4092);
    vectors.close_at(&four, &[1024, 1], 4096, 4);
    // "Reads and writes can be 7 too": the read of scan 1,025 would make state 4,097.
    vectors.halt(&four, &[1025, 1], 7, 1025, 0);
    vectors.halt(&four, &[1025, 1024], 7, 1025, 0);
    vectors.halt(&four, &[1365, 1364], 7, 1025, 0);
    // Scan 1 has so many states more, some updates and a next.
    let longer = |more: u16| table([0, 1, 0], &[], &[], &[vec![updates_then(0, more - 1, NEXT), updates(1)]]);
    // 5 + 4 * 1023 = 4,097: the write of scan 1,024.
    vectors.halt(&longer(1), &[1024, 1], 7, 1024, 0);
    vectors.close_at(&longer(1), &[1023, 1], 4093, 5);
    // 6 + 4 * 1022 = 4,094 after scan 1,023: read 4,095, update 4,096, and the end.
    vectors.halt(&longer(2), &[1024, 1], 7, 1024, 0);
    // 7 + 4 * 1022 = 4,095: read 4,096, and the update.
    vectors.halt(&longer(3), &[1024, 1], 7, 1024, 0);
    // 8 + 4 * 1022 = 4,096: closes after scan 1,023.
    vectors.close_at(&longer(4), &[1023, 1], 4096, 8);
    vectors.halt(&longer(4), &[1024, 1], 7, 1024, 0);
    // Every process does 64 actions: read, 8 * 64 and write are 514 in scan 1, and 130 in each after it.
    let mut processes = vec![after_48(updates(15)); 8];
    for process in 1..8u16 {
        processes[process as usize - 1][0][0] = [6, process + 1, 0, 0, 2, 0];
    }
    let widest = table([0, 1, 0], &[], &[], &processes);
    vectors.close_at(&widest, &[28, 1], 4024, 514);
    vectors.halt(&widest, &[29, 1], 7, 29, 0);
    // All 1,365 scans: stop and skip in scan 1, a skip in each other: 4 + 3 * 1364 = 4,096.
    let stops = table([0, 0, 0], &[], &[], &[vec![vec![STOP]]]);
    vectors.close_at(&stops, &[1365, 1364], 4096, 4093);
    vectors.halt(&stops, &[1365, 0], 8, 1365, 0);
    let later = table([0, 1, 0], &[], &[], &[vec![updates_then(0, 1, STOP)]]);
    vectors.halt(&later, &[1365, 1364], 7, 1365, 0);
}

/// "8 | end state differs | scan q": each part of the whole state counts.
fn end_state_differs(vectors: &mut Vectors) {
    // The input alone.
    let stops = table([1, 0, 0], &[], &[], &[vec![vec![STOP]]]);
    vectors.halt(&stops, &[2, 1, 0, 1], 8, 2, 0);
    vectors.close_at(&stops, &[2, 1, 1, 1], 7, 4);
    vectors.halt(&stops, &[5, 1, 1, 1, 1, 1, 2], 8, 5, 0);
    // "With an input variable, b = 0 never closes: inputs are unset at the start." 0 is not unset.
    let ends = table([1, 1, 0], &[], &[], &[vec![vec![[2, 1, 1, 0, 0, 0]]]]);
    vectors.halt(&ends, &[1, 0, 0], 8, 1, 0);
    // An internal variable that counts; one that is 0 and was unset at the start.
    let counts = table([0, 1, 0], &[], &[], &[vec![vec![constant(0, 0, 2), NEXT], vec![[3, 0, 1, 0, 0, 0]]]]);
    vectors.halt(&counts, &[9, 8], 8, 9, 0);
    let writes = table([0, 1, 1], &[0], &[], &[vec![vec![constant(0, 0, 0)]]]);
    vectors.halt(&writes, &[3, 0], 8, 3, 0);
    vectors.close_at(&writes, &[3, 1], 12, 4);
    // Process 2 alone: it waits, then it is in err. s1: read 1, startP 2, next 3, constant 4, end 5, tout 6, write 7. s2: read 8,
    // constant 9, end 10, tout 11, err 12, skip 13, write 14. s3: read 15, constant 16, end 17, skip 18, write 19.
    let first = vec![vec![[6, 2, 0, 0, 2, 0], NEXT], vec![constant(0, 1, 0)]];
    let errs = table([0, 1, 0], &[], &[], &[first.clone(), vec![vec![tout(1, 2), ERR]]]);
    vectors.halt(&errs, &[2, 1], 8, 2, 0);
    vectors.close_at(&errs, &[3, 2], 19, 14);
    // The timer alone, of process 2, which is 1 after scans 2 and 6. s1: 1 to 7. s2: 8 to 12. s3: 13 to 17. s4 (the tout goes
    // on): 18 to 23. s5: 24 to 28. s6: 29 to 33.
    let waits = table([0, 1, 0], &[], &[], &[first, vec![vec![tout(3, 0)]]]);
    vectors.halt(&waits, &[3, 2], 8, 3, 0);
    vectors.halt(&waits, &[4, 3], 8, 4, 0);
    vectors.halt(&waits, &[5, 2], 8, 5, 0);
    vectors.close_at(&waits, &[6, 2], 33, 12);
}

/// "looked for before 5, and 5 before 7"
fn order_of_stops(vectors: &mut Vectors) {
    // "6 before 5": a reset with no timer as 65th action, and as 64th.
    let resets = |count: u16| {
        let mut bodies = after_48(updates_then(0, count, NEXT));
        bodies.push(vec![RESET]);
        table([0, 1, 0], &[], &[], &[bodies])
    };
    vectors.halt(&resets(15), &[2, 1], 6, 1, 1);
    vectors.halt(&resets(14), &[2, 1], 5, 1, 1);
    // The input is 1 in the last scan alone, which has a body that then has no rule or never ends. Scan 1 has so many states
    // more than the four of each.
    let longer = |more: u16, trap: Action| {
        let first = updates_then(1, more - 1, NEXT);
        table([1, 1, 0], &[], &[[0, 0, 1]], &[vec![first, vec![choose(2, 0), trap]]])
    };
    let inputs = |scans: u16| [vec![scans, 1], vec![0; scans as usize - 1], vec![1]].concat();
    // "5 before 7": the read of scan 1,024 is 4 * 1023 + 1 and so many more, the copy one further on, then the reset.
    vectors.halt(&longer(1, RESET), &inputs(1024), 5, 1024, 1);
    vectors.halt(&longer(2, RESET), &inputs(1024), 5, 1024, 1);
    vectors.halt(&longer(3, RESET), &inputs(1024), 7, 1024, 0);
    // 6 before 7: the read of scan 1,008 is 4,032 with 3 more, and its 64th action 4,096.
    vectors.halt(&longer(2, constant(1, 1, 2)), &inputs(1008), 6, 1008, 1);
    vectors.halt(&longer(3, constant(1, 1, 2)), &inputs(1008), 6, 1008, 1);
    vectors.halt(&longer(4, constant(1, 1, 2)), &inputs(1008), 7, 1008, 0);
    // "A 7 at the tenth action of a turn that would never end is 7": the read of scan 1,022 is 4,087.
    vectors.halt(&longer(2, constant(1, 1, 2)), &inputs(1022), 7, 1022, 0);
}

/// Every count at its limit: 32 variables, 32 tests, 8 processes of 8 active states of 16 actions; 1,365 scans of 32 inputs.
fn longest_codes(vectors: &mut Vectors) {
    let mut processes: Vec<Vec<Body>> = (1..=8).map(|process| vec![vec![constant(0, process, 0); 16]; 8]).collect();
    for other in 2..=8u16 {
        processes[0][0][other as usize - 2] = [6, other, 0, 0, other, 0];
    }
    // Process 8 goes to its last state, and from action 1 to action 16.
    processes[7][0][0] = [9, 8, 0, 0, 0, 0];
    processes[7][7][0] = constant(0, 7, 16);
    let tests: Vec<[u16; 3]> = (0..31).map(|variable| [0, variable, 8]).chain([[2, 8, 8]]).collect();
    // A scan: read, seven startP, constant and end, for processes 2 to 7 constant and end, set, two constants and end, write.
    vectors.close_at(&table([0, 1, 31], &[0; 31], &tests, &processes), &[2, 1], 54, 27);
    // Stop and skip in scan 1, a skip in each other. The inputs have a period of three scans.
    let stops = table([32, 0, 0], &[], &[[0, 0, 1], [0, 31, 32]], &[vec![vec![STOP]]]);
    let values = (1..=1365).flat_map(|scan: u16| (0..32).map(move |variable| scan % 3 + variable));
    let inputs: Vec<u16> = [1365, 1362].into_iter().chain(values).collect();
    vectors.close_at(&stops, &inputs, 4096, 4087);
}

// ---------------------------------------------------------------------------------------------------------------------
// Refusals of what is given
// ---------------------------------------------------------------------------------------------------------------------

fn bench_table() -> Vec<u8> {
    bytes_of_numbers(&BENCH_TABLE)
}

/// The bench table with another number at that index.
fn struck(index: usize, value: u16) -> Vec<u8> {
    let mut numbers = BENCH_TABLE;
    numbers[index] = value;
    bytes_of_numbers(&numbers)
}

const GOOD_INPUTS: &[u8] = &[3, 1, 0, 1, 0];
/// A return scan that is not below the scans.
const BAD_INPUTS: &[u8] = &[3, 3];

/// "A run checks: trace buffer under 20,480 bytes (10), table, inputs, scans."
fn rooms(vectors: &mut Vectors) {
    for room in [0, 1, 60, 20475, 20479] {
        for (table, inputs) in [(&bench_table()[..], GOOD_INPUTS), (&[33], BAD_INPUTS), (&[], &[])] {
            assert_eq!(vectors.run(table, inputs, room), refused(10, NEEDED));
        }
    }
    for room in [20480, 20481, 20485, 20499, 20500] {
        assert!(vectors.run(&bench_table(), GOOD_INPUTS, room).starts_with("closed 12 loop 4"));
        assert_eq!(vectors.run(&bench_table(), &[3, 1, 0, 1, 1], room), halted(8, 3, 0));
        assert_eq!(vectors.run(&[33], BAD_INPUTS, room), refused(2, 0));
        assert_eq!(vectors.run(&bench_table(), BAD_INPUTS, room), refused(2, 1));
    }
    // Inputs before scans: this table has no rule in scan 1.
    let no_rule = bytes_of_numbers(&table([0, 0, 0], &[], &[], &[vec![vec![RESET]]]));
    vectors.refuse(&no_rule, &[1, 1], 2, 1);
    assert_eq!(vectors.run(&no_rule, &[1, 0], NEEDED), halted(5, 1, 1));
}

/// Every number of the bench table missing, spelled wrongly and with values that are not allowed; the inputs are faulty too.
fn table_refusals(vectors: &mut Vectors) {
    for length in 0..BENCH_TABLE.len() {
        vectors.refuse(&bench_table()[..length], BAD_INPUTS, 1, length);
        for wrong in [&[0x80, 0x00][..], &[0x80, 0x80, 0x04], &[0x80, 0x80, 0x00], &[0xFF], &[0xFF, 0xFF]] {
            vectors.refuse(&[&bench_table()[..length], wrong].concat(), BAD_INPUTS, 1, length);
        }
    }
    vectors.refuse(&[&bench_table()[..], &[0]].concat(), BAD_INPUTS, 1, 20);
    let not_allowed: [(usize, &[u16]); 16] = [
        // "total 0 to 32"; "for each output its source, an internal variable"
        (0, &[33, 65535]),
        (1, &[32, 300]),
        (2, &[31, 32]),
        (3, &[0, 2, 3]),
        // "count of tests (0 to 32)", "kinds" 0 to 2, "variable a"
        (4, &[33, 128]),
        (5, &[3, 255]),
        (6, &[3, 32]),
        (9, &[3]),
        // "processes (1 to 8)", "active states (1 to 8)", "actions (1 to 16)"
        (11, &[0, 9]),
        (12, &[0, 9]),
        (13, &[0, 17]),
        // Op 10 in the last state.
        (14, &[0, 10, 13, 256]),
        // "x is internal"; "variable y"; guard, next-if, and next-else under guard 0
        (15, &[0, 2, 3]),
        (16, &[3]),
        (17, &[3, 33]),
        (18, &[2, 16]),
    ];
    for (index, values) in not_allowed {
        for value in values {
            vectors.refuse(&struck(index, *value), BAD_INPUTS, 2, index);
        }
    }
    vectors.refuse(&struck(19, 1), BAD_INPUTS, 2, 19);
    let with_action = |action: Action| [&bench_table()[..14], &bytes_of_numbers(&action)].concat();
    // "tout (x is the bound, 1 to 4,095)"; "x another process"; "x an active state"
    for (op, x) in [(4, 0), (4, 4096), (6, 0), (6, 1), (6, 2), (7, 0), (7, 1), (7, 2), (9, 0), (9, 2)] {
        vectors.refuse(&with_action([op, x, 0, 0, 0, 0]), BAD_INPUTS, 2, 15);
    }
    // "Unused fields are 0"
    for op in [5, 8, 11, 12] {
        for field in 1..6 {
            let mut action = [op, 0, 0, 0, 0, 0];
            action[field] = 1;
            vectors.refuse(&with_action(action), BAD_INPUTS, 2, 14 + field);
        }
    }
}

/// "then left-over bytes; then kind 2's a (1 to the process count) and b, left to right"
fn process_test_refusals(vectors: &mut Vectors) {
    let with_tests =
        |tests: &[[u16; 3]]| bytes_of_numbers(&table([0, 0, 0], &[], tests, &[vec![vec![STOP], vec![STOP]]]));
    for (a, b, place) in
        [(0, 0, 5), (2, 0, 5), (9, 9, 5), (1, 3, 6), (1, 8, 6), (1, 254, 6), (1, 256, 6), (1, 65535, 6)]
    {
        vectors.refuse(&with_tests(&[[2, a, b]]), &[1, 1], 2, place);
        let left_over = [with_tests(&[[2, a, b]]), vec![0]].concat();
        vectors.refuse(&left_over, &[1, 1], 1, left_over.len() - 1);
    }
    vectors.refuse(&with_tests(&[[2, 1, 0], [2, 1, 3], [2, 0, 0]]), &[1, 1], 2, 9);
    for b in [0, 1, 2, 255] {
        vectors.refuse(&with_tests(&[[2, 1, b]]), &[1, 1], 2, 1);
        assert!(vectors.run(&with_tests(&[[2, 1, b]]), &[2, 1], NEEDED).starts_with("closed 7 loop 4"));
    }
}

/// "Inputs: scans q (1 to 1,365), return scan b (below q), then one number per input variable per scan."
fn inputs_refusals(vectors: &mut Vectors) {
    for length in 0..GOOD_INPUTS.len() {
        vectors.refuse(&bench_table(), &GOOD_INPUTS[..length], 1, length);
        for wrong in [&[0x80, 0x00][..], &[0x80, 0x80, 0x04], &[0xFF, 0xFF]] {
            vectors.refuse(&bench_table(), &[&GOOD_INPUTS[..length], wrong].concat(), 1, length);
        }
    }
    vectors.refuse(&bench_table(), &[3, 1, 0, 1, 0, 0], 1, 5);
    for (inputs, place) in [(&[0, 0][..], 0), (&[1366, 0], 0), (&[65535], 0), (&[1, 1, 0], 1), (&[1365, 1365], 2)] {
        vectors.refuse(&bench_table(), &bytes_of_numbers(inputs), 2, place);
    }
    // No input variable, so nothing after the return scan; three, so three numbers a scan.
    let none = bytes_of_numbers(&table([0, 0, 0], &[], &[], &[vec![vec![STOP]]]));
    vectors.refuse(&none, &[2, 1, 0], 1, 2);
    let three = bytes_of_numbers(&table([3, 0, 0], &[], &[[0, 0, 1], [0, 1, 2], [0, 2, 300]], &[vec![vec![STOP]]]));
    vectors.refuse(&three, &[2, 1, 0, 0, 0, 0, 0], 1, 7);
    // "scan by scan"
    let scans = bytes_of_numbers(&[3, 2, 1, 2, 300, 300, 1, 2, 300, 1, 2]);
    assert_eq!(
        vectors.run(&three, &scans, NEEDED),
        closed(7, &trace("oiee oie oie", &[&range(1, 4), &range(1, 4), &range(1, 4)]))
    );
}

// ---------------------------------------------------------------------------------------------------------------------
// Random and damaged cases
// ---------------------------------------------------------------------------------------------------------------------

/// Small cases, and some of the larger ones.
fn random_cases(vectors: &mut Vectors) {
    let mut random = Random::new(SEED);
    let (mut small, mut large) = (0, 0);
    while small < SMALL_CASES || large < LARGE_CASES {
        let case = run_case(&mut random);
        let length = case.table.len() + case.inputs.len();
        if length <= SMALL && small < SMALL_CASES {
            random_case(vectors, &case);
            small += 1;
        } else if SMALL < length && length <= LARGE && large < LARGE_CASES {
            random_case(vectors, &case);
            large += 1;
        }
    }
}

fn random_case(vectors: &mut Vectors, case: &RunCase) {
    vectors.run(&case.table, &case.inputs, case.room);
}

/// Cases of any size up to the first that the rest of the program's input does not hold.
fn random_cases_alone(vectors: &mut Vectors, seed: u64) {
    let mut random = Random::new(seed);
    loop {
        let case = run_case(&mut random);
        let length = case.table.len().max(case.inputs.len());
        if length > u16::MAX as usize || vectors.stdin.len() + 7 + case.table.len() + case.inputs.len() >= INPUT_ROOM {
            return;
        }
        random_case(vectors, &case);
    }
}
