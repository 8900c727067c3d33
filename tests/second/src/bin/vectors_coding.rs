//! Writes what the program `vectors_coding` is run on and what it must print, by the second program alone.
//!
//!     vectors_coding FOLDER      writes FOLDER/stdin and FOLDER/stdout
//!
//! First document 01's own examples; then its limits and refusals, sentence by sentence; then random and damaged codes.
//! A case that is written out here carries the answer that its sentence gives, and the second program must give it too.

use std::fmt::Write;

use second::code::{bytes_of_numbers, fill};
use second::inputs::{read_inputs, write_inputs};
use second::number::{read_number, spelled};
use second::random::{self, Random};
use second::requirement::Which::{Translated, Untranslated};
use second::requirement::{check_requirement, read_requirement, write_requirement, Which};
use second::sheet::look_up;
use second::table::{read_table, write_table, MOST_PROCESSES};
use second::Refusal;
use Coded::{Inputs, Requirement, Table};

const SEED: u64 = 1;
const RANDOM_CASES: usize = 300;
/// So that the whole input stays small.
const MOST_RANDOM_BYTES: usize = 2500;

fn main() {
    let folder = std::env::args().nth(1).expect("FOLDER");
    let mut vectors = Vectors::default();
    paper_examples(&mut vectors);
    numbers(&mut vectors);
    tags(&mut vectors);
    requirement_faults(&mut vectors);
    requirement_limits(&mut vectors);
    tables(&mut vectors);
    inputs_records(&mut vectors);
    sheets(&mut vectors);
    let written_out = vectors.cases;
    random_cases(&mut vectors);
    assert!(vectors.stdin.len() <= 250_000, "the program's input is that long at most");
    std::fs::write(format!("{folder}/stdin"), &vectors.stdin).expect("stdin is written");
    std::fs::write(format!("{folder}/stdout"), &vectors.stdout).expect("stdout is written");
    println!("{} cases, {written_out} of them written out; {} bytes", vectors.cases, vectors.stdin.len());
}

// ---------------------------------------------------------------------------------------------------------------------
// Records and lines
// ---------------------------------------------------------------------------------------------------------------------

/// The size of the program's buffers, the most room that it lends.
const ROOM: usize = 8000;
/// What stands in its buffers before they are lent.
const BEFORE: u8 = 165;

/// A code that is read or written. "Inputs take the input count along"
#[derive(Clone, Copy)]
enum Coded {
    Requirement(Which),
    Table,
    Inputs(u16),
}

impl Coded {
    fn words(self) -> String {
        match self {
            Requirement(which) => which_words(which).to_string(),
            Table => "table".to_string(),
            Inputs(count) => format!("inputs {count}"),
        }
    }

    /// Its place among the commands that read, and among those that write.
    fn rank(self) -> u8 {
        match self {
            Requirement(Untranslated) => 0,
            Requirement(Translated) => 1,
            Table => 2,
            Inputs(_) => 3,
        }
    }

    fn along(self) -> usize {
        match self {
            Inputs(count) => count as usize,
            _ => 0,
        }
    }
}

fn which_words(which: Which) -> &'static str {
    match which {
        Untranslated => "requirement",
        Translated => "translated",
    }
}

fn refused(number: u16, place: usize) -> String {
    format!("refused {number} at {place}")
}

fn refusal_words(refusal: Refusal) -> String {
    refused(refusal.number(), refusal.place)
}

fn accepted(row: &[u16]) -> String {
    format!("accepted {}:{}", row.len(), row_words(row))
}

/// All of a short row; of one of more than 40 numbers the first and the last 20.
fn row_words(row: &[u16]) -> String {
    let mut words = String::new();
    for (index, value) in row.iter().enumerate() {
        if index < 20 || index + 20 >= row.len() {
            write!(words, " {value}").expect("a string takes all");
        } else if index == 20 {
            words.push_str(" ..");
        }
    }
    words
}

fn widened(bytes: &[u8]) -> Vec<u16> {
    bytes.iter().map(|byte| *byte as u16).collect()
}

/// Changes with every number of the row and with its place.
fn checksum(row: &[u16]) -> u64 {
    row.iter().fold(0, |sum, value| (sum * 257 + *value as u64) % 4294967291)
}

/// The records, and the line for each.
#[derive(Default)]
struct Vectors {
    stdin: Vec<u8>,
    stdout: String,
    cases: usize,
}

impl Vectors {
    fn record(&mut self, command: u8, along: usize, room: usize, data: &[u8], line: String) {
        self.stdin.push(command);
        for number in [along, room, data.len()] {
            self.stdin.extend(u16::try_from(number).expect("two bytes").to_le_bytes());
        }
        self.stdin.extend(data);
        self.stdout.push_str(&line);
        self.stdout.push('\n');
        self.cases += 1;
    }

    fn read_number(&mut self, bytes: &[u8], at: usize) -> String {
        let answer = match read_number(bytes, at) {
            Ok(number) => format!("accepted {} next {}", number.value, number.after),
            Err(refusal) => refusal_words(refusal),
        };
        self.record(0, at, 0, bytes, format!("read number at {at}: {answer}"));
        answer
    }

    fn write_number(&mut self, value: u16, room: usize) -> String {
        let mut buffer = [BEFORE; ROOM];
        let lent = room.min(ROOM);
        let answer = stored(fill(&spelled(value), &mut buffer[..lent]), &widened(&buffer));
        let sum = checksum(&widened(&buffer));
        self.record(1, value as usize, room, &[], format!("write number {value} room {lent}: {answer}; buffer {sum}"));
        answer
    }

    fn check(&mut self, which: Which, bytes: &[u8]) -> String {
        let answer = match check_requirement(second::Code::Bytes(bytes), which) {
            Ok(requirement) => format!("nodes {} depth {}", requirement.node_count, requirement.depth),
            Err(refusal) => refusal_words(refusal),
        };
        let command = 2 + Requirement(which).rank();
        self.record(command, 0, 0, bytes, format!("check {}: {answer}", which_words(which)));
        answer
    }

    fn read(&mut self, coded: Coded, room: usize, bytes: &[u8]) -> String {
        let mut buffer = [BEFORE as u16; ROOM];
        let lent = room.min(ROOM);
        let out = &mut buffer[..lent];
        let count = match coded {
            Requirement(which) => read_requirement(bytes, which, out),
            Table => read_table(bytes, out),
            Inputs(count) => read_inputs(bytes, count as usize, out),
        };
        let answer = stored(count, &buffer);
        let line = format!("read {} room {lent}: {answer}; buffer {}", coded.words(), checksum(&buffer));
        self.record(4 + coded.rank(), coded.along(), room, bytes, line);
        answer
    }

    fn write(&mut self, coded: Coded, room: usize, numbers: &[u16]) -> String {
        assert!(numbers.len() <= ROOM, "the program takes no more");
        let mut buffer = [BEFORE; ROOM];
        let lent = room.min(ROOM);
        let out = &mut buffer[..lent];
        let count = match coded {
            Requirement(which) => write_requirement(numbers, which, out),
            Table => write_table(numbers, out),
            Inputs(count) => write_inputs(numbers, count as usize, out),
        };
        let answer = stored(count, &widened(&buffer));
        let data: Vec<u8> = numbers.iter().flat_map(|number| number.to_le_bytes()).collect();
        let line = format!("write {} room {lent}: {answer}; buffer {}", coded.words(), checksum(&widened(&buffer)));
        self.record(8 + coded.rank(), coded.along(), room, &data, line);
        answer
    }

    fn look_up(&mut self, sheet: &[u8], name: &[u8]) -> String {
        let (answer, body) = match look_up(sheet, name) {
            Ok(body) => (format!("body from {} to {}", body.begin, body.end), &sheet[body.begin..body.end]),
            Err(refusal) => (refusal_words(refusal), &[][..]),
        };
        assert!(body.len() <= ROOM, "the program takes no more");
        let mut row = [0; ROOM];
        row[..body.len()].copy_from_slice(&widened(body));
        let bytes = format!("bytes {}:{}; sum {}", body.len(), row_words(&widened(body)), checksum(&row));
        let data = [name, sheet].concat();
        self.record(12, name.len(), 0, &data, format!("sheet, name of {}: {answer}; {bytes}", name.len()));
        answer
    }

    /// A code that is accepted. "Reading and writing undo each other."
    fn accept(&mut self, coded: Coded, numbers: &[u16]) {
        let bytes = bytes_of_numbers(numbers);
        assert_eq!(self.read(coded, ROOM, &bytes), accepted(numbers));
        assert_eq!(self.write(coded, ROOM, numbers), accepted(&widened(&bytes)));
    }

    /// A code that is refused at the number with that index. "The writer has the reader's refusals, their place the
    /// number's index."
    fn refuse(&mut self, coded: Coded, numbers: &[u16], number: u16, index: usize) {
        let place = bytes_of_numbers(&numbers[..index]).len();
        assert_eq!(self.read(coded, ROOM, &bytes_of_numbers(numbers)), refused(number, place));
        assert_eq!(self.write(coded, ROOM, numbers), refused(number, index));
    }

    /// Bytes that are refused as a code.
    fn refuse_bytes(&mut self, coded: Coded, bytes: &[u8], number: u16, place: usize) {
        assert_eq!(self.read(coded, ROOM, bytes), refused(number, place));
    }
}

/// The answer of a reader or a writer, with what it stored.
fn stored(count: Result<usize, Refusal>, buffer: &[u16]) -> String {
    match count {
        Ok(count) => accepted(&buffer[..count]),
        Err(refusal) => refusal_words(refusal),
    }
}

// ---------------------------------------------------------------------------------------------------------------------
// Document 01's own examples
// ---------------------------------------------------------------------------------------------------------------------

const BENCH_TABLE: [u16; 20] = [1, 1, 1, 1, 2, 0, 0, 1, 0, 2, 1, 1, 1, 1, 2, 1, 0, 0, 0, 0];
const BENCH_INPUTS: [u16; 5] = [3, 1, 0, 1, 0];
/// "not(a0 and not a1)"
const M1: [u16; 7] = [1, 2, 0, 0, 1, 0, 1];
const M11: [u16; 13] = [11, 1, 3, 2, 3, 8, 11, 1, 3, 2, 3, 0, 1];

fn paper_examples(vectors: &mut Vectors) {
    // "0 is 00; 127 is 7F; 128 is 80 01; 300 is AC 02; 65,535 is FF FF 03." and "M12 300 is AC 02."
    let spellings: [(u16, &[u8]); 5] =
        [(0, &[0x00]), (127, &[0x7F]), (128, &[0x80, 0x01]), (300, &[0xAC, 0x02]), (65535, &[0xFF, 0xFF, 0x03])];
    for (value, bytes) in spellings {
        assert_eq!(vectors.read_number(bytes, 0), format!("accepted {value} next {}", bytes.len()));
        assert_eq!(vectors.write_number(value, ROOM), accepted(&widened(bytes)));
    }
    // "80 00 and 80 80 04 are refused; a third byte above 03 is too large."
    for bytes in [&[0x80, 0x00][..], &[0x80, 0x80, 0x04], &[0xFF, 0xFF, 0x04]] {
        assert_eq!(vectors.read_number(bytes, 0), refused(1, 0));
    }
    // "Table: 1 1 1 1 2 0 0 1 0 2 1 1 1 1 2 1 0 0 0 0 (20 bytes)."
    vectors.accept(Table, &BENCH_TABLE);
    // "Inputs: 3 1 0 1 0."
    vectors.accept(Inputs(1), &BENCH_INPUTS);
    // "1 2 0 0 1 0 1, not(a0 and not a1)": M1
    vectors.accept(Requirement(Untranslated), &M1);
    assert_eq!(vectors.check(Untranslated, &bytes_of_numbers(&M1)), "nodes 5 depth 4");
    // "M11 X^i a1 translates to 11 1 3 2 3 8 11 1 3 2 3 0 1."
    vectors.accept(Requirement(Translated), &M11);
    assert_eq!(vectors.check(Translated, &bytes_of_numbers(&M11)), "nodes 12 depth 6");
    marked_requirements(vectors);
    // "Tags are numbers of the coding: AC 02 is refusal 3 at its first byte."
    vectors.refuse(Requirement(Untranslated), &[1, 300], 3, 1);
    // "`14 0D 00` is 2 at 1"
    vectors.refuse(Table, &[0x14, 0x0D, 0x00], 2, 1);
    // "An empty requirement is 1 at 0."
    vectors.refuse(Requirement(Untranslated), &[], 1, 0);
}

/// The requirements of M2 to M10.
fn marked_requirements(vectors: &mut Vectors) {
    let marked: [(&[u16], &str); 8] = [
        // "M2 G^i not(a0 and not X^i a1)"
        (&[18, 1, 2, 0, 0, 1, 16, 0, 1], "nodes 7 depth 6"),
        // "M3 plain G of M1's requirement", "M4 its G^o"
        (&[10, 1, 2, 0, 0, 1, 0, 1], "nodes 6 depth 5"),
        (&[22, 1, 2, 0, 0, 1, 0, 1], "nodes 6 depth 5"),
        // "M5 X^i a1", "M6 X^i a1"
        (&[16, 0, 1], "nodes 2 depth 2"),
        // "M7 G^e a0", "M9 G^e a0 [...], F^e a0", "M10 X^e a0"
        (&[14, 0, 0], "nodes 2 depth 2"),
        (&[13, 0, 0], "nodes 2 depth 2"),
        (&[12, 0, 0], "nodes 2 depth 2"),
        // "a lone atom has depth 1"
        (&[0, 0], "nodes 1 depth 1"),
    ];
    for (numbers, wanted) in marked {
        vectors.accept(Requirement(Untranslated), numbers);
        assert_eq!(vectors.check(Untranslated, &bytes_of_numbers(numbers)), wanted);
    }
}

// ---------------------------------------------------------------------------------------------------------------------
// Numbers
// ---------------------------------------------------------------------------------------------------------------------

fn numbers(vectors: &mut Vectors) {
    // "shortest form only": the least and the greatest number of two groups, and of three
    for (value, size) in [(16383, 2), (16384, 3)] {
        assert_eq!(vectors.read_number(&spelled(value), 0), format!("accepted {value} next {size}"));
    }
    // "A number that is missing stands where it should begin: at the end of the bytes"
    assert_eq!(vectors.read_number(&[], 0), refused(1, 0));
    assert_eq!(vectors.read_number(&[1, 2], 2), refused(1, 2));
    assert_eq!(vectors.read_number(&[1, 2], 5), refused(1, 5));
    // "number cut short": "a number's fault stands at its first byte"
    assert_eq!(vectors.read_number(&[0x80], 0), refused(1, 0));
    assert_eq!(vectors.read_number(&[7, 0xFF, 0xFF], 1), refused(1, 1));
    // "not shortest"
    assert_eq!(vectors.read_number(&[7, 0xFF, 0x00], 1), refused(1, 1));
    assert_eq!(vectors.read_number(&[0x80, 0x80, 0x00], 0), refused(1, 0));
    // "over 65,535"
    assert_eq!(vectors.read_number(&[7, 0x80, 0x80, 0x80, 0x00], 1), refused(1, 1));
    assert_eq!(vectors.read_number(&[0xFF, 0xFF, 0xFF, 0x01], 0), refused(1, 0));
    // A number may have others before and behind it.
    assert_eq!(vectors.read_number(&[0x80, 0xAC, 0x02, 0x80], 1), "accepted 300 next 3");
    // "10 | a lent buffer too short | bytes needed"
    for (value, size) in [(127, 1), (128, 2), (16383, 2), (16384, 3), (65535, 3)] {
        assert_eq!(vectors.write_number(value, size - 1), refused(10, size));
        assert_eq!(vectors.write_number(value, size), accepted(&widened(&spelled(value))));
    }
    assert_eq!(vectors.write_number(65535, 0), refused(10, 3));
}

// ---------------------------------------------------------------------------------------------------------------------
// Requirements
// ---------------------------------------------------------------------------------------------------------------------

fn tags(vectors: &mut Vectors) {
    // "0 atom [...]; 1 not; 2 and; marks 3 Input, 4 Exe, 5 Output; plain X, F, G, U 8 to 11; e operators 12 to 15,
    // i 16 to 19, o 20 to 23"; every other tag is unknown. "A translated requirement has tags up to 11 only"
    for tag in 0..=24 {
        let code: &[u16] = match tag {
            0 => &[0, 31],
            3 | 4 | 5 => &[tag],
            2 | 11 | 15 | 19 | 23 => &[tag, 3, 4],
            _ => &[tag, 5],
        };
        for (which, highest) in [(Untranslated, 23), (Translated, 11)] {
            if tag == 6 || tag == 7 || tag > highest {
                vectors.refuse(Requirement(which), code, 3, 0);
            } else {
                vectors.accept(Requirement(which), code);
            }
        }
    }
}

fn requirement_faults(vectors: &mut Vectors) {
    let requirement = Requirement(Untranslated);
    let translated = Requirement(Translated);
    // "3 | [...] atom above 31": "at that number"
    vectors.refuse(requirement, &[0, 32], 3, 1);
    vectors.refuse(translated, &[1, 0, 32], 3, 2);
    vectors.refuse(requirement, &[2, 3, 0, 65535], 3, 3);
    // "1 | number cut short or missing [...]"
    vectors.refuse(requirement, &[0], 1, 1);
    vectors.refuse(requirement, &[1], 1, 1);
    vectors.refuse(requirement, &[2, 0, 0], 1, 3);
    vectors.refuse_bytes(requirement, &[1, 0x80, 0x00], 1, 1);
    vectors.refuse_bytes(requirement, &[0, 0xFF], 1, 1);
    vectors.refuse_bytes(translated, &[2, 3, 0x80, 0x80, 0x04], 1, 2);
    // "left-over bytes at the first of them"; "After a complete requirement anything more is left over"
    vectors.refuse(requirement, &[0, 0, 0], 1, 2);
    vectors.refuse(requirement, &[3, 6], 1, 1);
    vectors.refuse_bytes(translated, &[1, 4, 0x80], 1, 2);
    // "Codes are read left to right and the first fault counts"
    vectors.refuse(requirement, &[2, 6, 7], 3, 1);
    vectors.refuse(requirement, &[2, 0, 40, 6], 3, 2);
    rooms(vectors, requirement, &M1);
    rooms(vectors, translated, &M11);
    // "In both 10 comes last"
    assert_eq!(vectors.read(requirement, 0, &[0, 0, 0]), refused(1, 2));
    assert_eq!(vectors.write(requirement, 1, &[2, 3, 24]), refused(3, 2));
}

/// "In both 10 comes last (for the reader: numbers needed); the rest of the buffer is unchanged."
fn rooms(vectors: &mut Vectors, coded: Coded, numbers: &[u16]) {
    let bytes = bytes_of_numbers(numbers);
    assert_eq!(vectors.read(coded, numbers.len() - 1, &bytes), refused(10, numbers.len()));
    assert_eq!(vectors.read(coded, 0, &bytes), refused(10, numbers.len()));
    assert_eq!(vectors.read(coded, numbers.len(), &bytes), accepted(numbers));
    assert_eq!(vectors.read(coded, numbers.len() + 1, &bytes), accepted(numbers));
    assert_eq!(vectors.write(coded, bytes.len() - 1, numbers), refused(10, bytes.len()));
    assert_eq!(vectors.write(coded, 0, numbers), refused(10, bytes.len()));
    assert_eq!(vectors.write(coded, bytes.len(), numbers), accepted(&widened(&bytes)));
    assert_eq!(vectors.write(coded, bytes.len() + 1, numbers), accepted(&widened(&bytes)));
}

/// A requirement of so many nodes and of small depth, each node one number: node k has index k - 1.
fn bushy(nodes: usize) -> Vec<u16> {
    if nodes == 1 {
        return vec![3];
    }
    if nodes % 2 == 0 {
        return [vec![1], bushy(nodes - 1)].concat();
    }
    let first = (nodes - 1) / 2;
    [vec![2], bushy(first), bushy(nodes - 1 - first)].concat()
}

/// So many operators over one node, and then the given numbers.
fn under(operators: usize, numbers: &[u16]) -> Vec<u16> {
    [vec![1; operators], numbers.to_vec()].concat()
}

fn requirement_limits(vectors: &mut Vectors) {
    // "At most 64 nodes, depth 16 (a lone atom has depth 1)"; "at most 704 nodes, depth 76"
    for (which, nodes, depth) in [(Untranslated, 64, 16), (Translated, 704, 76)] {
        let coded = Requirement(which);
        vectors.accept(coded, &bushy(nodes));
        let words = vectors.check(which, &bytes_of_numbers(&bushy(nodes)));
        assert!(words.starts_with(&format!("nodes {nodes} ")));
        vectors.accept(coded, &under(depth - 1, &[0, 31]));
        let words = vectors.check(which, &bytes_of_numbers(&under(depth - 1, &[0, 31])));
        assert_eq!(words, format!("nodes {depth} depth {depth}"));
        // "4 | node or depth limit passed, at that node's tag"
        vectors.refuse(coded, &bushy(nodes + 1), 4, nodes);
        vectors.refuse(coded, &under(depth, &[5]), 4, depth);
        // "the 65th (or 705th) node's tag that is missing is 1, unknown is 3, else 4"
        vectors.refuse(coded, &bushy(nodes + 1)[..nodes], 1, nodes);
        vectors.refuse(coded, &[&bushy(nodes + 1)[..nodes], &[24]].concat(), 3, nodes);
        vectors.refuse(coded, &under(depth, &[]), 1, depth);
        vectors.refuse(coded, &under(depth, &[6]), 3, depth);
        let cut = [bytes_of_numbers(&under(depth, &[])), vec![0x80, 0x00]].concat();
        vectors.refuse_bytes(coded, &cut, 1, depth);
        // "An atom's number above 31 is 3 at that number, so a limit passed at the atom's tag comes first."
        vectors.refuse(coded, &under(depth, &[0, 32]), 4, depth);
        vectors.refuse(coded, &under(depth, &[0]), 4, depth);
        vectors.refuse(coded, &under(depth - 1, &[0, 32]), 3, depth);
        // "After a complete requirement anything more is left over, 1."
        vectors.refuse(coded, &[&bushy(nodes)[..], &[3]].concat(), 1, nodes);
    }
    // A limit is passed in the second operand too, and by the depth of the first nothing is used up.
    vectors.refuse(Requirement(Untranslated), &[vec![2], under(14, &[3]), under(15, &[3])].concat(), 4, 31);
    vectors.accept(Requirement(Untranslated), &[vec![2], under(14, &[3]), under(14, &[3])].concat());
    // "the caller says which of the two is read"
    vectors.accept(Requirement(Translated), &bushy(65));
    vectors.accept(Requirement(Translated), &under(16, &[5]));
}

// ---------------------------------------------------------------------------------------------------------------------
// Tables
// ---------------------------------------------------------------------------------------------------------------------

/// A table of one stopping process, with these counts of variables.
fn with_variables(inputs: u16, internals: u16, outputs: u16) -> Vec<u16> {
    let mut numbers = vec![inputs, internals, outputs];
    numbers.extend(vec![inputs; outputs as usize]);
    numbers.extend([0, 1, 1, 1, 11, 0, 0, 0, 0, 0]);
    numbers
}

/// A table that is accepted and has each of the twelve ops.
fn every_op() -> Vec<u16> {
    [
        // One input, variable 0; two internal ones, 1 and 2; one output, 3, whose source is 1.
        &[1, 2, 1, 1][..],
        // Three tests: variable 0 equals 300; variable 3 exceeds 65,535; process 1 is in state 2.
        &[3, 0, 0, 300, 1, 3, 65535, 2, 1, 2],
        // Two processes, the first of two states, the first of these of twelve actions.
        &[2, 2, 12],
        &[1, 1, 65535, 1, 2, 3],
        &[2, 2, 3, 2, 12, 0],
        &[3, 1, 1, 3, 12, 1],
        &[4, 4095, 0, 0, 5, 0],
        &[5, 0, 0, 0, 0, 0],
        &[6, 2, 0, 1, 7, 12],
        &[7, 2, 0, 0, 8, 0],
        &[8, 0, 0, 0, 0, 0],
        &[9, 2, 0, 0, 0, 0],
        &[10, 0, 0, 0, 0, 0],
        &[11, 0, 0, 0, 0, 0],
        &[12, 0, 0, 0, 0, 0],
        // State 2 of one action.
        &[1, 1, 2, 7, 0, 0, 0],
        // The second process, of one state of one action.
        &[1, 1, 12, 0, 0, 0, 0, 0],
    ]
    .concat()
}

/// Where numbers of that table stand.
const TESTS: usize = 4;
const PROCESSES: usize = 14;
const STATES: usize = 15;
const ACTIONS: usize = 16;
const LAST_STATE_OP: usize = 90;
const ONLY_STATE_OP: usize = 98;

/// The op of the action with that op, followed by x, y, guard, next-if and next-else.
fn op_index(op: usize) -> usize {
    17 + 6 * (op - 1)
}

const X: usize = 1;
const Y: usize = 2;
const GUARD: usize = 3;
const NEXT_IF: usize = 4;
const NEXT_ELSE: usize = 5;

/// The ops that "use guard and nexts".
const GUARDED: [usize; 6] = [1, 2, 3, 4, 6, 7];
const UNGUARDED: [usize; 6] = [5, 8, 9, 10, 11, 12];

fn changed(numbers: &[u16], changes: &[(usize, u16)]) -> Vec<u16> {
    let mut numbers = numbers.to_vec();
    for (index, value) in changes {
        numbers[*index] = *value;
    }
    numbers
}

/// That table with one number changed to each of the values is refused there.
fn refuse_values(vectors: &mut Vectors, index: usize, values: &[u16]) {
    for value in values {
        vectors.refuse(Table, &changed(&every_op(), &[(index, *value)]), 2, index);
    }
}

fn accept_values(vectors: &mut Vectors, index: usize, values: &[u16]) {
    for value in values {
        vectors.accept(Table, &changed(&every_op(), &[(index, *value)]));
    }
}

fn tables(vectors: &mut Vectors) {
    vectors.accept(Table, &every_op());
    table_variables(vectors);
    table_tests(vectors);
    table_sizes(vectors);
    action_ops_and_xs(vectors);
    action_ys_guards_and_nexts(vectors);
    table_process_tests(vectors);
    table_ends(vectors);
}

fn table_variables(vectors: &mut Vectors) {
    // "counts of input, internal and output variables (total 0 to 32 [...])"
    for (inputs, internals, outputs) in [(0, 0, 0), (32, 0, 0), (0, 32, 0), (0, 1, 31), (1, 30, 1), (20, 12, 0)] {
        vectors.accept(Table, &with_variables(inputs, internals, outputs));
    }
    // "the fault stands at the first count with which the running total passes 32"
    vectors.refuse(Table, &with_variables(33, 0, 0), 2, 0);
    vectors.refuse(Table, &with_variables(32, 1, 0), 2, 1);
    vectors.refuse(Table, &with_variables(0, 33, 0), 2, 1);
    vectors.refuse(Table, &with_variables(1, 30, 2), 2, 2);
    vectors.refuse(Table, &with_variables(0, 1, 32), 2, 2);
    // No sum of counts goes round at 65,536.
    vectors.refuse(Table, &[65535, 1, 0], 2, 0);
    vectors.refuse(Table, &[1, 65535, 0], 2, 1);
    vectors.refuse(Table, &[1, 1, 65534], 2, 2);
    // "for each output its source, an internal variable": no input and no output
    accept_values(vectors, 3, &[2]);
    refuse_values(vectors, 3, &[0, 3, 4, 65535]);
    vectors.refuse(Table, &with_variables(1, 0, 1), 2, 3);
}

fn table_tests(vectors: &mut Vectors) {
    // "count of tests (0 to 32), each as kind, a, b"
    let head = [1, 0, 0];
    let tail = [1, 1, 1, 11, 0, 0, 0, 0, 0];
    for count in [0, 1, 32] {
        vectors.accept(Table, &[&head[..], &[count], &[0, 0, 5].repeat(count as usize), &tail].concat());
    }
    vectors.refuse(Table, &[&head[..], &[33], &[0, 0, 5].repeat(33), &tail].concat(), 2, 3);
    // "kind 0 to 2"
    refuse_values(vectors, TESTS + 1, &[3, 255]);
    // "0 variable a equals the number b; 1 variable a exceeds the number b": "a variable below the total"
    accept_values(vectors, TESTS + 2, &[1, 3]);
    refuse_values(vectors, TESTS + 2, &[4]);
    refuse_values(vectors, TESTS + 5, &[4, 65535]);
    // b is any number.
    accept_values(vectors, TESTS + 3, &[0, 65535]);
    accept_values(vectors, TESTS + 6, &[0]);
}

/// A table of so many processes, each of so many states, each of so many actions.
fn of_size(processes: u16, states: u16, actions: u16) -> Vec<u16> {
    let body = [vec![actions], [12, 0, 0, 0, 0, 0].repeat(actions as usize)].concat();
    let process = [vec![states], body.repeat(states as usize)].concat();
    [vec![0, 0, 0, 0, processes], process.repeat(processes as usize)].concat()
}

fn table_sizes(vectors: &mut Vectors) {
    // "processes (1 to 8)"
    vectors.accept(Table, &of_size(8, 1, 1));
    vectors.refuse(Table, &of_size(9, 1, 1), 2, 4);
    vectors.refuse(Table, &of_size(0, 1, 1), 2, 4);
    refuse_values(vectors, PROCESSES, &[0, 9]);
    // "for each its active states (1 to 8)"
    vectors.accept(Table, &of_size(1, 8, 1));
    vectors.refuse(Table, &of_size(1, 9, 1), 2, 5);
    refuse_values(vectors, STATES, &[0, 9]);
    // "for each of those its actions (1 to 16)"
    vectors.accept(Table, &of_size(1, 1, 16));
    vectors.refuse(Table, &of_size(1, 1, 17), 2, 6);
    refuse_values(vectors, ACTIONS, &[0, 17]);
    // All the limits at once: 32 variables, 32 tests, 8 processes of 8 states of 16 actions.
    let full = random::full_table(&mut Random::new(SEED), MOST_PROCESSES);
    vectors.accept(Table, &full);
    let bytes = bytes_of_numbers(&full);
    assert_eq!(vectors.read(Table, full.len() - 1, &bytes), refused(10, full.len()));
}

fn action_ops_and_xs(vectors: &mut Vectors) {
    // "op 1 to 12"
    refuse_values(vectors, op_index(1), &[0, 13, 65535]);
    // "10 next (not in the last state)": "a fault of the op's own number"
    refuse_values(vectors, LAST_STATE_OP, &[10]);
    refuse_values(vectors, ONLY_STATE_OP, &[10]);
    // "x is internal"
    for op in [1, 2, 3] {
        accept_values(vectors, op_index(op) + X, &[1, 2]);
        refuse_values(vectors, op_index(op) + X, &[0, 3]);
    }
    // "Op 4 tout (x is the bound, 1 to 4,095)"
    accept_values(vectors, op_index(4) + X, &[1]);
    refuse_values(vectors, op_index(4) + X, &[0, 4096]);
    // "6 startP and 7 stopP (x another process)"
    for op in [6, 7] {
        refuse_values(vectors, op_index(op) + X, &[0, 1, 3]);
    }
    vectors.accept(Table, &changed(&every_op(), &[(ONLY_STATE_OP, 7), (ONLY_STATE_OP + X, 1)]));
    vectors.refuse(Table, &changed(&every_op(), &[(ONLY_STATE_OP, 7), (ONLY_STATE_OP + X, 2)]), 2, ONLY_STATE_OP + X);
    // "9 set (x an active state)"
    accept_values(vectors, op_index(9) + X, &[1]);
    refuse_values(vectors, op_index(9) + X, &[0, 3]);
    // "Unused fields are 0"
    for op in [5, 8, 10, 11, 12] {
        refuse_values(vectors, op_index(op) + X, &[1]);
    }
}

fn action_ys_guards_and_nexts(vectors: &mut Vectors) {
    // "op 1, x takes the number y", "3, x takes its own value plus y"
    accept_values(vectors, op_index(1) + Y, &[0]);
    accept_values(vectors, op_index(3) + Y, &[65535]);
    // "2, x takes variable y": "any variable, x itself and outputs too"
    accept_values(vectors, op_index(2) + Y, &[0, 2]);
    refuse_values(vectors, op_index(2) + Y, &[4]);
    // "Unused fields are 0"
    for op in 4..=12 {
        refuse_values(vectors, op_index(op) + Y, &[1]);
    }
    // "Ops 1 to 4, 6 and 7 use guard and nexts": "guard up to the test count, next up to the body's action count"
    for op in GUARDED {
        refuse_values(vectors, op_index(op) + GUARD, &[4]);
        refuse_values(vectors, op_index(op) + NEXT_IF, &[13]);
        let guarded = [(op_index(op) + GUARD, 3), (op_index(op) + NEXT_IF, 12), (op_index(op) + NEXT_ELSE, 12)];
        vectors.accept(Table, &changed(&every_op(), &guarded));
        let past = changed(&every_op(), &[(op_index(op) + GUARD, 1), (op_index(op) + NEXT_ELSE, 13)]);
        vectors.refuse(Table, &past, 2, op_index(op) + NEXT_ELSE);
        // "under guard 0, next-else is 0"
        let unguarded = changed(&every_op(), &[(op_index(op) + GUARD, 0), (op_index(op) + NEXT_ELSE, 1)]);
        vectors.refuse(Table, &unguarded, 2, op_index(op) + NEXT_ELSE);
    }
    for op in UNGUARDED {
        for field in [GUARD, NEXT_IF, NEXT_ELSE] {
            refuse_values(vectors, op_index(op) + field, &[1]);
        }
    }
    // A body's own count: state 2 has one action.
    accept_values(vectors, LAST_STATE_OP + NEXT_IF, &[1]);
    refuse_values(vectors, LAST_STATE_OP + NEXT_IF, &[2]);
}

/// "then kind 2's a (1 to the process count) and b, left to right."
fn table_process_tests(vectors: &mut Vectors) {
    let a = TESTS + 8;
    let b = TESTS + 9;
    refuse_values(vectors, a, &[0, 3, 65535]);
    // "b (0 stop, 1 upward active, 255 err)": "b is 0, 255 or at most that process's own count of active states"
    accept_values(vectors, b, &[0, 1, 255]);
    refuse_values(vectors, b, &[3, 254, 256]);
    vectors.accept(Table, &changed(&every_op(), &[(a, 2), (b, 1)]));
    vectors.refuse(Table, &changed(&every_op(), &[(a, 2), (b, 2)]), 2, b);
    // "not looked at until after left-over bytes, not even a = 0"
    let left_over = [changed(&every_op(), &[(a, 0)]), vec![0]].concat();
    vectors.refuse(Table, &left_over, 1, every_op().len());
    vectors.refuse(Table, &changed(&every_op(), &[(a, 0), (ONLY_STATE_OP, 13)]), 2, ONLY_STATE_OP);
    vectors.refuse(Table, &changed(&every_op(), &[(a, 0)])[..50], 1, 50);
    // "then test by test, a before b"
    vectors.refuse(Table, &changed(&every_op(), &[(a, 0), (b, 3)]), 2, a);
    let two = [(TESTS + 1, 2), (TESTS + 2, 1), (TESTS + 3, 9), (a, 0)];
    vectors.refuse(Table, &changed(&every_op(), &two), 2, TESTS + 3);
}

fn table_ends(vectors: &mut Vectors) {
    // "number cut short or missing": "where it should begin: at the end of the bytes (writer: the count of numbers)"
    for length in 0..BENCH_TABLE.len() {
        vectors.refuse(Table, &BENCH_TABLE[..length], 1, length);
    }
    // "bytes left over"
    vectors.refuse(Table, &[&BENCH_TABLE[..], &[0]].concat(), 1, BENCH_TABLE.len());
    // "not shortest, over 65,535": "a number's fault stands at its first byte"
    vectors.refuse_bytes(Table, &[1, 1, 0x81, 0x00], 1, 2);
    vectors.refuse_bytes(Table, &[1, 1, 1, 0x80, 0x80, 0x04], 1, 3);
    vectors.refuse_bytes(Table, &[1, 1, 1, 1, 2, 0, 0, 0xFF], 1, 7);
    rooms(vectors, Table, &BENCH_TABLE);
    rooms(vectors, Table, &every_op());
    // "In both 10 comes last"
    let wrong = changed(&every_op(), &[(TESTS + 8, 0)]);
    assert_eq!(vectors.write(Table, 0, &wrong), refused(2, TESTS + 8));
    assert_eq!(vectors.read(Table, 0, &bytes_of_numbers(&BENCH_TABLE[..3])), refused(1, 3));
}

// ---------------------------------------------------------------------------------------------------------------------
// Inputs
// ---------------------------------------------------------------------------------------------------------------------

fn inputs_records(vectors: &mut Vectors) {
    // "above 32 is refusal 2 at 0, first"
    vectors.refuse(Inputs(33), &[1, 0], 2, 0);
    vectors.refuse(Inputs(33), &[], 2, 0);
    vectors.refuse(Inputs(65535), &[0, 0], 2, 0);
    vectors.accept(Inputs(32), &[vec![1, 0], vec![7; 32]].concat());
    // "scans q (1 to 1,365)"
    vectors.refuse(Inputs(1), &[0, 0], 2, 0);
    vectors.accept(Inputs(0), &[1, 0]);
    vectors.accept(Inputs(0), &[1365, 1364]);
    vectors.accept(Inputs(1), &[vec![1365, 0], vec![1; 1365]].concat());
    vectors.refuse(Inputs(0), &[1366, 0], 2, 0);
    vectors.refuse(Inputs(1), &[vec![1366, 0], vec![1; 1366]].concat(), 2, 0);
    vectors.refuse(Inputs(0), &[65535, 0], 2, 0);
    // "return scan b (below q)"
    vectors.accept(Inputs(2), &[3, 2, 1, 2, 3, 4, 5, 6]);
    vectors.refuse(Inputs(2), &[3, 3, 1, 2, 3, 4, 5, 6], 2, 1);
    vectors.refuse(Inputs(0), &[1, 1], 2, 1);
    vectors.refuse(Inputs(0), &[300, 300], 2, 1);
    // "then one number per input variable per scan": any number, and none too few
    vectors.accept(Inputs(3), &[2, 0, 0, 127, 128, 16383, 16384, 65535]);
    for length in 0..8 {
        vectors.refuse(Inputs(3), &[2, 0, 0, 127, 128, 16383, 16384, 65535][..length], 1, length);
    }
    vectors.refuse_bytes(Inputs(1), &[2, 1, 0xAC, 0x02, 0xAC], 1, 4);
    vectors.refuse_bytes(Inputs(1), &[0x81, 0x00, 0, 5], 1, 0);
    // "bytes left over"
    vectors.refuse(Inputs(0), &[5, 4, 0], 1, 2);
    vectors.refuse(Inputs(1), &[&BENCH_INPUTS[..], &[0]].concat(), 1, BENCH_INPUTS.len());
    rooms(vectors, Inputs(1), &BENCH_INPUTS);
    rooms(vectors, Inputs(3), &[2, 0, 0, 127, 128, 16383, 16384, 65535]);
    // "In both 10 comes last"
    assert_eq!(vectors.read(Inputs(33), 0, &[1, 0]), refused(2, 0));
    assert_eq!(vectors.write(Inputs(0), 1, &[1, 1]), refused(2, 1));
    // All the limits at once: 1,365 scans of 32 inputs.
    let full = [vec![1365, 1364], vec![9; 1365 * 32]].concat();
    assert_eq!(vectors.read(Inputs(32), ROOM, &bytes_of_numbers(&full)), refused(10, full.len()));
}

// ---------------------------------------------------------------------------------------------------------------------
// Sheets
// ---------------------------------------------------------------------------------------------------------------------

/// "count (0 to 32), then name length (1 to 16), name, body length, body"
fn sheet(entries: &[(&[u8], &[u8])]) -> Vec<u8> {
    let mut bytes = spelled(entries.len() as u16);
    for (name, body) in entries {
        bytes.extend(spelled(name.len() as u16));
        bytes.extend(*name);
        bytes.extend(spelled(body.len() as u16));
        bytes.extend(*body);
    }
    bytes
}

fn sheets(vectors: &mut Vectors) {
    lookups(vectors);
    sheet_faults(vectors);
}

fn lookups(vectors: &mut Vectors) {
    let three = sheet(&[(b"one", &[1, 2, 3]), (b"two", &[]), (b"one", &[4])]);
    // "Asked for a name, it answers with that body as the very bytes of the sheet; of equal names the first counts."
    assert_eq!(vectors.look_up(&three, b"one"), "body from 6 to 9");
    // "it may be empty"
    assert_eq!(vectors.look_up(&three, b"two"), "body from 14 to 14");
    // "11 | name absent | 0"
    for name in [&b"three"[..], b"on", b"ones", b"One"] {
        assert_eq!(vectors.look_up(&three, name), refused(11, 0));
    }
    assert_eq!(vectors.look_up(&[0], b"one"), refused(11, 0));
    // "a name asked for with length 0 or above 16 is absent"
    assert_eq!(vectors.look_up(&three, b""), refused(11, 0));
    assert_eq!(vectors.look_up(&three, &[b'a'; 17]), refused(11, 0));
    // "name length (1 to 16)"; "Name bytes are any bytes."
    let names = sheet(&[(&[0], &[5]), (&[255; 16], &[6, 7]), (&[128, 0], &[8])]);
    assert_eq!(vectors.look_up(&names, &[0]), "body from 4 to 5");
    assert_eq!(vectors.look_up(&names, &[255; 16]), "body from 23 to 25");
    assert_eq!(vectors.look_up(&names, &[255; 15]), refused(11, 0));
    assert_eq!(vectors.look_up(&names, &[128, 0]), "body from 29 to 30");
    // "A body is not read until asked for": one that is no code, and one that looks like an entry
    let bodies = sheet(&[(b"a", &[0x80, 0x00, 0xFF]), (b"b", &[1, b'c', 1, 9]), (b"d", &[2; 200])]);
    assert_eq!(vectors.look_up(&bodies, b"a"), "body from 4 to 7");
    assert_eq!(vectors.look_up(&bodies, b"c"), refused(11, 0));
    assert_eq!(vectors.look_up(&bodies, b"d"), "body from 18 to 218");
    // "count (0 to 32)"
    let entry = (&b"n"[..], &[1][..]);
    assert_eq!(vectors.look_up(&sheet(&[entry; 32]), b"n"), "body from 4 to 5");
    assert_eq!(vectors.look_up(&sheet(&[entry; 32]), b"m"), refused(11, 0));
    assert_eq!(vectors.look_up(&sheet(&[entry; 33]), b"n"), refused(2, 0));
}

fn sheet_faults(vectors: &mut Vectors) {
    let refused_sheets: [(&[u8], u16, usize); 19] = [
        // "number cut short or missing, not shortest, over 65,535"
        (&[], 1, 0),
        (&[0x80], 1, 0),
        (&[0x81, 0x00], 1, 0),
        (&[1], 1, 1),
        (&[1, 0x81, 0x00, b'a', 0], 1, 1),
        (&[1, 1, b'a'], 1, 3),
        (&[1, 1, b'a', 0x80, 0x80, 0x04], 1, 3),
        (&[2, 1, b'a', 1, 7], 1, 5),
        // "2 | table, inputs or sheet: a value not allowed above": "name length (1 to 16)"
        (&[33], 2, 0),
        (&[0xFF, 0xFF, 0x03], 2, 0),
        (&[1, 0, 1, 7], 2, 1),
        (&[2, 1, b'a', 1, 7, 0], 2, 5),
        // "A sheet's name length above 16 that also runs past the end is 2"
        (&[1, 17, b'a'], 2, 1),
        // "text of a sheet cut short": "a text or block cut short at its length's first byte"
        (&[1, 16, b'a'], 1, 1),
        (&[1, 1, b'a', 2, 7], 1, 3),
        (&[1, 1, b'a', 0xAC, 0x02, 7], 1, 3),
        // "bytes left over": "In a sheet every fault, left-over bytes too, comes before 11"
        (&[0, 0], 1, 1),
        (&[1, 1, b'b', 1, 7, 0], 1, 5),
        (&[1, 1, b'a', 1, 7, 1, b'b'], 1, 5),
    ];
    for (bytes, number, place) in refused_sheets {
        assert_eq!(vectors.look_up(bytes, b"a"), refused(number, place));
    }
    // "A sheet's lengths are all checked before a name is sought": also before one that no sheet can have
    assert_eq!(vectors.look_up(&[1, 1, b'a', 2, 7], b""), refused(1, 3));
    assert_eq!(vectors.look_up(&[1, 1, b'a', 1, 7, 0], &[b'a'; 17]), refused(1, 5));
    // "name length (1 to 16)": one past
    let long = [&[1, 17][..], &[b'a'; 17], &[0]].concat();
    assert_eq!(vectors.look_up(&long, &[b'a'; 17]), refused(2, 1));
}

// ---------------------------------------------------------------------------------------------------------------------
// Random and damaged codes
// ---------------------------------------------------------------------------------------------------------------------

fn random_cases(vectors: &mut Vectors) {
    let mut random = Random::new(SEED);
    for _ in 0..RANDOM_CASES {
        match random.below(9) {
            0 => random_number(vectors, &mut random),
            1 | 2 => random_requirement(vectors, &mut random),
            3..=5 => random_code(vectors, &mut random, Table),
            6 => {
                let count = random::input_count(&mut random) as u16;
                random_code(vectors, &mut random, Inputs(count));
            }
            _ => random_sheet(vectors, &mut random),
        }
    }
}

fn random_number(vectors: &mut Vectors, random: &mut Random) {
    let value = random.any_number();
    if random.once_in(2) {
        vectors.write_number(value, random::buffer_length(random, spelled(value).len()));
        return;
    }
    let bytes = match random.below(3) {
        0 => random.bytes(4),
        1 => random::longer_spelling(random, value),
        _ => spelled(value),
    };
    vectors.read_number(&bytes, random.below(bytes.len() + 1));
}

fn random_requirement(vectors: &mut Vectors, random: &mut Random) {
    let which = random.pick(&[Untranslated, Translated]);
    if !random.once_in(4) {
        return random_code(vectors, random, Requirement(which));
    }
    let made = made(random, Requirement(which));
    let bytes = random_bytes(random, &made);
    vectors.check(which, &bytes);
}

/// Reads or writes a code, well-formed or damaged, into a buffer that may be too short.
fn random_code(vectors: &mut Vectors, random: &mut Random, coded: Coded) {
    let made = made(random, coded);
    if random.once_in(2) {
        let room = random::buffer_length(random, made.len());
        let bytes = random_bytes(random, &made);
        vectors.read(coded, room, &bytes);
    } else {
        let room = random::buffer_length(random, bytes_of_numbers(&made).len());
        let numbers = if random.once_in(3) { made } else { random::damaged_numbers(random, &made) };
        vectors.write(coded, room, &numbers);
    }
}

/// A code that is not too long: well-formed, past a limit of its own or with one number struck.
fn made(random: &mut Random, coded: Coded) -> Vec<u16> {
    loop {
        let made = match coded {
            Requirement(which) if random.once_in(5) => random::requirement_past_limit(random, which),
            Requirement(which) => random::requirement(random, which),
            Table if random.once_in(2) => struck_table(random),
            Table => random::table(random, MOST_PROCESSES),
            Inputs(count) => random::inputs(random, count as usize),
        };
        if 2 * made.len() <= MOST_RANDOM_BYTES {
            return made;
        }
    }
}

fn struck_table(random: &mut Random) -> Vec<u16> {
    let mut made = random::table(random, MOST_PROCESSES);
    random::damage_table_field(random, &mut made);
    made
}

fn random_bytes(random: &mut Random, numbers: &[u16]) -> Vec<u8> {
    if random.once_in(3) {
        return bytes_of_numbers(numbers);
    }
    random::damaged_bytes(random, &random::pieces_of_numbers(numbers))
}

fn random_sheet(vectors: &mut Vectors, random: &mut Random) {
    loop {
        let entries = random::entries(random);
        let pieces = random::pieces_of_entries(&entries);
        let sheet = match random.once_in(2) {
            true => random::bytes_of_pieces(&pieces),
            false => random::damaged_bytes(random, &pieces),
        };
        if sheet.len() <= MOST_RANDOM_BYTES {
            vectors.look_up(&sheet, &random::name_to_ask(random, &entries));
            return;
        }
    }
}
