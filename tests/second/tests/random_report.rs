//! The maker of inputs for scancheck reaches every kind of answer, in every block, and the limit of the input's length.

use std::collections::{BTreeMap, BTreeSet};

use second::code::bytes_of_numbers;
use second::inputs::check_inputs;
use second::random::Random;
use second::random_report::report_case;
use second::random_run::{widest_inputs, widest_table, WIDEST_MOST};
use second::report::{blocks, report};
use second::requirement::{check_requirement, Which};
use second::run::{run_numbers, Ran};
use second::table::{check_table, MOST_PROCESSES};
use second::Code;

const CASES: u64 = 4000;

/// The kind of an answer: for an accepted input whether it has findings, for 1 and 2 the block too.
fn kind(input: &[u8], printed: &str) -> String {
    let lines: Vec<&str> = printed.lines().collect();
    let words: Vec<&str> = lines[0].split(' ').collect();
    if words[0] == "positions" {
        let verdict = lines[1].split(' ').nth(1).expect("a verdict");
        return format!("{verdict}, findings {}", lines[2] != "fails 0");
    }
    match words[1] {
        "1" | "2" => format!("{} in {}", words[1], faulty_part(input)),
        number => number.to_string(),
    }
}

/// Where the fault of a 1 or 2 stands.
fn faulty_part(input: &[u8]) -> &'static str {
    if input.len() > 60_000 {
        return "length";
    }
    let Ok(blocks) = blocks(input) else { return "framing" };
    let Ok(table) = check_table(Code::Bytes(blocks.table), MOST_PROCESSES) else { return "table" };
    if check_inputs(Code::Bytes(blocks.inputs), table.counts.inputs as usize).is_err() {
        return "inputs";
    }
    "requirement"
}

/// The lines are as document 01 has them, and the findings as many as said, ascending.
fn check_lines(printed: &str) {
    assert!(printed.ends_with('\n'));
    let lines: Vec<Vec<&str>> = printed.lines().map(|line| line.split(' ').collect()).collect();
    if lines[0][0] == "refused" {
        assert_eq!((lines.len(), lines[0].len(), lines[0][2]), (1, 4, "at"));
        return;
    }
    assert_eq!((lines[0].len(), lines[0][2]), (4, "loop"));
    assert_eq!((lines[1].len(), lines[1][0]), (2, "verdict"));
    assert_eq!((lines[2].len(), lines[2][0]), (2, "fails"));
    let count: usize = lines[2][1].parse().expect("a count");
    assert_eq!(lines.len(), 3 + count);
    let mut last = 0;
    for line in &lines[3..] {
        let position: usize = line[1].parse().expect("a position");
        assert_eq!((line.len(), line[0]), (2, "at"));
        assert!(position > last);
        last = position;
    }
}

#[test]
fn every_kind_often() {
    let mut counts: BTreeMap<String, usize> = BTreeMap::new();
    let mut places: BTreeMap<String, BTreeSet<String>> = BTreeMap::new();
    let mut accepted_lengths: BTreeMap<usize, usize> = BTreeMap::new();
    let mut longest = 0;
    for seed in 0..CASES {
        let input = report_case(&mut Random::new(seed));
        let printed = String::from_utf8(report(&input)).expect("text");
        check_lines(&printed);
        let kind = kind(&input, &printed);
        let first = printed.lines().next().expect("a line");
        if first.starts_with("positions") {
            *accepted_lengths.entry(input.len()).or_default() += 1;
        }
        longest += first.starts_with("positions 4096 ") as usize;
        places.entry(kind.clone()).or_default().insert(first.to_string());
        *counts.entry(kind).or_default() += 1;
    }
    let kinds = [
        "1 in framing",
        "1 in inputs",
        "1 in length",
        "1 in requirement",
        "1 in table",
        "2 in inputs",
        "2 in table",
        "3",
        "4",
        "5",
        "6",
        "7",
        "8",
        "fails, findings false",
        "fails, findings true",
        "holds, findings false",
        "holds, findings true",
    ];
    assert_eq!(counts.keys().map(String::as_str).collect::<Vec<&str>>(), kinds);
    for (kind, count) in &counts {
        assert!(*count >= 8, "{kind} came {count} times");
    }
    let accepted: usize = counts.iter().filter(|(kind, _)| kind.contains("findings")).map(|(_, count)| count).sum();
    assert!(2 * accepted >= CASES as usize, "{accepted} were accepted");
    assert!(places["1 in framing"].len() >= 60);
    assert_eq!(places["1 in length"], BTreeSet::from(["refused 1 at 60000".to_string()]));
    // The longest input that is accepted, and one byte less.
    assert_eq!(accepted_lengths.keys().next_back(), Some(&60_000));
    assert!(accepted_lengths.contains_key(&59_999));
    assert!(longest >= 20, "{longest}");
}

#[test]
fn cases_are_seeded() {
    for seed in 0..200 {
        assert_eq!(report_case(&mut Random::new(seed)), report_case(&mut Random::new(seed)));
    }
}

/// 32 inputs and 1,365 scans, in as many bytes as asked for, close with 4,096 positions.
#[test]
fn widest_runs_close() {
    for (seed, bytes) in [43_680, 43_681, 60_000, 100_000, WIDEST_MOST].into_iter().enumerate() {
        let mut random = Random::new(seed as u64);
        let table = widest_table(&mut random);
        let inputs = widest_inputs(&mut random, bytes);
        assert_eq!(inputs.len(), 2 + 43_680);
        assert_eq!(bytes_of_numbers(&inputs).len(), 4 + bytes);
        let Ran::Closed { positions, loop_start, .. } = run_numbers(&table, &inputs) else { panic!("refused") };
        assert_eq!((positions, loop_start), (4096, 3 * inputs[1] as usize + 1));
    }
}

/// A requirement past a limit is met after runs that close.
#[test]
fn requirements_of_many_sizes() {
    let mut nodes = BTreeSet::new();
    for seed in 0..CASES / 4 {
        let input = report_case(&mut Random::new(seed));
        if let Ok(blocks) = blocks(&input) {
            if let Ok(found) = check_requirement(Code::Bytes(blocks.requirement), Which::Untranslated) {
                nodes.insert(found.node_count);
            }
        }
    }
    assert!(nodes.len() >= 30 && nodes.contains(&64), "{nodes:?}");
}
