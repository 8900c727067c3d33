//! The program scancheck as a process: what it prints for an input, byte for byte, and that it ends with status 0.

use std::io::{Read, Write};
use std::process::{Child, Command, Stdio};
use std::sync::mpsc::channel;
use std::thread::spawn;
use std::time::Duration;

use second::random::Random;
use second::random_report::report_case;
use second::report::report;

use crate::tally::Tally;

pub const MUST_REACH: &[(&str, &[u64])] = &[("program", &[0, 1, 2, 3, 4, 5, 6, 7, 8])];
pub const MUST_MEET: &[&str] = &[NO_FINDINGS, FINDINGS, HOLDS, FAILS, ALLOWED_LENGTH, TOO_LONG];

const NO_FINDINGS: &str = "an answer without findings";
const FINDINGS: &str = "an answer with findings";
const HOLDS: &str = "the verdict holds";
const FAILS: &str = "the verdict fails";
const ALLOWED_LENGTH: &str = "an accepted input of just 60,000 bytes";
const TOO_LONG: &str = "an input of 60,001 bytes";

/// A program that prints nothing for so long does not end.
const PATIENCE: Duration = Duration::from_secs(30);

/// One input, and what the program at `path` prints for it.
pub fn compare_one(path: &str, random: &mut Random, tally: &mut Tally) -> Result<(), String> {
    let input = report_case(random);
    let given = printed(path, &input)?;
    let wanted = report(&input);
    if given != wanted {
        let given = String::from_utf8_lossy(&given);
        let wanted = String::from_utf8_lossy(&wanted);
        return Err(format!("the program printed {given:?}, the second program {wanted:?}, for {}", shown(&input)));
    }
    note(&input, &String::from_utf8_lossy(&given), tally);
    Ok(())
}

/// The bytes of an input, of a long one only how many: its seed makes it again.
fn shown(input: &[u8]) -> String {
    if input.len() > 2000 {
        return format!("an input of {} bytes", input.len());
    }
    format!("{input:?}")
}

/// What the program prints, if it ends in time and with status 0.
fn printed(path: &str, input: &[u8]) -> Result<Vec<u8>, String> {
    let mut command = Command::new(path);
    let mut child = command
        .stdin(Stdio::piped())
        .stdout(Stdio::piped())
        .spawn()
        .map_err(|error| format!("{path} does not start: {error}"))?;
    let answer = exchange(&mut child, input);
    if answer.is_none() {
        // It may have ended by now; then there is nothing to end.
        let _ = child.kill();
    }
    let status = child.wait().map_err(|error| format!("no status: {error}"))?;
    match answer {
        None => Err(format!("the program did not end, for {}", shown(input))),
        Some(_) if !status.success() => Err(format!("the program ended with {status}, for {}", shown(input))),
        Some(answer) => Ok(answer),
    }
}

/// Writes the input and reads the answer at the same time, as neither may wait for the other.
fn exchange(child: &mut Child, input: &[u8]) -> Option<Vec<u8>> {
    let mut stdin = child.stdin.take().expect("piped");
    let mut stdout = child.stdout.take().expect("piped");
    let input = input.to_vec();
    // Of an input that is too long the program need not read the end, so the writing may fail.
    let writing = spawn(move || stdin.write_all(&input).is_ok());
    let (answers, answered) = channel();
    spawn(move || {
        let mut answer = Vec::new();
        if stdout.read_to_end(&mut answer).is_ok() {
            // Nobody waits for an answer that is too late.
            let _ = answers.send(answer);
        }
    });
    let answer = answered.recv_timeout(PATIENCE).ok()?;
    writing.join().ok()?;
    Some(answer)
}

/// By the kind of the first line; then the lines after it, and the length of the input.
fn note(input: &[u8], printed: &str, tally: &mut Tally) {
    let lines: Vec<&str> = printed.lines().collect();
    let mut words = lines[0].split(' ');
    if words.next() == Some("refused") {
        let number = words.next().and_then(|word| word.parse().ok()).expect("a number");
        tally.note("program", number);
    } else {
        tally.note("program", 0);
        tally.meet(if lines[1] == "verdict holds" { HOLDS } else { FAILS });
        tally.meet(if lines[2] == "fails 0" { NO_FINDINGS } else { FINDINGS });
        if input.len() == 60_000 {
            tally.meet(ALLOWED_LENGTH);
        }
    }
    if input.len() == 60_001 {
        tally.meet(TOO_LONG);
    }
}
