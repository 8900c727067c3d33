//! What scancheck prints, from the peers of the run and of judging.

#![forbid(unsafe_code)]

use super::judge::Judge;
use super::number::Cursor;
use super::run::Runner;
use super::{refuse, Refusal};
use std::io::Write;

const MOST_BYTES: usize = 60_000;

pub fn report(input: &[u8]) -> Vec<u8> {
    let mut text = Vec::new();
    if let Err(refusal) = accepted(input, &mut text) {
        text.clear();
        writeln!(text, "refused {} at {}", refusal.number, refusal.place).unwrap();
    }
    text
}

fn accepted(input: &[u8], text: &mut Vec<u8>) -> Result<(), Refusal> {
    if input.len() > MOST_BYTES {
        return refuse(1, MOST_BYTES);
    }
    let (table, after_table) = block(input, 0)?;
    let (inputs, after_inputs) = block(input, after_table)?;
    let (requirement, end) = block(input, after_inputs)?;
    if end < input.len() {
        return refuse(1, end);
    }
    let mut trace = vec![0; 20480];
    let (positions, start) = Runner::new().run::<true>(table, inputs, &mut trace)?;
    let mut list = [0; 2 * 4096];
    let (holds, count) = Judge::default().judge(false, requirement, &trace[..5 * positions], start, &mut list)?;
    let verdict = if holds == 1 { "holds" } else { "fails" };
    writeln!(text, "positions {positions} loop {start}\nverdict {verdict}\nfails {count}").unwrap();
    for place in list.chunks_exact(2).take(count) {
        writeln!(text, "at {}", u16::from_le_bytes([place[0], place[1]])).unwrap();
    }
    Ok(())
}

/// The block whose length stands at a place, and the place after it.
fn block(input: &[u8], place: usize) -> Result<(&[u8], usize), Refusal> {
    let mut cursor = Cursor::new(&input[place..]);
    let length = cursor.number().map_err(|refusal| Refusal { place: place + refusal.place, ..refusal })?;
    let begin = place + cursor.at;
    match input.get(begin..begin + length as usize) {
        Some(block) => Ok((block, begin + length as usize)),
        None => refuse(1, place),
    }
}
