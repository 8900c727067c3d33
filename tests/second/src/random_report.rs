//! Random inputs of the program scancheck: three blocks that are mostly accepted, and damage to blocks and framing.
//!
//! The same seed gives the same inputs.

use crate::code::bytes_of_numbers;
use crate::number::spelled;
use crate::random::{self, MadeTrace, Piece, Random};
use crate::random_run::{made_run, run_case, widest_inputs, widest_table, MadeRun};
use crate::report::MOST_BYTES;
use crate::requirement::Which;
use crate::run::{run_numbers, Ran};

/// Table, inputs and requirement.
type MadeBlocks = [Vec<u8>; 3];

/// An input of any kind.
pub fn report_case(random: &mut Random) -> Vec<u8> {
    match random.below(128) {
        0 => filled(random),
        1..=3 => padded(random),
        4 => {
            let count = random.below(60);
            random.bytes(count)
        }
        5..=24 => {
            let blocks = made_blocks(random);
            damaged_framing(random, &blocks)
        }
        _ => framed(&made_blocks(random)),
    }
}

// ---------------------------------------------------------------------------------------------------------------------
// Blocks
// ---------------------------------------------------------------------------------------------------------------------

/// Blocks of a run that mostly closes, and of a requirement that is mostly well-formed.
fn made_blocks(random: &mut Random) -> MadeBlocks {
    loop {
        let blocks = match random.below(16) {
            0 | 1 => {
                let case = run_case(random);
                [case.table, case.inputs, any_requirement(random)]
            }
            2..=5 => {
                let mut made = made_run(random);
                // Another count of scans or return scan.
                if random.once_in(4) {
                    let struck = random.below(2);
                    made.inputs[struck] = random::another_number(random, made.inputs[struck]);
                }
                [bytes_of_numbers(&made.table), bytes_of_numbers(&made.inputs), any_requirement(random)]
            }
            _ => closing_blocks(random),
        };
        // Of the few that are too long for the program, only some are kept.
        let length: usize = blocks.iter().map(Vec::len).sum();
        if length <= MOST_BYTES - 9 || length <= 65535 && random.once_in(4) {
            return blocks;
        }
    }
}

/// The bytes of a well-formed requirement, now and then damaged or past a limit.
fn any_requirement(random: &mut Random) -> Vec<u8> {
    let numbers = random::judged_requirement(random, Which::Untranslated);
    mostly_kept(random, &numbers)
}

fn mostly_kept(random: &mut Random, numbers: &[u16]) -> Vec<u8> {
    match random.below(32) {
        0 | 1 => bytes_of_numbers(&random::requirement_past_limit(random, Which::Untranslated)),
        // Its limits are those of a translated one, its tags are all allowed.
        2 => bytes_of_numbers(&random::requirement(random, Which::Translated)),
        3..=6 => random::damaged_bytes(random, &random::pieces_of_numbers(numbers)),
        _ => bytes_of_numbers(numbers),
    }
}

/// A run that closes, and a requirement whose truth mostly varies on its trace.
fn closing_blocks(random: &mut Random) -> MadeBlocks {
    loop {
        let made = made_run(random);
        if let Ran::Closed { loop_start, trace, .. } = run_numbers(&made.table, &made.inputs) {
            let lasso = MadeTrace { trace, loop_start };
            let numbers = requirement_for(random, Which::Untranslated, &lasso, test_count(&made));
            let requirement = mostly_kept(random, &numbers);
            return [bytes_of_numbers(&made.table), bytes_of_numbers(&made.inputs), requirement];
        }
    }
}

/// The count of tests of a well-formed table: after the three counts and a source for each output.
pub fn test_count(made: &MadeRun) -> usize {
    made.table[3 + made.table[2] as usize] as usize
}

/// From so many positions on the second program is slow, and only small requirements are judged.
pub const LONG: usize = 300;

/// A requirement, as numbers, for the trace of a run with so many tests: mostly over their atoms alone, and on a short
/// trace mostly such that its truth varies from position to position.
pub fn requirement_for(random: &mut Random, which: Which, lasso: &MadeTrace, tests: usize) -> Vec<u16> {
    if lasso.trace.len() > 5 * LONG {
        let nodes = random.between(1, 5);
        let mut numbers = random::requirement_of(random, which, nodes, nodes, false);
        keep_most_atoms(random, &mut numbers, tests);
        return numbers;
    }
    for _ in 0..random.below(8) {
        let mut numbers = random::judged_requirement(random, which);
        keep_most_atoms(random, &mut numbers, tests);
        if random::truth_varies(&numbers, which, lasso) {
            return numbers;
        }
    }
    random::judged_requirement(random, which)
}

fn keep_most_atoms(random: &mut Random, numbers: &mut [u16], tests: usize) {
    if tests > 0 && !random.once_in(12) {
        random::keep_atoms_below(numbers, tests as u16);
    }
}

// ---------------------------------------------------------------------------------------------------------------------
// Framing
// ---------------------------------------------------------------------------------------------------------------------

/// "each after its length as a number of the coding"
fn pieces(blocks: &[Vec<u8>]) -> Vec<Piece> {
    let mut pieces = Vec::new();
    for block in blocks {
        pieces.push(Piece::Number(block.len() as u16));
        pieces.push(Piece::Bytes(block.clone()));
    }
    pieces
}

fn framed(blocks: &[Vec<u8>]) -> Vec<u8> {
    random::bytes_of_pieces(&pieces(blocks))
}

/// Three blocks with their framing damaged.
fn damaged_framing(random: &mut Random, blocks: &MadeBlocks) -> Vec<u8> {
    let mut pieces = pieces(blocks);
    let struck = random.below(3);
    let length = blocks[struck].len();
    match random.below(12) {
        // Another length: the rest of the input is then read elsewhere.
        0..=2 => pieces[2 * struck] = Piece::Number(random::another_number(random, length as u16)),
        // One byte more than follows, or all that follows.
        3 => {
            let following = random::bytes_of_pieces(&pieces[2 * struck + 1..]).len();
            let told = following + random.below(2);
            pieces[2 * struck] = Piece::Number(told.min(65535) as u16);
        }
        4 => pieces[2 * struck] = Piece::Bytes(random::longer_spelling(random, length as u16)),
        5 => pieces[2 * struck] = Piece::Bytes(random::too_large_spelling(random)),
        // The blocks from one on are missing.
        6 => pieces.truncate(2 * struck),
        7 => return cut(random, blocks, struck),
        8 => {
            let count = random.between(1, 4);
            pieces.push(Piece::Bytes(random.bytes(count)));
        }
        9 => pieces.extend([Piece::Number(length as u16), Piece::Bytes(blocks[struck].clone())]),
        // Blocks in another order, which is faulty only within them.
        10 => {
            let mut blocks = blocks.clone();
            blocks.swap(struck, (struck + 1) % 3);
            return framed(&blocks);
        }
        _ => {
            let mut bytes = framed(blocks);
            random::damage_bytes(random, &mut bytes);
            return bytes;
        }
    }
    random::bytes_of_pieces(&pieces)
}

/// The input ends within a block or its length: after the length's first byte, after the length, or anywhere in the block.
fn cut(random: &mut Random, blocks: &MadeBlocks, struck: usize) -> Vec<u8> {
    let mut bytes = framed(&blocks[..struck]);
    let length = blocks[struck].len();
    let spelling = spelled(length as u16);
    match random.below(3) {
        0 => bytes.push(spelling[0]),
        1 => bytes.extend(spelling),
        _ => {
            let kept = random.below(length.max(1));
            bytes.extend(spelling);
            bytes.extend(&blocks[struck][..kept]);
        }
    }
    bytes
}

/// Lengths of an input around the limit, and some far above.
fn length_at_limit(random: &mut Random) -> usize {
    match random.below(12) {
        0 => MOST_BYTES - 1,
        1..=4 => MOST_BYTES,
        5..=8 => MOST_BYTES + 1,
        9 => random.between(MOST_BYTES + 2, 65535),
        10 => random.between(65536, 70000),
        _ => random.between(131072, 140000),
    }
}

/// An input of such a length: with bytes left over after the three blocks, or within the last of them.
fn padded(random: &mut Random) -> Vec<u8> {
    let mut blocks = made_blocks(random);
    let length = length_at_limit(random);
    let filling = if random.once_in(2) { 0 } else { random.byte() };
    let before = framed(&blocks[..2]).len();
    // A length from 16,384 on is spelled with three bytes.
    if random.once_in(2) && length >= before + 3 + 16384 && length <= before + 3 + 65535 {
        blocks[2].resize(length - before - 3, filling);
    }
    let mut bytes = framed(&blocks);
    bytes.resize(length.max(bytes.len()), filling);
    bytes
}

/// 1,365 scans of 32 inputs, closed with 4,096 positions, and a requirement: exactly as many bytes as are allowed, one less
/// or one more.
fn filled(random: &mut Random) -> Vec<u8> {
    let length = random.pick(&[MOST_BYTES - 1, MOST_BYTES, MOST_BYTES, MOST_BYTES + 1]);
    let table = bytes_of_numbers(&widest_table(random));
    let nodes = random.between(1, 5);
    let requirement = bytes_of_numbers(&random::requirement_of(random, Which::Untranslated, nodes, nodes, false));
    // Besides the numbers of the scans: the two other blocks with lengths of one byte, the length of the inputs with three,
    // and the two scans with two each.
    let values = length - (1 + table.len()) - (1 + requirement.len()) - 3 - 4;
    let inputs = bytes_of_numbers(&widest_inputs(random, values));
    let bytes = framed(&[table, inputs, requirement]);
    assert_eq!(bytes.len(), length);
    bytes
}
