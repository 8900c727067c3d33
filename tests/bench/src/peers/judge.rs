//! Judging on rows of 64-bit words: position p is the bit 63 - p % 64 of word p / 64, so that until is the carries of a
//! sum that runs from the last position to the first. Bits behind the last position are 0 in every row.

#![forbid(unsafe_code)]

use super::requirement::{self, Node};
use super::{refuse, Answer, Refusal};

const INPUT: usize = 0;
const EXE: usize = 1;
const OUTPUT: usize = 2;

/// From so many atoms on, all 32 are turned into rows at once.
const MANY_ATOMS: u32 = 6;

/// A judge and the rows it works in, which are kept between calls, so that nothing is allocated.
#[derive(Default)]
pub struct Judge {
    nodes: Vec<Node>,
    /// The rows of the three phases.
    phases: [Vec<u64>; 3],
    /// The rows of the atoms, one after the other.
    atoms: Vec<u64>,
    /// The rows of the operands, one for each level.
    rows: Vec<u64>,
}

impl Judge {
    pub fn judge(&mut self, translated: bool, code: &[u8], trace: &[u8], start: usize, list: &mut [u8]) -> Answer {
        let depth = requirement::read(translated, code, &mut self.nodes)?;
        let lasso = Lasso::new(trace, start)?;
        self.read_phases(trace, &lasso);
        check_phases(&self.phases, &lasso)?;
        let inputs: u32 = self.phases[INPUT].iter().map(|word| word.count_ones()).sum();
        if list.len() < 2 * inputs as usize {
            return refuse(10, 2 * inputs as usize);
        }
        self.read_atoms(trace, &lasso);
        // One row more than levels, for the operators that want a second row.
        self.rows.resize((depth + 1) * lasso.words, 0);
        let mut walk = Walk { nodes: self.nodes.iter(), phases: &self.phases, atoms: &self.atoms, lasso: &lasso };
        walk.node(&mut self.rows);
        let truth = &self.rows[..lasso.words];
        let holds = truth[0] >> 63;
        Ok((holds as usize, list_findings(truth, &self.phases[INPUT], list)))
    }

    fn read_phases(&mut self, trace: &[u8], lasso: &Lasso) {
        for row in &mut self.phases {
            row.resize(lasso.words, 0);
        }
        for (index, block) in trace.chunks(5 * 64).enumerate() {
            let (mut low, mut high, mut others) = (0u64, 0u64, 0u64);
            let mut chunks = block.chunks_exact(5 * 8);
            let mut shift = 64;
            for eight in &mut chunks {
                shift -= 8;
                let bytes = column(eight, 0);
                others |= (bytes & !0x0303_0303_0303_0303 != 0) as u64;
                low |= gathered(bytes) << shift;
                high |= gathered(bytes >> 1) << shift;
            }
            for (place, position) in chunks.remainder().chunks_exact(5).enumerate() {
                let bit = shift - 1 - place;
                others |= (position[0] > 3) as u64;
                low |= (position[0] as u64 & 1) << bit;
                high |= (position[0] as u64 >> 1 & 1) << bit;
            }
            let mut there = u64::MAX;
            if others != 0 {
                // Some byte is above 3: that position has no phase.
                for (place, position) in block.chunks_exact(5).enumerate() {
                    there &= !(((position[0] > 3) as u64) << (63 - place));
                }
            }
            if index + 1 == lasso.words {
                there &= lasso.tail;
            }
            self.phases[INPUT][index] = there & !low & !high;
            self.phases[EXE][index] = there & low & !high;
            self.phases[OUTPUT][index] = there & !low & high;
        }
    }

    fn read_atoms(&mut self, trace: &[u8], lasso: &Lasso) {
        let used = self.nodes.iter().filter(|node| node.tag == 0).fold(0u32, |used, node| used | 1 << node.atom);
        self.atoms.resize(32 * lasso.words, 0);
        if used.count_ones() < MANY_ATOMS {
            for atom in (0..32).filter(|atom| used >> atom & 1 == 1) {
                read_atom(trace, atom, &mut self.atoms[atom * lasso.words..(atom + 1) * lasso.words]);
            }
        } else {
            for (index, block) in trace.chunks(5 * 64).enumerate() {
                let rows = transposed(block);
                for (atom, word) in rows.iter().enumerate() {
                    self.atoms[atom * lasso.words + index] = *word;
                }
            }
        }
    }
}

struct Lasso {
    count: usize,
    start: usize,
    words: usize,
    /// The bits of the last word that are positions.
    tail: u64,
}

impl Lasso {
    fn new(trace: &[u8], start: usize) -> Result<Lasso, Refusal> {
        let length = trace.len();
        if length == 0 || length > 20480 || length % 5 != 0 {
            return refuse(9, length);
        }
        let count = length / 5;
        if start >= count {
            return refuse(9, count);
        }
        let words = count.div_ceil(64);
        Ok(Lasso { count, start, words, tail: u64::MAX << (64 * words - count) })
    }

    fn bit(&self, row: &[u64], position: usize) -> bool {
        row[position / 64] >> (63 - position % 64) & 1 == 1
    }

    /// The last position whose bit is set.
    fn last_set(&self, words: impl DoubleEndedIterator<Item = u64> + ExactSizeIterator) -> Option<usize> {
        let (index, word) = words.enumerate().rfind(|(_, word)| *word != 0)?;
        Some(64 * index + 63 - word.trailing_zeros() as usize)
    }
}

/// The word after, shifted in by one position; `last` is what comes behind the last position.
#[inline(always)]
fn following(row: &[u64], index: usize, lasso: &Lasso, last: bool) -> u64 {
    match row.get(index + 1) {
        Some(next) => row[index] << 1 | next >> 63,
        None => row[index] << 1 | (last as u64) << (64 * lasso.words - lasso.count),
    }
}

fn check_phases(phases: &[Vec<u64>; 3], lasso: &Lasso) -> Result<(), Refusal> {
    let joined = |phase: usize| lasso.bit(&phases[phase], lasso.start);
    let joined = [joined(INPUT), joined(EXE), joined(OUTPUT)];
    for index in 0..lasso.words {
        let next = |phase: usize| following(&phases[phase], index, lasso, joined[phase]);
        let (input, exe, output) = (next(INPUT), next(EXE), next(OUTPUT));
        let fine = phases[INPUT][index] & exe | phases[EXE][index] & (exe | output) | phases[OUTPUT][index] & input;
        let there = if index + 1 == lasso.words { lasso.tail } else { u64::MAX };
        if fine != there {
            return refuse(9, 64 * index + (there & !fine).leading_zeros() as usize);
        }
    }
    match lasso.last_set(phases[OUTPUT].iter().copied()) {
        Some(last) if last >= lasso.start => Ok(()),
        _ => refuse(9, lasso.start),
    }
}

/// The same byte of eight positions.
#[inline(always)]
fn column(eight: &[u8], byte: usize) -> u64 {
    let eight: &[u8; 40] = eight.try_into().unwrap();
    let at = |position: usize| (eight[5 * position + byte] as u64) << (8 * position);
    (at(0) | at(1)) | (at(2) | at(3)) | (at(4) | at(5)) | (at(6) | at(7))
}

/// The lowest bits of eight bytes, the first the highest.
#[inline(always)]
fn gathered(bytes: u64) -> u64 {
    (bytes & 0x0101_0101_0101_0101).wrapping_mul(0x8040_2010_0804_0201) >> 56
}

fn read_atom(trace: &[u8], atom: usize, row: &mut [u64]) {
    for (word, block) in row.iter_mut().zip(trace.chunks(5 * 64)) {
        *word = 0;
        let mut shift = 64;
        let mut chunks = block.chunks_exact(5 * 8);
        for eight in &mut chunks {
            shift -= 8;
            *word |= gathered(column(eight, 1 + atom / 8) >> (atom % 8)) << shift;
        }
        for (place, position) in chunks.remainder().chunks_exact(5).enumerate() {
            *word |= (position[1 + atom / 8] as u64 >> (atom % 8) & 1) << (shift - 1 - place);
        }
    }
}

/// The words of all 32 atoms at up to 64 positions: two squares of 32 by 32 bits, side by side, each turned.
fn transposed(block: &[u8]) -> [u64; 32] {
    let mut atoms = [0u32; 64];
    for (atoms, position) in atoms.iter_mut().zip(block.chunks_exact(5)) {
        *atoms = u32::from_le_bytes([position[1], position[2], position[3], position[4]]);
    }
    let mut rows = [0u64; 32];
    for row in 0..32 {
        rows[row] = (atoms[row] as u64) << 32 | atoms[row + 32] as u64;
    }
    swap_squares::<16>(&mut rows, 0x0000_FFFF_0000_FFFF);
    swap_squares::<8>(&mut rows, 0x00FF_00FF_00FF_00FF);
    swap_squares::<4>(&mut rows, 0x0F0F_0F0F_0F0F_0F0F);
    swap_squares::<2>(&mut rows, 0x3333_3333_3333_3333);
    swap_squares::<1>(&mut rows, 0x5555_5555_5555_5555);
    rows.reverse();
    rows
}

#[inline(always)]
fn swap_squares<const SIDE: usize>(rows: &mut [u64; 32], mask: u64) {
    for pair in rows.chunks_exact_mut(2 * SIDE) {
        let (upper, lower) = pair.split_at_mut(SIDE);
        for (a, b) in upper.iter_mut().zip(lower) {
            let swapped = (*a ^ *b >> SIDE) & mask;
            *a ^= swapped;
            *b ^= swapped << SIDE;
        }
    }
}

fn list_findings(truth: &[u64], inputs: &[u64], list: &mut [u8]) -> usize {
    let mut places = list.chunks_exact_mut(2);
    let mut count = 0;
    for (index, (truth, inputs)) in truth.iter().zip(inputs).enumerate() {
        let mut failing = inputs & !truth;
        count += failing.count_ones() as usize;
        while failing != 0 {
            let place = failing.leading_zeros();
            failing &= !(1 << (63 - place));
            let position = (64 * index) as u16 + place as u16;
            places.next().unwrap().copy_from_slice(&position.to_le_bytes());
        }
    }
    count
}

/// Going down the nodes. The answer stands in the first of the rows that are lent.
struct Walk<'a> {
    nodes: std::slice::Iter<'a, Node>,
    phases: &'a [Vec<u64>; 3],
    atoms: &'a [u64],
    lasso: &'a Lasso,
}

impl Walk<'_> {
    fn node(&mut self, rows: &mut [u64]) {
        let Node { tag, atom } = *self.nodes.next().unwrap();
        let (words, lasso, phases) = (self.lasso.words, self.lasso, self.phases);
        match tag {
            0 => return rows[..words].copy_from_slice(&self.atoms[atom as usize * words..][..words]),
            3..=5 => return rows[..words].copy_from_slice(&phases[tag as usize - 3]),
            _ => {}
        }
        self.node(rows);
        if matches!(tag, 2 | 11 | 15 | 19 | 23) {
            self.node(&mut rows[words..]);
        }
        let (row, rest) = rows.split_at_mut(words);
        let second = &mut rest[..words];
        match tag {
            1 => not(row, lasso),
            2 => and(row, second),
            8 => next(row, lasso),
            9 => ever(row, lasso),
            10 => always(row, lasso),
            11 => until(row, second, lasso),
            12 => {
                and(row, &phases[EXE]);
                next(row, lasso);
            }
            13 => {
                set_and(second, row, &phases[EXE]);
                set_not(row, &phases[OUTPUT], lasso);
                until(row, second, lasso);
            }
            14 => {
                and(row, &phases[EXE]);
                until(row, &phases[OUTPUT], lasso);
            }
            15 => {
                and(row, &phases[EXE]);
                and(second, &phases[EXE]);
                until(row, second, lasso);
            }
            _ => {
                let phase = &phases[if tag < 20 { INPUT } else { OUTPUT }];
                match tag & 3 {
                    0 => {
                        reach(row, second, phase, lasso);
                        next(row, lasso);
                        reach(row, second, phase, lasso);
                    }
                    1 => {
                        and(row, phase);
                        ever(row, lasso);
                    }
                    2 => {
                        imply(row, phase, lasso);
                        always(row, lasso);
                    }
                    _ => {
                        imply(row, phase, lasso);
                        and(second, phase);
                        until(row, second, lasso);
                    }
                }
            }
        }
    }
}

fn clear_tail(row: &mut [u64], lasso: &Lasso) {
    row[lasso.words - 1] &= lasso.tail;
}

fn not(row: &mut [u64], lasso: &Lasso) {
    for word in row.iter_mut() {
        *word = !*word;
    }
    clear_tail(row, lasso);
}

fn set_not(row: &mut [u64], of: &[u64], lasso: &Lasso) {
    for (word, of) in row.iter_mut().zip(of) {
        *word = !*of;
    }
    clear_tail(row, lasso);
}

fn and(row: &mut [u64], with: &[u64]) {
    for (word, with) in row.iter_mut().zip(with) {
        *word &= *with;
    }
}

fn set_and(row: &mut [u64], one: &[u64], other: &[u64]) {
    for (word, (one, other)) in row.iter_mut().zip(one.iter().zip(other)) {
        *word = one & other;
    }
}

/// The phase implies the row.
fn imply(row: &mut [u64], phase: &[u64], lasso: &Lasso) {
    for (word, phase) in row.iter_mut().zip(phase) {
        *word |= !*phase;
    }
    clear_tail(row, lasso);
}

fn next(row: &mut [u64], lasso: &Lasso) {
    let joined = lasso.bit(row, lasso.start);
    let mut carried = (joined as u64) << (64 * lasso.words - lasso.count);
    for word in row.iter_mut().rev() {
        let first = *word >> 63;
        *word = *word << 1 | carried;
        carried = first;
    }
}

/// Every position up to this one is `value`, those behind it the other.
fn split(row: &mut [u64], last: Option<usize>, value: bool, lasso: &Lasso) {
    let (up_to, behind) = if value { (u64::MAX, 0) } else { (0, u64::MAX) };
    let boundary = last.map_or(0, |last| last + 1);
    row[..boundary / 64].fill(up_to);
    row[boundary / 64..].fill(behind);
    if boundary % 64 > 0 {
        let upper = u64::MAX << (64 - boundary % 64);
        row[boundary / 64] = up_to & upper | behind & !upper;
    }
    clear_tail(row, lasso);
}

/// The last position that counts: any in the loop comes again.
fn again(last: Option<usize>, lasso: &Lasso) -> Option<usize> {
    match last {
        Some(last) if last >= lasso.start => Some(lasso.count - 1),
        last => last,
    }
}

fn ever(row: &mut [u64], lasso: &Lasso) {
    let last = lasso.last_set(row.iter().copied());
    split(row, again(last, lasso), true, lasso);
}

fn always(row: &mut [u64], lasso: &Lasso) {
    row[lasso.words - 1] |= !lasso.tail;
    let last = lasso.last_set(row.iter().map(|word| !word));
    split(row, again(last, lasso), false, lasso);
}

/// Until: a position gets its truth from the one behind it by the carry of (first or second) + second.
fn until(row: &mut [u64], second: &[u64], lasso: &Lasso) {
    let end = lasso.words - 1;
    row[end] |= !lasso.tail;
    // From here on to the end the first operand holds and the second does not: there the join decides.
    let waiting = lasso.last_set(row.iter().zip(second).map(|(x, y)| !(x & !y)));
    let mut carry = false;
    for (x, y) in row.iter_mut().zip(second).rev() {
        let either = *x | *y;
        let (sum, over) = either.overflowing_add(*y);
        let (sum, over_again) = sum.overflowing_add(carry as u64);
        carry = over | over_again;
        *x = (sum ^ either ^ *y) >> 1 | (carry as u64) << 63;
    }
    if lasso.bit(row, lasso.start) {
        let from = waiting.map_or(0, |waiting| waiting + 1);
        if from < 64 * lasso.words {
            row[from / 64] |= u64::MAX >> (from % 64);
            row[from / 64 + 1..].fill(u64::MAX);
        }
    }
    clear_tail(row, lasso);
}

/// The row at the first position of the phase, from each position on.
fn reach(row: &mut [u64], second: &mut [u64], phase: &[u64], lasso: &Lasso) {
    set_and(second, row, phase);
    set_not(row, phase, lasso);
    until(row, second, lasso);
}
