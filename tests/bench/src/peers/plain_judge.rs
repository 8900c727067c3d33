//! Judging with a byte for the truth at each position, and until in two passes backwards: what is written at once in
//! Rust, where no thought is given to words of bits.

#![forbid(unsafe_code)]

use super::requirement::{self, Node};
use super::{refuse, Answer, Refusal};

const INPUT: u8 = 0;
const EXE: u8 = 1;
const OUTPUT: u8 = 2;

/// A judge and the rows it works in, which are kept between calls, so that nothing is allocated.
#[derive(Default)]
pub struct PlainJudge {
    nodes: Vec<Node>,
    phases: Vec<u8>,
    atoms: Vec<u32>,
    rows: Vec<bool>,
}

impl PlainJudge {
    pub fn judge(&mut self, translated: bool, code: &[u8], trace: &[u8], start: usize, list: &mut [u8]) -> Answer {
        let depth = requirement::read(translated, code, &mut self.nodes)?;
        let length = trace.len();
        if length == 0 || length > 20480 || length % 5 != 0 {
            return refuse(9, length);
        }
        let count = length / 5;
        if start >= count {
            return refuse(9, count);
        }
        self.phases.clear();
        self.phases.extend(trace.chunks_exact(5).map(|position| position[0]));
        check_phases(&self.phases, start)?;
        let inputs = self.phases.iter().filter(|phase| **phase == INPUT).count();
        if list.len() < 2 * inputs {
            return refuse(10, 2 * inputs);
        }
        self.atoms.clear();
        let atoms = trace.chunks_exact(5).map(|p| u32::from_le_bytes([p[1], p[2], p[3], p[4]]));
        self.atoms.extend(atoms);
        self.rows.resize((depth + 1) * count, false);
        let mut walk = Walk { nodes: self.nodes.iter(), phases: &self.phases, atoms: &self.atoms, start };
        walk.node(&mut self.rows);
        let truth = &self.rows[..count];
        let mut places = list.chunks_exact_mut(2);
        let mut findings = 0;
        for (position, (phase, truth)) in self.phases.iter().zip(truth).enumerate() {
            if *phase == INPUT && !truth {
                places.next().unwrap().copy_from_slice(&(position as u16).to_le_bytes());
                findings += 1;
            }
        }
        Ok((truth[0] as usize, findings))
    }
}

fn check_phases(phases: &[u8], start: usize) -> Result<(), Refusal> {
    let fine = |pair: (u8, u8)| matches!(pair, (INPUT, EXE) | (EXE, EXE) | (EXE, OUTPUT) | (OUTPUT, INPUT));
    let last = phases.len() - 1;
    if let Some(position) = phases.windows(2).position(|pair| !fine((pair[0], pair[1]))) {
        return refuse(9, position);
    }
    if !fine((phases[last], phases[start])) {
        return refuse(9, last);
    }
    if !phases[start..].contains(&OUTPUT) {
        return refuse(9, start);
    }
    Ok(())
}

struct Walk<'a> {
    nodes: std::slice::Iter<'a, Node>,
    phases: &'a [u8],
    atoms: &'a [u32],
    start: usize,
}

impl Walk<'_> {
    fn node(&mut self, rows: &mut [bool]) {
        let Node { tag, atom } = *self.nodes.next().unwrap();
        let (count, start, phases) = (self.phases.len(), self.start, self.phases);
        let is = |phase: u8| move |p: usize| phases[p] == phase;
        if !matches!(tag, 0 | 3..=5) {
            self.node(rows);
        }
        if matches!(tag, 2 | 11 | 15 | 19 | 23) {
            self.node(&mut rows[count..]);
        }
        let (row, rest) = rows.split_at_mut(count);
        let second = &mut rest[..count];
        let ended = is(if tag < 20 { INPUT } else { OUTPUT });
        match tag {
            0 => row.iter_mut().zip(self.atoms).for_each(|(truth, atoms)| *truth = atoms >> atom & 1 == 1),
            3..=5 => row.iter_mut().zip(phases).for_each(|(truth, phase)| *truth = *phase == tag - 3),
            1 => row.iter_mut().for_each(|truth| *truth = !*truth),
            2 => row.iter_mut().zip(second).for_each(|(truth, other)| *truth &= *other),
            8 => next(row, start),
            9 => until(row, start, |_, f| (true, f)),
            10 => always(row, start, |_| true),
            11 => until(row, start, |p, f| (f, second[p])),
            12 => {
                row.iter_mut().zip(phases).for_each(|(truth, phase)| *truth &= *phase == EXE);
                next(row, start);
            }
            13 => until(row, start, |p, f| (phases[p] != OUTPUT, phases[p] == EXE && f)),
            14 => until(row, start, |p, f| (f && phases[p] == EXE, phases[p] == OUTPUT)),
            15 => until(row, start, |p, f| (f && phases[p] == EXE, second[p] && phases[p] == EXE)),
            16 | 20 => {
                until(row, start, |p, f| (!ended(p), ended(p) && f));
                next(row, start);
                until(row, start, |p, f| (!ended(p), ended(p) && f));
            }
            17 | 21 => until(row, start, |p, f| (true, ended(p) && f)),
            18 | 22 => always(row, start, ended),
            _ => until(row, start, |p, f| (!ended(p) || f, ended(p) && second[p])),
        }
    }
}

fn next(row: &mut [bool], start: usize) {
    let joined = row[start];
    row.copy_within(1.., 0);
    row[row.len() - 1] = joined;
}

/// At every position of those that count: not (true until not).
fn always(row: &mut [bool], start: usize, counts: impl Fn(usize) -> bool) {
    until(row, start, |p, f| (true, counts(p) && !f));
    row.iter_mut().for_each(|truth| *truth = !*truth);
}

/// `operands` makes the two operands at a position out of the row there.
#[inline(always)]
fn until(row: &mut [bool], start: usize, operands: impl Fn(usize, bool) -> (bool, bool)) {
    let mut behind = false;
    for position in (start..row.len()).rev() {
        let (first, second) = operands(position, row[position]);
        behind = second | (first & behind);
    }
    for position in (0..row.len()).rev() {
        let (first, second) = operands(position, row[position]);
        behind = second | (first & behind);
        row[position] = behind;
    }
}
