//! The peers: the same tasks in unproved Rust written for speed. Each gives the answers of include/scancheck.h.

#![forbid(unsafe_code)]

pub mod judge;
pub mod number;
pub mod plain_judge;
/// For the peers as a program; the measures call their parts.
#[allow(dead_code)]
pub mod report;
pub mod requirement;
pub mod run;
pub mod table;
pub mod translate;

#[derive(Clone, Copy, Debug, PartialEq, Eq)]
pub struct Refusal {
    pub number: u8,
    pub place: usize,
}

/// Two values, or a refusal.
pub type Answer = Result<(usize, usize), Refusal>;

#[inline]
pub fn refuse<T>(number: u8, place: usize) -> Result<T, Refusal> {
    Err(Refusal { number, place })
}
