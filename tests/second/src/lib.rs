//! The second program: a slow and plain checker, written from document 01, papers 000 and 003 and the readings of their
//! open places. The proved program is compared with it by running both on random and damaged inputs, so it shares no code
//! with that program; it does share the readings.
//!
//! Each rule stands under the few words of document 01 (or of its readings, or of 003) that it stands for.

#![forbid(unsafe_code)]

pub mod code;
pub mod controller;
pub mod inputs;
pub mod judging;
pub mod meaning;
pub mod number;
pub mod random;
pub mod random_report;
pub mod random_run;
pub mod refusal;
pub mod report;
pub mod requirement;
pub mod run;
pub mod sheet;
pub mod table;
pub mod trace;
pub mod translation;

pub use code::Code;
pub use refusal::{Cause, Refusal};
