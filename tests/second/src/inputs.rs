//! An inputs record: its check, its reader and its writer.

use crate::code::{bytes_of_numbers, fill, Code, Walk};
use crate::refusal::{Cause, Refusal};

/// An inputs record that was accepted.
#[derive(Clone, Debug, PartialEq, Eq)]
pub struct Inputs {
    pub scans: u16,
    pub return_scan: u16,
    /// `values[0]` are those of scan 1, one for each input variable.
    pub values: Vec<Vec<u16>>,
    /// The numbers of its code, in order.
    pub numbers: Vec<u16>,
}

impl Inputs {
    pub fn number_count(&self) -> usize {
        self.numbers.len()
    }
}

/// The check of an inputs record. "Inputs take the input count along; above 32 is refusal 2 at 0, first."
pub fn check_inputs(code: Code, input_count: usize) -> Result<Inputs, Refusal> {
    if input_count > 32 {
        return Err(Refusal::new(Cause::ValueNotAllowed, 0));
    }
    let mut walk = Walk::new(code);
    // "scans q (1 to 1,365)"
    let scans = walk.allowed_number(|scans| 1 <= scans && scans <= 1365)?;
    // "return scan b (below q)"
    let return_scan = walk.allowed_number(|scan| scan < scans)?;
    let values = scan_values(&mut walk, scans, input_count)?;
    walk.end()?;
    Ok(Inputs { scans, return_scan, values, numbers: walk.into_numbers() })
}

/// "then one number per input variable per scan": "scan by scan"
fn scan_values(walk: &mut Walk, scans: u16, input_count: usize) -> Result<Vec<Vec<u16>>, Refusal> {
    let mut values = Vec::new();
    for _ in 0..scans {
        let mut scan = Vec::new();
        for _ in 0..input_count {
            scan.push(walk.number()?.value);
        }
        values.push(scan);
    }
    Ok(values)
}

/// The reader: the bytes of an inputs record into its numbers; answers with how many.
pub fn read_inputs(bytes: &[u8], input_count: usize, buffer: &mut [u16]) -> Result<usize, Refusal> {
    let inputs = check_inputs(Code::Bytes(bytes), input_count)?;
    fill(&inputs.numbers, buffer)
}

/// The writer: the numbers of an inputs record into its bytes; answers with how many.
pub fn write_inputs(numbers: &[u16], input_count: usize, buffer: &mut [u8]) -> Result<usize, Refusal> {
    let inputs = check_inputs(Code::Numbers(numbers), input_count)?;
    fill(&bytes_of_numbers(&inputs.numbers), buffer)
}
