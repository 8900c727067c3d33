//! The entries that are measured, as safe functions: a slice is valid for its length, and `&mut` overlaps nothing.

use crate::peers::Answer;

/// An answer as include/scancheck.h has it.
#[repr(C)]
#[derive(Clone, Copy, Debug, PartialEq, Eq)]
pub struct Told {
    pub refusal: u64,
    pub first: u64,
    pub second: u64,
}

impl From<Answer> for Told {
    fn from(answer: Answer) -> Told {
        match answer {
            Ok((first, second)) => Told { refusal: 0, first: first as u64, second: second as u64 },
            Err(refusal) => Told { refusal: refusal.number as u64, first: refusal.place as u64, second: 0 },
        }
    }
}

extern "C" {
    fn scancheck_read_table(code: *const u8, length: usize, out: *mut u16, room: usize) -> Told;
    fn scancheck_translate(code: *const u8, length: usize, out: *mut u8, room: usize) -> Told;
    fn scancheck_judge(
        translated: bool,
        code: *const u8,
        length: usize,
        trace: *const u8,
        trace_length: usize,
        start: usize,
        work: *mut u8,
        work_length: usize,
        list: *mut u8,
        list_length: usize,
    ) -> Told;
    fn scancheck_run(
        table: *const u8,
        table_length: usize,
        inputs: *const u8,
        inputs_length: usize,
        trace: *mut u8,
        trace_length: usize,
    ) -> Told;
}

pub fn read_table(code: &[u8], out: &mut [u16]) -> Told {
    unsafe { scancheck_read_table(code.as_ptr(), code.len(), out.as_mut_ptr(), out.len()) }
}

pub fn translate(code: &[u8], out: &mut [u8]) -> Told {
    unsafe { scancheck_translate(code.as_ptr(), code.len(), out.as_mut_ptr(), out.len()) }
}

pub fn judge(translated: bool, code: &[u8], trace: &[u8], start: usize, work: &mut [u8], list: &mut [u8]) -> Told {
    unsafe {
        scancheck_judge(
            translated,
            code.as_ptr(),
            code.len(),
            trace.as_ptr(),
            trace.len(),
            start,
            work.as_mut_ptr(),
            work.len(),
            list.as_mut_ptr(),
            list.len(),
        )
    }
}

pub fn run(table: &[u8], inputs: &[u8], trace: &mut [u8]) -> Told {
    let room = trace.len();
    unsafe { scancheck_run(table.as_ptr(), table.len(), inputs.as_ptr(), inputs.len(), trace.as_mut_ptr(), room) }
}
