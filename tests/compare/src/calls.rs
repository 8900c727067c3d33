//! The C interface as safe functions: a slice is valid for its length, and `&mut` overlaps nothing.

/// An answer as include/scancheck.h has it.
#[repr(C)]
#[derive(Clone, Copy, Debug, PartialEq, Eq)]
pub struct Told {
    pub refusal: u64,
    pub first: u64,
    pub second: u64,
}

extern "C" {
    fn scancheck_read_number(code: *const u8, length: usize, at: usize) -> Told;
    fn scancheck_write_number(number: u16, buf: *mut u8, length: usize) -> Told;
    fn scancheck_check_requirement(translated: bool, code: *const u8, length: usize) -> Told;
    fn scancheck_read_requirement(translated: bool, code: *const u8, length: usize, out: *mut u16, room: usize) -> Told;
    fn scancheck_write_requirement(translated: bool, numbers: *const u16, count: usize, buf: *mut u8, room: usize) -> Told;
    fn scancheck_read_table(code: *const u8, length: usize, out: *mut u16, room: usize) -> Told;
    fn scancheck_write_table(numbers: *const u16, count: usize, buf: *mut u8, room: usize) -> Told;
    fn scancheck_read_inputs(inputs: u16, code: *const u8, length: usize, out: *mut u16, room: usize) -> Told;
    fn scancheck_write_inputs(inputs: u16, numbers: *const u16, count: usize, buf: *mut u8, room: usize) -> Told;
    fn scancheck_translate(code: *const u8, length: usize, out: *mut u8, room: usize) -> Told;
    fn scancheck_judge(
        translated: bool,
        code: *const u8,
        length: usize,
        trace: *const u8,
        trace_length: usize,
        start: usize,
        work: *mut u8,
        work_length: usize,
        list: *mut u8,
        list_length: usize,
    ) -> Told;
    fn scancheck_find(sheet: *const u8, length: usize, name: *const u8, name_length: usize) -> Told;
    fn scancheck_run(
        table: *const u8,
        table_length: usize,
        inputs: *const u8,
        inputs_length: usize,
        trace: *mut u8,
        trace_length: usize,
    ) -> Told;
}

pub fn read_number(code: &[u8], at: usize) -> Told {
    unsafe { scancheck_read_number(code.as_ptr(), code.len(), at) }
}

pub fn write_number(number: u16, buf: &mut [u8]) -> Told {
    unsafe { scancheck_write_number(number, buf.as_mut_ptr(), buf.len()) }
}

pub fn check_requirement(translated: bool, code: &[u8]) -> Told {
    unsafe { scancheck_check_requirement(translated, code.as_ptr(), code.len()) }
}

pub fn read_requirement(translated: bool, code: &[u8], out: &mut [u16]) -> Told {
    unsafe { scancheck_read_requirement(translated, code.as_ptr(), code.len(), out.as_mut_ptr(), out.len()) }
}

pub fn write_requirement(translated: bool, numbers: &[u16], buf: &mut [u8]) -> Told {
    unsafe { scancheck_write_requirement(translated, numbers.as_ptr(), numbers.len(), buf.as_mut_ptr(), buf.len()) }
}

pub fn read_table(code: &[u8], out: &mut [u16]) -> Told {
    unsafe { scancheck_read_table(code.as_ptr(), code.len(), out.as_mut_ptr(), out.len()) }
}

pub fn write_table(numbers: &[u16], buf: &mut [u8]) -> Told {
    unsafe { scancheck_write_table(numbers.as_ptr(), numbers.len(), buf.as_mut_ptr(), buf.len()) }
}

pub fn read_inputs(inputs: u16, code: &[u8], out: &mut [u16]) -> Told {
    unsafe { scancheck_read_inputs(inputs, code.as_ptr(), code.len(), out.as_mut_ptr(), out.len()) }
}

pub fn write_inputs(inputs: u16, numbers: &[u16], buf: &mut [u8]) -> Told {
    unsafe { scancheck_write_inputs(inputs, numbers.as_ptr(), numbers.len(), buf.as_mut_ptr(), buf.len()) }
}

pub fn translate(code: &[u8], out: &mut [u8]) -> Told {
    unsafe { scancheck_translate(code.as_ptr(), code.len(), out.as_mut_ptr(), out.len()) }
}

pub fn judge(translated: bool, code: &[u8], trace: &[u8], start: usize, work: &mut [u8], list: &mut [u8]) -> Told {
    unsafe {
        scancheck_judge(
            translated,
            code.as_ptr(),
            code.len(),
            trace.as_ptr(),
            trace.len(),
            start,
            work.as_mut_ptr(),
            work.len(),
            list.as_mut_ptr(),
            list.len(),
        )
    }
}

pub fn find(sheet: &[u8], name: &[u8]) -> Told {
    unsafe { scancheck_find(sheet.as_ptr(), sheet.len(), name.as_ptr(), name.len()) }
}

/// Closed: the position count and the loop start.
pub fn run(table: &[u8], inputs: &[u8], trace: &mut [u8]) -> Told {
    unsafe {
        scancheck_run(table.as_ptr(), table.len(), inputs.as_ptr(), inputs.len(), trace.as_mut_ptr(), trace.len())
    }
}
