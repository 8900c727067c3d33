//! The trace of the bench case.

/// "Twelve positions, loop start 4; Input at 1, 5, 9; Output at 0, 4, 8; atom 0 at 5 to 8, atom 1 at 8 to 11."
pub const BENCH: [u8; 60] = [
    2, 0, 0, 0, 0, // 0
    0, 0, 0, 0, 0, // 1
    1, 0, 0, 0, 0, // 2
    1, 0, 0, 0, 0, // 3
    2, 0, 0, 0, 0, // 4
    0, 1, 0, 0, 0, // 5
    1, 1, 0, 0, 0, // 6
    1, 1, 0, 0, 0, // 7
    2, 3, 0, 0, 0, // 8
    0, 2, 0, 0, 0, // 9
    1, 2, 0, 0, 0, // 10
    1, 2, 0, 0, 0, // 11
];
pub const BENCH_LOOP_START: usize = 4;
