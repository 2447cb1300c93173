//! The exported run with boards as a Rust program links and calls it, and a board. Made from crates/display and crates/display_exports by
//! tools/header.py, and kept true by tests/header.py.

pub const MOST_BOARDS: usize = 16;
pub const REFUSED_BOARD: u32 = 13;

/// KiB of stack that suffice for each call.
pub const STACK: [(&str, usize); 1] = [
    ("flood_run_to_boards", 192),
];

/// A board's square and mark, which it keeps; the highest depth seen there, whether the mark was reached, and the clock when it first was (0
/// where it was not). Laid out as in C and with no enum within, so that other languages can lend a list of them.
#[repr(C)]
#[derive(Clone, Copy, Debug, PartialEq)]
pub struct Board {
    pub row: usize,
    pub column: usize,
    pub mark: u32,
    pub highest: u32,
    pub reached: bool,
    pub first: u64,
}

mod linked {
    extern "C" {
        pub fn flood_run_to_boards(rows: usize, columns: usize, rules: *const u64, rules_numbers: usize, end: u64,
            marks: *const u8, marks_numbers: usize, beds: *const u32, beds_numbers: usize, roughness: *const u32,
            roughness_numbers: usize, rates: *const u32, rates_numbers: usize, rain: *const u32, rain_numbers: usize,
            inflow: *const u32, inflow_numbers: usize, depths: *mut u32, depths_numbers: usize, lasts: *mut u32,
            lasts_numbers: usize, records: *mut u32, records_numbers: usize, run: *mut u64, run_numbers: usize,
            steps: *mut u64, steps_numbers: usize, boards: *mut super::Board, boards_count: usize) -> u32;
    }
}

/// Steps by the wet walk to an end of the clock, and how many were made, with a list of boards refreshed at the start and after each step.
pub fn flood_run_to_boards(rows: usize, columns: usize, rules: &[u64], end: u64, marks: &[u8], beds: &[u32],
    roughness: &[u32], rates: &[u32], rain: &[u32], inflow: &[u32], depths: &mut [u32], lasts: &mut [u32],
    records: &mut [u32], run: &mut [u64], steps: &mut [u64], boards: &mut [Board]) -> u32 {
    unsafe {
        linked::flood_run_to_boards(rows, columns, rules.as_ptr(), rules.len(), end, marks.as_ptr(), marks.len(),
            beds.as_ptr(), beds.len(), roughness.as_ptr(), roughness.len(), rates.as_ptr(), rates.len(),
            rain.as_ptr(), rain.len(), inflow.as_ptr(), inflow.len(), depths.as_mut_ptr(), depths.len(),
            lasts.as_mut_ptr(), lasts.len(), records.as_mut_ptr(), records.len(), run.as_mut_ptr(), run.len(),
            steps.as_mut_ptr(), steps.len(), boards.as_mut_ptr(), boards.len())
    }
}
