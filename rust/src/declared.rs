//! The exported functions as a Rust program links and calls them. Made from crates/exports/src by tools/header.py, and kept true by
//! tests/header.py.

/// a wall: no water enters it or leaves it
pub const MARK_CLOSED: u8 = 0;
pub const MARK_OPEN: u8 = 1;
/// open, on the rim, and water may leave the grid there
pub const MARK_EXIT: u8 = 2;
/// numbers of one rain row: from, to, rate
pub const RAIN_WIDTH: usize = 3;
/// numbers of one inflow row: row, column, from, to, litres per second
pub const INFLOW_WIDTH: usize = 5;
/// numbers of a record before its squares
pub const RECORD_HEAD: usize = 2;
/// numbers of a record for each square
pub const RECORD_SQUARE: usize = 7;
pub const RULES_NUMBERS: usize = 7;
pub const RUN_NUMBERS: usize = 6;
pub const STEPS_NUMBERS: usize = 1;
pub const BOUNDS_NUMBERS: usize = 2;
pub const SPEED_NUMBERS: usize = 2;
pub const COUNT_NUMBERS: usize = 1;
pub const HEADING_NUMBERS: usize = 12;
pub const LINE_NUMBERS: usize = 1;
pub const OUT_ROOM: usize = 40960;
/// numbers of a room for any sheet's rain
pub const RAIN_ROOM: usize = 192;
/// numbers of a room for any sheet's inflow
pub const INFLOW_ROOM: usize = 320;
/// flood_arrow: the speeds are written
pub const MOVING: u32 = 0;
/// flood_arrow: what the square is instead
pub const CLOSED: u32 = 101;
pub const DRY: u32 = 102;
pub const STILL: u32 = 103;
/// flood_step_bounds: both figures are written
pub const BOUNDED: u32 = 0;
/// flood_step_bounds: the clock is no multiple of U, or past the end
pub const NOT_BOUNDED: u32 = 104;
pub const REFUSED_SHAPE: u32 = 1;
pub const REFUSED_GROUND: u32 = 2;
pub const REFUSED_WATER: u32 = 3;
pub const REFUSED_TABLE: u32 = 4;
pub const REFUSED_RULES: u32 = 5;
pub const REFUSED_RUN: u32 = 6;
pub const REFUSED_CLOCK: u32 = 7;
pub const REFUSED_DEPTH: u32 = 8;
pub const REFUSED_OUTFLOW: u32 = 9;
pub const REFUSED_NONE_KEPT: u32 = 10;
pub const REFUSED_RECORD: u32 = 11;
pub const REFUSED_TEXT: u32 = 12;
pub const REFUSED_SOAKED: u32 = 15;
pub const HEADING_RULES: usize = 2;
pub const HEADING_END: usize = 9;
pub const HEADING_RAIN_ROWS: usize = 10;
pub const HEADING_INFLOW_ROWS: usize = 11;

/// The numbers of one record.
pub const fn record_numbers(rows: usize, columns: usize) -> usize {
    RECORD_HEAD + RECORD_SQUARE * rows * columns
}

/// KiB of stack that suffice for each call.
pub const STACK: [(&str, usize); 11] = [
    ("flood_fresh", 16),
    ("flood_step", 176),
    ("flood_step_wet", 176),
    ("flood_run_to", 176),
    ("flood_run_to_wet", 176),
    ("flood_take_back", 16),
    ("flood_step_bounds", 16),
    ("flood_arrow", 16),
    ("flood_wet_rows", 16),
    ("flood_read_sheet", 224),
    ("flood_meadow", 352),
];

mod linked {
    extern "C" {
        pub fn flood_fresh(rows: usize, columns: usize, rules: *const u64, rules_numbers: usize, marks: *const u8,
            marks_numbers: usize, lasts: *mut u32, lasts_numbers: usize, records: *const u32, records_numbers: usize,
            run: *mut u64, run_numbers: usize) -> u32;

        pub fn flood_step(rows: usize, columns: usize, rules: *const u64, rules_numbers: usize, marks: *const u8,
            marks_numbers: usize, beds: *const u32, beds_numbers: usize, roughness: *const u32,
            roughness_numbers: usize, rates: *const u32, rates_numbers: usize, rain: *const u32, rain_numbers: usize,
            inflow: *const u32, inflow_numbers: usize, depths: *mut u32, depths_numbers: usize, lasts: *mut u32,
            lasts_numbers: usize, records: *mut u32, records_numbers: usize, run: *mut u64,
            run_numbers: usize) -> u32;

        pub fn flood_step_wet(rows: usize, columns: usize, rules: *const u64, rules_numbers: usize, marks: *const u8,
            marks_numbers: usize, beds: *const u32, beds_numbers: usize, roughness: *const u32,
            roughness_numbers: usize, rates: *const u32, rates_numbers: usize, rain: *const u32, rain_numbers: usize,
            inflow: *const u32, inflow_numbers: usize, depths: *mut u32, depths_numbers: usize, lasts: *mut u32,
            lasts_numbers: usize, records: *mut u32, records_numbers: usize, run: *mut u64,
            run_numbers: usize) -> u32;

        pub fn flood_run_to(rows: usize, columns: usize, rules: *const u64, rules_numbers: usize, end: u64,
            marks: *const u8, marks_numbers: usize, beds: *const u32, beds_numbers: usize, roughness: *const u32,
            roughness_numbers: usize, rates: *const u32, rates_numbers: usize, rain: *const u32, rain_numbers: usize,
            inflow: *const u32, inflow_numbers: usize, depths: *mut u32, depths_numbers: usize, lasts: *mut u32,
            lasts_numbers: usize, records: *mut u32, records_numbers: usize, run: *mut u64, run_numbers: usize,
            steps: *mut u64, steps_numbers: usize) -> u32;

        pub fn flood_run_to_wet(rows: usize, columns: usize, rules: *const u64, rules_numbers: usize, end: u64,
            marks: *const u8, marks_numbers: usize, beds: *const u32, beds_numbers: usize, roughness: *const u32,
            roughness_numbers: usize, rates: *const u32, rates_numbers: usize, rain: *const u32, rain_numbers: usize,
            inflow: *const u32, inflow_numbers: usize, depths: *mut u32, depths_numbers: usize, lasts: *mut u32,
            lasts_numbers: usize, records: *mut u32, records_numbers: usize, run: *mut u64, run_numbers: usize,
            steps: *mut u64, steps_numbers: usize) -> u32;

        pub fn flood_take_back(rows: usize, columns: usize, marks: *const u8, marks_numbers: usize, depths: *mut u32,
            depths_numbers: usize, lasts: *mut u32, lasts_numbers: usize, records: *const u32, records_numbers: usize,
            run: *mut u64, run_numbers: usize) -> u32;

        pub fn flood_step_bounds(rules: *const u64, rules_numbers: usize, clock: u64, end: u64, bounds: *mut u64,
            bounds_numbers: usize) -> u32;

        pub fn flood_arrow(rows: usize, columns: usize, square_side: u64, marks: *const u8, marks_numbers: usize,
            depths: *const u32, depths_numbers: usize, records: *const u32, records_numbers: usize, run: *const u64,
            run_numbers: usize, row: usize, column: usize, speeds: *mut f64, speeds_numbers: usize) -> u32;

        pub fn flood_wet_rows(rows: usize, columns: usize, marks: *const u8, marks_numbers: usize, depths: *const u32,
            depths_numbers: usize, wet_depth: u32, wet: *mut u64, wet_numbers: usize, count: *mut u64,
            count_numbers: usize) -> u32;

        pub fn flood_read_sheet(text: *const u8, text_numbers: usize, marks: *mut u8, marks_numbers: usize,
            beds: *mut u32, beds_numbers: usize, roughness: *mut u32, roughness_numbers: usize, rates: *mut u32,
            rates_numbers: usize, depths: *mut u32, depths_numbers: usize, rain: *mut u32, rain_numbers: usize,
            inflow: *mut u32, inflow_numbers: usize, heading: *mut u64, heading_numbers: usize, line: *mut u64,
            line_numbers: usize) -> u32;

        pub fn flood_meadow(text: *const u8, text_numbers: usize, out: *mut u8, out_numbers: usize) -> usize;
    }
}

/// A fresh run: the last leaving of squares not closed becomes 0, and the run is told.
pub fn flood_fresh(rows: usize, columns: usize, rules: &[u64], marks: &[u8], lasts: &mut [u32], records: &[u32],
    run: &mut [u64]) -> u32 {
    unsafe {
        linked::flood_fresh(rows, columns, rules.as_ptr(), rules.len(), marks.as_ptr(), marks.len(),
            lasts.as_mut_ptr(), lasts.len(), records.as_ptr(), records.len(), run.as_mut_ptr(), run.len())
    }
}

/// One step: every square is worked.
pub fn flood_step(rows: usize, columns: usize, rules: &[u64], marks: &[u8], beds: &[u32], roughness: &[u32],
    rates: &[u32], rain: &[u32], inflow: &[u32], depths: &mut [u32], lasts: &mut [u32], records: &mut [u32],
    run: &mut [u64]) -> u32 {
    unsafe {
        linked::flood_step(rows, columns, rules.as_ptr(), rules.len(), marks.as_ptr(), marks.len(), beds.as_ptr(),
            beds.len(), roughness.as_ptr(), roughness.len(), rates.as_ptr(), rates.len(), rain.as_ptr(), rain.len(),
            inflow.as_ptr(), inflow.len(), depths.as_mut_ptr(), depths.len(), lasts.as_mut_ptr(), lasts.len(),
            records.as_mut_ptr(), records.len(), run.as_mut_ptr(), run.len())
    }
}

/// One step by the wet walk: only the sides of squares with water are worked.
pub fn flood_step_wet(rows: usize, columns: usize, rules: &[u64], marks: &[u8], beds: &[u32], roughness: &[u32],
    rates: &[u32], rain: &[u32], inflow: &[u32], depths: &mut [u32], lasts: &mut [u32], records: &mut [u32],
    run: &mut [u64]) -> u32 {
    unsafe {
        linked::flood_step_wet(rows, columns, rules.as_ptr(), rules.len(), marks.as_ptr(), marks.len(), beds.as_ptr(),
            beds.len(), roughness.as_ptr(), roughness.len(), rates.as_ptr(), rates.len(), rain.as_ptr(), rain.len(),
            inflow.as_ptr(), inflow.len(), depths.as_mut_ptr(), depths.len(), lasts.as_mut_ptr(), lasts.len(),
            records.as_mut_ptr(), records.len(), run.as_mut_ptr(), run.len())
    }
}

/// Steps to an end of the clock, and how many were made: every square is worked at each.
pub fn flood_run_to(rows: usize, columns: usize, rules: &[u64], end: u64, marks: &[u8], beds: &[u32], roughness: &[u32],
    rates: &[u32], rain: &[u32], inflow: &[u32], depths: &mut [u32], lasts: &mut [u32], records: &mut [u32],
    run: &mut [u64], steps: &mut [u64]) -> u32 {
    unsafe {
        linked::flood_run_to(rows, columns, rules.as_ptr(), rules.len(), end, marks.as_ptr(), marks.len(),
            beds.as_ptr(), beds.len(), roughness.as_ptr(), roughness.len(), rates.as_ptr(), rates.len(),
            rain.as_ptr(), rain.len(), inflow.as_ptr(), inflow.len(), depths.as_mut_ptr(), depths.len(),
            lasts.as_mut_ptr(), lasts.len(), records.as_mut_ptr(), records.len(), run.as_mut_ptr(), run.len(),
            steps.as_mut_ptr(), steps.len())
    }
}

/// Steps by the wet walk to an end of the clock, and how many were made: only the sides of squares with water are worked at each.
pub fn flood_run_to_wet(rows: usize, columns: usize, rules: &[u64], end: u64, marks: &[u8], beds: &[u32],
    roughness: &[u32], rates: &[u32], rain: &[u32], inflow: &[u32], depths: &mut [u32], lasts: &mut [u32],
    records: &mut [u32], run: &mut [u64], steps: &mut [u64]) -> u32 {
    unsafe {
        linked::flood_run_to_wet(rows, columns, rules.as_ptr(), rules.len(), end, marks.as_ptr(), marks.len(),
            beds.as_ptr(), beds.len(), roughness.as_ptr(), roughness.len(), rates.as_ptr(), rates.len(),
            rain.as_ptr(), rain.len(), inflow.as_ptr(), inflow.len(), depths.as_mut_ptr(), depths.len(),
            lasts.as_mut_ptr(), lasts.len(), records.as_mut_ptr(), records.len(), run.as_mut_ptr(), run.len(),
            steps.as_mut_ptr(), steps.len())
    }
}

/// The newest step taken back.
pub fn flood_take_back(rows: usize, columns: usize, marks: &[u8], depths: &mut [u32], lasts: &mut [u32],
    records: &[u32], run: &mut [u64]) -> u32 {
    unsafe {
        linked::flood_take_back(rows, columns, marks.as_ptr(), marks.len(), depths.as_mut_ptr(), depths.len(),
            lasts.as_mut_ptr(), lasts.len(), records.as_ptr(), records.len(), run.as_mut_ptr(), run.len())
    }
}

/// The most and the least steps of a run from a clock to an end, before it is made.
pub fn flood_step_bounds(rules: &[u64], clock: u64, end: u64, bounds: &mut [u64]) -> u32 {
    unsafe {
        linked::flood_step_bounds(rules.as_ptr(), rules.len(), clock, end, bounds.as_mut_ptr(), bounds.len())
    }
}

/// The flow arrow of the square in a row and a column, after the newest step kept.
pub fn flood_arrow(rows: usize, columns: usize, square_side: u64, marks: &[u8], depths: &[u32], records: &[u32],
    run: &[u64], row: usize, column: usize, speeds: &mut [f64]) -> u32 {
    unsafe {
        linked::flood_arrow(rows, columns, square_side, marks.as_ptr(), marks.len(), depths.as_ptr(), depths.len(),
            records.as_ptr(), records.len(), run.as_ptr(), run.len(), row, column, speeds.as_mut_ptr(), speeds.len())
    }
}

/// The wet rows, and their count.
pub fn flood_wet_rows(rows: usize, columns: usize, marks: &[u8], depths: &[u32], wet_depth: u32, wet: &mut [u64],
    count: &mut [u64]) -> u32 {
    unsafe {
        linked::flood_wet_rows(rows, columns, marks.as_ptr(), marks.len(), depths.as_ptr(), depths.len(), wet_depth,
            wet.as_mut_ptr(), wet.len(), count.as_mut_ptr(), count.len())
    }
}

/// Reads a sheet into rooms.
pub fn flood_read_sheet(text: &[u8], marks: &mut [u8], beds: &mut [u32], roughness: &mut [u32], rates: &mut [u32],
    depths: &mut [u32], rain: &mut [u32], inflow: &mut [u32], heading: &mut [u64], line: &mut [u64]) -> u32 {
    unsafe {
        linked::flood_read_sheet(text.as_ptr(), text.len(), marks.as_mut_ptr(), marks.len(), beds.as_mut_ptr(),
            beds.len(), roughness.as_mut_ptr(), roughness.len(), rates.as_mut_ptr(), rates.len(), depths.as_mut_ptr(),
            depths.len(), rain.as_mut_ptr(), rain.len(), inflow.as_mut_ptr(), inflow.len(), heading.as_mut_ptr(),
            heading.len(), line.as_mut_ptr(), line.len())
    }
}

/// What `meadow` prints of a text, at the start of out, and its length; 0 and nothing where out is shorter than what always suffices.
pub fn flood_meadow(text: &[u8], out: &mut [u8]) -> usize {
    unsafe {
        linked::flood_meadow(text.as_ptr(), text.len(), out.as_mut_ptr(), out.len())
    }
}
