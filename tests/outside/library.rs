//! The static library's calls on a meadow, steps and runs by either walk, and rules and run as the numbers that go in and come out.

use flood::declared::*;
use flood::declared_boards::{flood_run_to_boards, Board};
use crate::lent::RunTo;
use crate::reference::{Meadow, Rules, Run};

/// Whether a step works the sides of all squares, or of those with water: two engines, with a function each for a step and for a run.
#[derive(Clone, Copy, PartialEq, Eq, PartialOrd, Ord, Debug)]
pub enum Walk {
    All,
    Wet,
}

impl Walk {
    pub fn name(self) -> &'static str {
        match self {
            Walk::All => "the library",
            Walk::Wet => "the library's wet walk",
        }
    }
}

pub fn rules_numbers(rules: &Rules) -> [u64; RULES_NUMBERS] {
    [rules.square_side, rules.tolerance, rules.shortest, rules.longest, rules.update, rules.edge, rules.edition]
}

pub fn run_numbers(run: &Run) -> [u64; RUN_NUMBERS] {
    [run.clock, run.length, run.outflow, run.kept as u64, run.newest as u64, run.soaked]
}

pub fn run_of(numbers: &[u64]) -> Run {
    let (kept, newest) = (numbers[3] as usize, numbers[4] as usize);
    Run { clock: numbers[0], length: numbers[1], outflow: numbers[2], kept, newest, soaked: numbers[5] }
}

pub fn fresh(meadow: &mut Meadow, rules: &[u64], run: &mut [u64]) -> u32 {
    flood_fresh(meadow.rows, meadow.columns, rules, &meadow.marks, &mut meadow.lasts, &meadow.records, run)
}

pub fn step(walk: Walk, meadow: &mut Meadow, rules: &[u64], run: &mut [u64]) -> u32 {
    let step_by = match walk {
        Walk::All => flood_step,
        Walk::Wet => flood_step_wet,
    };
    step_by(
        meadow.rows, meadow.columns, rules,
        &meadow.marks, &meadow.beds, &meadow.roughness, &meadow.rates, &meadow.rain, &meadow.inflow,
        &mut meadow.depths, &mut meadow.lasts, &mut meadow.records, run,
    )
}

pub fn run_to(walk: Walk, meadow: &mut Meadow, rules: &[u64], end: u64, run: &mut [u64], steps: &mut [u64]) -> u32 {
    let engine = match walk {
        Walk::All => flood_run_to,
        Walk::Wet => flood_run_to_wet,
    };
    run_to_by(engine, meadow, rules, end, run, steps)
}

/// The same by any engine that has the parameters of `flood_run_to`.
pub fn run_to_by(engine: RunTo, meadow: &mut Meadow, rules: &[u64], end: u64, run: &mut [u64], steps: &mut [u64]) -> u32 {
    engine(
        meadow.rows, meadow.columns, rules, end,
        &meadow.marks, &meadow.beds, &meadow.roughness, &meadow.rates, &meadow.rain, &meadow.inflow,
        &mut meadow.depths, &mut meadow.lasts, &mut meadow.records, run, steps,
    )
}

pub fn run_to_boards(meadow: &mut Meadow, rules: &[u64], end: u64, run: &mut [u64], steps: &mut [u64], boards: &mut [Board]) -> u32 {
    flood_run_to_boards(
        meadow.rows, meadow.columns, rules, end,
        &meadow.marks, &meadow.beds, &meadow.roughness, &meadow.rates, &meadow.rain, &meadow.inflow,
        &mut meadow.depths, &mut meadow.lasts, &mut meadow.records, run, steps, boards,
    )
}

pub fn take_back(meadow: &mut Meadow, run: &mut [u64]) -> u32 {
    flood_take_back(meadow.rows, meadow.columns, &meadow.marks, &mut meadow.depths, &mut meadow.lasts, &meadow.records, run)
}

pub fn arrow(meadow: &Meadow, square_side: u64, run: &[u64], row: usize, column: usize, speeds: &mut [f64]) -> u32 {
    flood_arrow(meadow.rows, meadow.columns, square_side, &meadow.marks, &meadow.depths, &meadow.records, run, row, column, speeds)
}

pub fn wet_rows(meadow: &Meadow, wet_depth: u32, wet: &mut [u64], count: &mut [u64]) -> u32 {
    flood_wet_rows(meadow.rows, meadow.columns, &meadow.marks, &meadow.depths, wet_depth, wet, count)
}

pub fn read_sheet(text: &[u8], rooms: &mut Meadow, heading: &mut [u64], line: &mut [u64]) -> u32 {
    flood_read_sheet(
        text,
        &mut rooms.marks, &mut rooms.beds, &mut rooms.roughness, &mut rooms.rates, &mut rooms.depths, &mut rooms.rain, &mut rooms.inflow,
        heading, line,
    )
}
