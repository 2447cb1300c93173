//! The flood program of the mill museum for Rust: a meadow read from a sheet, stepped, run to an end, taken back and looked at. The work is done
//! by the proved library libflood.a, for x86-64; nothing here computes a depth. A trial taken back was never made.
//!
//! ```text
//! let mut meadow = flood::Meadow::read(&std::fs::read("samples/walled-evening.sheet")?, 40)?;
//! meadow.run_to(600_000)?;
//! ```
//!
//! `declared` has the library's functions on slices, as flood.h declares them, for those who keep their own arrays, and `declared_boards` the run
//! with level boards. Every array of theirs is a slice, which knows its length, so that rows cannot be passed for numbers.

pub mod declared;
pub mod declared_boards;

use declared::*;
use std::fmt;

/// The most squares of a sheet: 64 by 64.
const MOST_SQUARES: usize = 64 * 64;

/// A refused call: the number of README's table, and the sheet's line where a sheet was read, else 0. Nothing was changed, but for a run to an end
/// that is refused on its way: it stands before the step refused.
#[derive(Clone, Copy, Debug, PartialEq, Eq)]
pub struct Refused {
    pub number: u32,
    pub line: u64,
}

impl fmt::Display for Refused {
    fn fmt(&self, out: &mut fmt::Formatter) -> fmt::Result {
        match self.line {
            0 => write!(out, "refused by {}", self.number),
            line => write!(out, "refused by {} at line {}", self.number, line),
        }
    }
}

impl std::error::Error for Refused {}

/// An inflow row: litres per second into a square, from a clock to another in ms.
#[derive(Clone, Copy, Debug, PartialEq, Eq)]
pub struct Inflow {
    pub row: u32,
    pub column: u32,
    pub from: u32,
    pub to: u32,
    pub litres: u32,
}

/// What is seen of a square after the newest step kept; speeds are in m/s.
#[derive(Clone, Copy, Debug, PartialEq)]
pub enum Sight {
    Closed,
    Dry,
    Still,
    Moving { east: f64, north: f64 },
}

/// One meadow with its run. Depths are in µm, clocks in ms, totals in µm over one square.
#[derive(Clone, Debug, PartialEq)]
pub struct Meadow {
    rows: usize,
    columns: usize,
    rules: [u64; RULES_NUMBERS],
    end: u64,
    marks: Vec<u8>,
    beds: Vec<u32>,
    roughness: Vec<u32>,
    rates: Vec<u32>,
    rain: Vec<u32>,
    inflow: Vec<u32>,
    depths: Vec<u32>,
    lasts: Vec<u32>,
    records: Vec<u32>,
    run: [u64; RUN_NUMBERS],
}

/// Nothing, or the refusal of this number.
fn done(number: u32) -> Result<(), Refused> {
    match number {
        0 => Ok(()),
        number => Err(Refused { number, line: 0 }),
    }
}

impl Meadow {
    /// A sheet at its fresh run; up to `kept` steps can be taken back, and 0 is refused by 6.
    pub fn read(sheet: &[u8], kept: usize) -> Result<Meadow, Refused> {
        let numbers = || vec![0; MOST_SQUARES];
        let (mut marks, mut rain, mut inflow) = (vec![0; MOST_SQUARES], vec![0; RAIN_ROOM], vec![0; INFLOW_ROOM]);
        let (mut beds, mut roughness, mut rates, mut depths) = (numbers(), numbers(), numbers(), numbers());
        let (mut heading, mut line) = ([0; HEADING_NUMBERS], [0; LINE_NUMBERS]);
        let number = flood_read_sheet(
            sheet, &mut marks, &mut beds, &mut roughness, &mut rates, &mut depths, &mut rain, &mut inflow, &mut heading, &mut line,
        );
        if number != 0 {
            return Err(Refused { number, line: line[0] });
        }
        let (rows, columns) = (heading[0] as usize, heading[1] as usize);
        let squares = rows * columns;
        marks.truncate(squares);
        for of_squares in [&mut beds, &mut roughness, &mut rates, &mut depths] {
            of_squares.truncate(squares);
        }
        rain.truncate(RAIN_WIDTH * heading[HEADING_RAIN_ROWS] as usize);
        inflow.truncate(INFLOW_WIDTH * heading[HEADING_INFLOW_ROWS] as usize);
        let mut rules = [0; RULES_NUMBERS];
        rules.copy_from_slice(&heading[HEADING_RULES..HEADING_END]);
        let (lasts, records) = (vec![0; squares], vec![0; kept * record_numbers(rows, columns)]);
        let (end, run) = (heading[HEADING_END], [0; RUN_NUMBERS]);
        let mut meadow = Meadow { rows, columns, rules, end, marks, beds, roughness, rates, rain, inflow, depths, lasts, records, run };
        done(flood_fresh(rows, columns, &meadow.rules, &meadow.marks, &mut meadow.lasts, &meadow.records, &mut meadow.run))?;
        Ok(meadow)
    }

    /// One step.
    pub fn step(&mut self) -> Result<(), Refused> {
        done(flood_step_wet(
            self.rows, self.columns, &self.rules,
            &self.marks, &self.beds, &self.roughness, &self.rates, &self.rain, &self.inflow,
            &mut self.depths, &mut self.lasts, &mut self.records, &mut self.run,
        ))
    }

    /// Steps to an end of the clock, a multiple of the update time; how many they were.
    pub fn run_to(&mut self, end: u64) -> Result<u64, Refused> {
        let mut steps = [0; STEPS_NUMBERS];
        done(flood_run_to_wet(
            self.rows, self.columns, &self.rules, end,
            &self.marks, &self.beds, &self.roughness, &self.rates, &self.rain, &self.inflow,
            &mut self.depths, &mut self.lasts, &mut self.records, &mut self.run, &mut steps,
        ))?;
        Ok(steps[0])
    }

    /// The newest step taken back, as if it had never been made.
    pub fn back(&mut self) -> Result<(), Refused> {
        done(flood_take_back(
            self.rows, self.columns, &self.marks, &mut self.depths, &mut self.lasts, &self.records, &mut self.run,
        ))
    }

    /// The flow arrow of a square.
    pub fn arrow(&self, row: usize, column: usize) -> Result<Sight, Refused> {
        let mut speeds = [0.0; SPEED_NUMBERS];
        let side = self.rules[0];
        match flood_arrow(self.rows, self.columns, side, &self.marks, &self.depths, &self.records, &self.run, row, column, &mut speeds) {
            MOVING => Ok(Sight::Moving { east: speeds[0], north: speeds[1] }),
            CLOSED => Ok(Sight::Closed),
            DRY => Ok(Sight::Dry),
            STILL => Ok(Sight::Still),
            number => Err(Refused { number, line: 0 }),
        }
    }

    /// For each row of the grid a number whose bit c says whether the square in column c is at least so deep, and how many squares are.
    pub fn wet_rows(&self, depth: u32) -> Result<(Vec<u64>, u64), Refused> {
        let (mut wet, mut count) = (vec![0; self.rows], [0; COUNT_NUMBERS]);
        done(flood_wet_rows(self.rows, self.columns, &self.marks, &self.depths, depth, &mut wet, &mut count))?;
        Ok((wet, count[0]))
    }

    /// The inflow rows from now on, in place of those before. A row that is wrong is refused by 4 at the next step.
    pub fn set_inflow(&mut self, rows: &[Inflow]) {
        self.inflow = rows.iter().flat_map(|row| [row.row, row.column, row.from, row.to, row.litres]).collect();
    }

    /// The inflow rows that hold.
    pub fn inflow(&self) -> Vec<Inflow> {
        let row = |row: &[u32]| Inflow { row: row[0], column: row[1], from: row[2], to: row[3], litres: row[4] };
        self.inflow.chunks(INFLOW_WIDTH).map(row).collect()
    }

    pub fn rows(&self) -> usize {
        self.rows
    }

    pub fn columns(&self) -> usize {
        self.columns
    }

    /// The end that the sheet gives.
    pub fn end(&self) -> u64 {
        self.end
    }

    pub fn is_closed(&self, row: usize, column: usize) -> bool {
        self.marks[row * self.columns + column] == MARK_CLOSED
    }

    pub fn depth(&self, row: usize, column: usize) -> u32 {
        self.depths[row * self.columns + column]
    }

    /// All depths, row by row.
    pub fn depths(&self) -> &[u32] {
        &self.depths
    }

    pub fn clock(&self) -> u64 {
        self.run[0]
    }

    /// What has left by the exits.
    pub fn outflow(&self) -> u64 {
        self.run[2]
    }

    /// What has soaked into the ground.
    pub fn soaked(&self) -> u64 {
        self.run[5]
    }

    /// How many steps can be taken back.
    pub fn kept(&self) -> u64 {
        self.run[3]
    }
}
