//! Document 02, #107, "The hatch log", written anew over the steps of reference.rs. No step is taken back here: a `back` leaves the steps that
//! stand, and they are made again from the fresh run, each at its own rates. "A trial taken back was never made."

use crate::reference::{self, Heading, Made, Meadow, Refusal, Rules, Run, CLOSED, MOST_TEXT};

const MOST_HATCHES: u32 = 9;
const LAST_CLOCK: u32 = 604_800_000;
const MOST_LITRES: u32 = 100_000;
const MOST_INFLOW_ROWS: usize = 64;
/// "The program keeps as many records as 16,384 numbers hold, at most 64."
const MOST_NUMBERS: usize = 16_384;
const MOST_KEPT: usize = 64;

/// "A hatch runs at its last written rate, 0 before its first line."
#[derive(Clone, Copy)]
struct Hatch {
    number: u32,
    row: u32,
    column: u32,
    litres: u32,
}

struct Evening {
    fresh: Meadow,
    rules: Rules,
    meadow: Meadow,
    run: Run,
    /// while hatches may be named
    opening: bool,
    hatches: Vec<Hatch>,
    /// of each step that stands, the hatches when it began
    standing: Vec<Vec<Hatch>>,
    kept: usize,
}

enum Line {
    Names { number: u32, row: u32, column: u32 },
    Writes { clock: u32, number: u32, litres: u32 },
    Back { count: u32 },
}

/// "Lines of clock, hatch number, litres per second", "`hatch`, number, row, column" and "`back`, count".
fn line_of(text: &[u8]) -> Option<Line> {
    let fields: Vec<&[u8]> = text.split(|byte| *byte == b'\t').collect();
    let numbers = |from: usize| fields[from..].iter().map(|field| reference::number(field)).collect::<Option<Vec<u32>>>();
    match (fields[0], fields.len()) {
        (b"hatch", 4) => numbers(1).map(|said| Line::Names { number: said[0], row: said[1], column: said[2] }),
        (b"back", 2) => numbers(1).map(|said| Line::Back { count: said[0] }),
        (_, 3) => numbers(0).map(|said| Line::Writes { clock: said[0], number: said[1], litres: said[2] }),
        _ => None,
    }
}

fn without_line(number: u32) -> Refusal {
    Refusal { number, line: 0 }
}

impl Evening {
    fn begun(meadow: Meadow, heading: &Heading) -> Result<Evening, Refusal> {
        let mut fresh = meadow;
        let run = reference::fresh(&mut fresh, &heading.rules).map_err(without_line)?;
        let meadow = fresh.clone();
        Ok(Evening { fresh, rules: heading.rules, meadow, run, opening: true, hatches: Vec::new(), standing: Vec::new(), kept: 0 })
    }

    /// "A step's inflow table is the sheet's rows plus, for each hatch, one row from 0 to 604,800,000 at the rate it has then."
    fn step(&mut self) -> Result<(), u32> {
        self.meadow.inflow = self.fresh.inflow.clone();
        for hatch in &self.hatches {
            self.meadow.inflow.extend([hatch.row, hatch.column, 0, LAST_CLOCK, hatch.litres]);
        }
        self.run = reference::step(&mut self.meadow, &self.rules, &self.run)?;
        self.standing.push(self.hatches.clone());
        Ok(())
    }

    fn names(&mut self, number: u32, row: u32, column: u32, line: u64) -> Result<(), Refusal> {
        let twice = self.hatches.iter().any(|hatch| hatch.number == number);
        if !self.opening || number < 1 || number > MOST_HATCHES || twice {
            return Err(Refusal { number: 12, line });
        }
        let (at_row, at_column) = (row as usize, column as usize);
        let missing = at_row >= self.fresh.rows || at_column >= self.fresh.columns;
        let rows = self.fresh.inflow.len() / 5 + self.hatches.len() + 1;
        if missing || self.fresh.marks[at_row * self.fresh.columns + at_column] == CLOSED || rows > MOST_INFLOW_ROWS {
            return Err(without_line(4));
        }
        self.hatches.push(Hatch { number, row, column, litres: 0 });
        Ok(())
    }

    fn writes(&mut self, clock: u32, number: u32, litres: u32, line: u64) -> Result<(), Refusal> {
        let named = self.hatches.iter().position(|hatch| hatch.number == number).ok_or(Refusal { number: 12, line })?;
        let clock = clock as u64;
        if clock % self.rules.update != 0 || clock > LAST_CLOCK as u64 || clock < self.run.clock {
            return Err(Refusal { number: 12, line });
        }
        if litres > MOST_LITRES {
            return Err(without_line(4));
        }
        self.opening = false;
        while self.run.clock < clock {
            self.step().map_err(without_line)?;
            self.kept = (self.kept + 1).min(MOST_KEPT).min(MOST_NUMBERS / self.fresh.record_size());
        }
        self.hatches[named].litres = litres;
        Ok(())
    }

    /// "Takes that many steps back and the log goes on from there, with hatch rates as they stood when the earliest of those steps began."
    fn back(&mut self, count: u32) -> Result<(), Refusal> {
        let count = count as usize;
        if count > self.kept {
            return Err(without_line(10));
        }
        self.opening = false;
        if count == 0 {
            return Ok(());
        }
        self.kept -= count;
        let mut stands = std::mem::take(&mut self.standing);
        let gone = stands.split_off(stands.len() - count);
        self.meadow = self.fresh.clone();
        self.run = reference::fresh(&mut self.meadow, &self.rules).map_err(without_line)?;
        for hatches in stands {
            self.hatches = hatches;
            self.step().map_err(without_line)?;
        }
        self.hatches = gone[0].clone();
        Ok(())
    }

    /// What is printed of a line.
    fn take(&mut self, text: &[u8], line: u64) -> Result<Vec<u8>, Refusal> {
        match line_of(text).ok_or(Refusal { number: 12, line })? {
            Line::Names { number, row, column } => return self.names(number, row, column, line).map(|_| Vec::new()),
            Line::Writes { clock, number, litres } => self.writes(clock, number, litres, line)?,
            Line::Back { count } => self.back(count)?,
        }
        Ok(reference::printed(&self.meadow, &Made { number: 0, steps: self.standing.len() as u64, run: self.run }))
    }
}

fn taken(sheet: &[u8], log: &[u8], told: &mut Vec<u8>) -> Result<(), Refusal> {
    if log.len() > MOST_TEXT {
        return Err(Refusal { number: 12, line: 0 });
    }
    let (meadow, heading) = reference::within_limits(sheet)?;
    let mut evening = Evening::begun(meadow, &heading)?;
    let (lines, unended) = reference::lines(log);
    for (at, line) in lines.iter().enumerate() {
        told.extend(evening.take(line, at as u64 + 1)?);
    }
    if unended {
        return Err(Refusal { number: 12, line: lines.len() as u64 + 1 });
    }
    Ok(())
}

/// The program `hatchlog`: the texts of a sheet and a log in, what is printed out.
pub fn hatchlog(sheet: &[u8], log: &[u8]) -> Vec<u8> {
    let mut told = Vec::new();
    if let Err(refusal) = taken(sheet, log, &mut told) {
        told.extend(reference::refused_line(&refusal));
    }
    told
}
