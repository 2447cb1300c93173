//! Document 02, #114, "Which squares drown most often", written anew over the steps of reference.rs. Of each accepted sheet the highest depths
//! are kept whole; the answer is looked up in them at the end, in the document's own words.

use crate::reference::{self, Meadow, Refusal, Run, Rules, MOST_TEXT};

const MOST_DEPTH: u32 = 100_000_000;
const MOST_SHEETS: usize = 200;

/// The highest depth of a square, and the clock of the first state that had it.
#[derive(Clone, Copy)]
struct Peak {
    depth: u32,
    clock: u64,
}

/// A sheet that ran to its end, with the peak of each square; those of closed squares mean nothing.
struct Ran {
    meadow: Meadow,
    run: Run,
    steps: u64,
    peaks: Vec<Peak>,
}

/// "How many sheets had it at least that deep at any state of the run": the starting state is one.
fn run_with_peaks(mut meadow: Meadow, rules: &Rules, end: u64) -> Result<Ran, u32> {
    let mut run = reference::fresh(&mut meadow, rules)?;
    let mut peaks: Vec<Peak> = meadow.depths.iter().map(|depth| Peak { depth: *depth, clock: run.clock }).collect();
    let mut steps = 0;
    while run.clock < end {
        run = reference::step(&mut meadow, rules, &run)?;
        steps += 1;
        for (peak, depth) in peaks.iter_mut().zip(&meadow.depths) {
            if *depth > peak.depth {
                *peak = Peak { depth: *depth, clock: run.clock };
            }
        }
    }
    Ok(Ran { meadow, run, steps, peaks })
}

fn without_line(number: u32) -> Refusal {
    Refusal { number, line: 0 }
}

/// The place of each square that is not closed, in square order, with its number in the grid.
fn ground(meadow: &Meadow) -> impl Iterator<Item = (usize, usize, usize)> + '_ {
    let squares = (0..meadow.squares()).filter(|square| meadow.marks[*square] != reference::CLOSED);
    squares.map(|square| (square / meadow.columns, square % meadow.columns, square))
}

/// The program `highest`: a sheet's text in, what is printed out.
pub fn highest(text: &[u8]) -> Vec<u8> {
    let ran = reference::within_limits(text)
        .and_then(|(meadow, heading)| run_with_peaks(meadow, &heading.rules, heading.end).map_err(without_line));
    let ran = match ran {
        Ok(ran) => ran,
        Err(refusal) => return reference::refused_line(&refusal),
    };
    let mut told = String::new();
    for (row, column, square) in ground(&ran.meadow) {
        told += &format!("cell\t{}\t{}\t{}\t{}\n", row, column, ran.peaks[square].depth, ran.peaks[square].clock);
    }
    told += &format!("out\t{}\nsoak\t{}\nsteps\t{}\nclock\t{}\n", ran.run.outflow, ran.run.soaked, ran.steps, ran.run.clock);
    told.into_bytes()
}

/// "A depth on its first line, then up to 200 sheets' file names, one a line"; None for a last name that has no newline.
fn list(given: &[u8]) -> Result<(u32, Vec<Option<&[u8]>>), Refusal> {
    if given.len() > MOST_TEXT {
        return Err(without_line(12));
    }
    let (lines, unended) = reference::lines(given);
    let depth = lines.first().and_then(|line| reference::number(line)).ok_or(Refusal { number: 12, line: 1 })?;
    if depth > MOST_DEPTH {
        return Err(without_line(5));
    }
    let mut names: Vec<Option<&[u8]>> = lines[1..].iter().map(|name| Some(*name)).collect();
    if unended {
        names.push(None);
    }
    if names.len() > MOST_SHEETS {
        return Err(without_line(16));
    }
    Ok((depth, names))
}

/// "One whose shape or marks differ from the first accepted one's with 14, before its run."
fn accepted(text: Option<Vec<u8>>, first: Option<&Ran>) -> Result<Ran, u32> {
    let (meadow, heading) = reference::within_limits(&text.ok_or(12u32)?).map_err(|refusal| refusal.number)?;
    if let Some(Ran { meadow: plan, .. }) = first {
        if (meadow.rows, meadow.columns) != (plan.rows, plan.columns) || meadow.marks != plan.marks {
            return Err(14);
        }
    }
    run_with_peaks(meadow, &heading.rules, heading.end)
}

/// "Row, column, how many sheets had it at least that deep .., the deepest value, and the place in the list (from 1) of the sheet that first
/// gave it."
fn square_line(depth: u32, ran: &[(usize, Ran)], (row, column, square): (usize, usize, usize)) -> String {
    let peak = |sheet: &(usize, Ran)| sheet.1.peaks[square].depth;
    let count = ran.iter().filter(|sheet| peak(sheet) >= depth).count();
    let deepest = ran.iter().map(peak).max().unwrap_or(0);
    let first = ran.iter().find(|sheet| peak(sheet) == deepest).map_or(0, |sheet| sheet.0);
    format!("{}\t{}\t{}\t{}\t{}\n", row, column, count, deepest, first)
}

/// The program `drowned`: the bytes at its standard input in, what is printed out; `open` gives the bytes of a name.
pub fn drowned(given: &[u8], open: impl Fn(&[u8]) -> Option<Vec<u8>>) -> Vec<u8> {
    let (depth, names) = match list(given) {
        Ok(said) => said,
        Err(refusal) => return reference::refused_line(&refusal),
    };
    let (mut ran, mut refused): (Vec<(usize, Ran)>, Vec<(usize, u32)>) = (Vec::new(), Vec::new());
    for (at, name) in names.iter().enumerate() {
        match accepted(name.and_then(&open), ran.first().map(|sheet| &sheet.1)) {
            Ok(sheet) => ran.push((at + 1, sheet)),
            Err(number) => refused.push((at + 1, number)),
        }
    }
    let mut told = String::new();
    if let Some((_, first)) = ran.first() {
        told.extend(ground(&first.meadow).map(|place| square_line(depth, &ran, place)));
    }
    told += &format!("{}\t{}\n", ran.len(), refused.len());
    told.extend(refused.iter().map(|(place, number)| format!("{}\t{}\n", place, number)));
    told.into_bytes()
}
