//! Document 02, #111, "Holes in a survey", written anew over the sheets of reference.rs. A square's round is found as its way to the nearest bed
//! that was seen, and not round by round.

use crate::reference::{self, Meadow, Refusal};
use std::collections::VecDeque;

/// `meadow`'s limit, by which no `?` is looked for in a larger grid.
const MOST_SQUARES: u64 = 1_024;
/// What the ordinary reader is given for a `?`.
const PLUG: &[u8] = b"0";

/// A `?` for a bed: its square, and where in the text it stands.
struct Hole {
    square: usize,
    at: usize,
}

/// How many squares line 1 says, and in how many columns; none where it cannot be read, or says too many.
fn shape(text: &[u8]) -> (u64, u64) {
    let first = reference::lines(text).0.first().and_then(|line| reference::word_and_numbers(line, "grid", 3));
    let (rows, columns) = first.map_or((0, 0), |numbers| (numbers[0] as u64, numbers[1] as u64));
    match rows * columns {
        squares if squares <= MOST_SQUARES => (squares, columns),
        _ => (0, 0),
    }
}

/// Where the line of a number, from 0, begins.
fn line_start(text: &[u8], number: usize) -> Option<usize> {
    if number == 0 {
        return Some(0);
    }
    text.iter().enumerate().filter(|(_, byte)| **byte == b'\n').nth(number - 1).map(|(at, _)| at + 1)
}

/// "The survey leaves `?` for a bed it couldn't see": of an open square or an exit, and nowhere else.
fn holes(text: &[u8]) -> Vec<Hole> {
    let (squares, columns) = shape(text);
    let mut found = Vec::new();
    for square in 0..squares {
        let from = match line_start(text, square as usize + 2) {
            Some(from) => from,
            None => return found,
        };
        for mark in ["o", "e"] {
            let head = format!("cell\t{}\t{}\t{}\t", square / columns, square % columns, mark);
            if text[from..].starts_with(format!("{}?\t", head).as_bytes()) {
                found.push(Hole { square: square as usize, at: from + head.len() });
            }
        }
    }
    found
}

/// "Nothing else in the sheet changes": the text with another one for each `?`.
fn with_beds(text: &[u8], holes: &[Hole], bed: impl Fn(usize) -> Vec<u8>) -> Vec<u8> {
    let (mut made, mut past) = (Vec::new(), 0);
    for hole in holes {
        made.extend_from_slice(&text[past..hole.at]);
        made.extend(bed(hole.square));
        past = hole.at + 1;
    }
    made.extend_from_slice(&text[past..]);
    made
}

/// The squares beside one that are on the grid and not closed.
fn beside(meadow: &Meadow, square: usize) -> Vec<usize> {
    let (rows, columns) = (meadow.rows as i64, meadow.columns as i64);
    let (row, column) = (square as i64 / columns, square as i64 % columns);
    let near = [(row - 1, column), (row, column + 1), (row + 1, column), (row, column - 1)];
    let there = near.iter().filter(|(row, column)| (0..rows).contains(row) && (0..columns).contains(column));
    there.map(|(row, column)| (row * columns + column) as usize).filter(|square| meadow.marks[*square] != reference::CLOSED).collect()
}

/// The way of each square to the nearest bed that was seen, over squares that are not closed: 0 for that square itself, None where there is none.
fn ways(meadow: &Meadow, unseen: &[bool]) -> Vec<Option<usize>> {
    let seen = |square: &usize| meadow.marks[*square] != reference::CLOSED && !unseen[*square];
    let mut next: VecDeque<usize> = (0..meadow.squares()).filter(seen).collect();
    let mut ways: Vec<Option<usize>> = (0..meadow.squares()).map(|square| if seen(&square) { Some(0) } else { None }).collect();
    while let Some(square) = next.pop_front() {
        for other in beside(meadow, square) {
            if ways[other].is_none() {
                ways[other] = ways[square].map(|way| way + 1);
                next.push_back(other);
            }
        }
    }
    ways
}

/// "Takes the lowest of those neighbours' beds as they were before the round": the neighbours of a round before are all one step nearer.
fn fill(meadow: &mut Meadow, ways: &[Option<usize>]) {
    let mut order: Vec<(usize, usize)> = ways.iter().enumerate().filter_map(|(square, way)| way.map(|way| (way, square))).collect();
    order.sort_unstable();
    for (way, square) in order.into_iter().filter(|(way, _)| *way > 0) {
        let nearer = beside(meadow, square).into_iter().filter(|other| ways[*other] == Some(way - 1));
        meadow.beds[square] = nearer.map(|other| meadow.beds[other]).min().expect("a way has a square before it");
    }
}

/// "For each `?` in square order a tab-parted line: row, column, bed given, round (from 1)."
fn listed(meadow: &Meadow, ways: &[Option<usize>], square: usize) -> String {
    let given = ways[square].map_or("-\t-".to_string(), |way| format!("{}\t{}", meadow.beds[square], way));
    format!("{}\t{}\t{}\n", square / meadow.columns, square % meadow.columns, given)
}

fn repaired(text: &[u8]) -> Result<Vec<u8>, Refusal> {
    let holes = holes(text);
    let (mut meadow, _) = reference::within_limits(&with_beds(text, &holes, |_| PLUG.to_vec()))?;
    let mut unseen = vec![false; meadow.squares()];
    holes.iter().for_each(|hole| unseen[hole.square] = true);
    let ways = ways(&meadow, &unseen);
    fill(&mut meadow, &ways);
    let bed = |square: usize| ways[square].map_or(b"?".to_vec(), |_| meadow.beds[square].to_string().into_bytes());
    let mut told = with_beds(text, &holes, bed);
    holes.iter().for_each(|hole| told.extend(listed(&meadow, &ways, hole.square).into_bytes()));
    Ok(told)
}

/// What `repair` prints of a text.
pub fn repair(text: &[u8]) -> Vec<u8> {
    repaired(text).unwrap_or_else(|refusal| reference::refused_line(&refusal))
}
