//! Rounds of sheets: good ones, ones with a value at or past a limit, damaged ones, and the stored ones.

use crate::calls::{Tally, Text};
use crate::chance::Chance;
use flood::declared::OUT_ROOM;
use crate::meadows;
use crate::reference;
use crate::sheets;

/// Reads a text by both calls. A sheet that reads well but asks for a long run is not run.
fn both_calls(tally: &mut Tally, chance: &mut Chance, text: Vec<u8>) -> u32 {
    let wanted = squares_of(&text);
    let number = tally.read_sheet(&sheets::lent(chance, text.clone(), wanted)).number;
    let text = Text(text);
    if !long_run(&text) {
        let room = if chance.one_in(40) { chance.pick(&[0, 1, OUT_ROOM - 1]) } else { OUT_ROOM + chance.index(3) };
        tally.meadow(&text, room);
    }
    number
}

/// As many squares as the first line speaks of, so that rooms can be made for it.
fn squares_of(text: &[u8]) -> usize {
    let first = text.split(|byte| *byte == b'\n').next().unwrap_or(b"");
    let sizes: Vec<usize> = String::from_utf8_lossy(first).split('\t').skip(1).filter_map(|size| size.parse().ok()).collect();
    match sizes[..] {
        [rows, columns, ..] if rows <= 64 && columns <= 64 => rows * columns,
        _ => 9,
    }
}

fn long_run(text: &Text) -> bool {
    let mut rooms = sheets::rooms(&mut Chance(0), 4_096);
    match reference::read_sheet(&text.0, &mut rooms) {
        Err(_) => false,
        Ok(heading) => {
            let steps = heading.end / heading.rules.update.min(heading.rules.shortest);
            steps * (heading.rows * heading.columns) as u64 > 40_000
        }
    }
}

fn sheet_shape(chance: &mut Chance) -> (usize, usize) {
    match chance.below(40) {
        0 => (32, 32),
        1 => (33, 32),
        2 => (64, 16),
        3 => (64, 64),
        _ => meadows::small_shape(chance),
    }
}

pub fn good_sheets(tally: &mut Tally, chance: &mut Chance) {
    for _ in 0..4 {
        let shape = sheet_shape(chance);
        let text = sheets::good(chance, shape);
        both_calls(tally, chance, text);
    }
    let text = sheets::overfull(chance);
    both_calls(tally, chance, text);
}

pub fn sheets_at_limits(tally: &mut Tally, chance: &mut Chance) {
    let shape = (chance.between(1, 3) as usize, chance.between(1, 3) as usize);
    let good = sheets::good(chance, shape);
    for text in sheets::at_limits(chance, &good) {
        both_calls(tally, chance, text);
    }
}

pub const TWO_DAMAGES: &str = "two of these";

/// A sheet, mostly small, damaged in every way, and then in two ways at once.
pub fn damaged_sheets(tally: &mut Tally, chance: &mut Chance) {
    let shape = if chance.one_in(10) { sheet_shape(chance) } else { (chance.between(1, 3) as usize, chance.between(1, 3) as usize) };
    let good = sheets::good(chance, shape);
    for (name, damage) in sheets::DAMAGES {
        let mut text = good.clone();
        damage(chance, &mut text);
        let number = both_calls(tally, chance, text.clone());
        *tally.by_damage.entry((name, number)).or_insert(0) += 1;
        chance.pick(&sheets::DAMAGES).1(chance, &mut text);
        let number = both_calls(tally, chance, text);
        *tally.by_damage.entry((TWO_DAMAGES, number)).or_insert(0) += 1;
    }
}

/// A sheet from a file: both calls, and the reference's answer is the stored one.
pub fn stored_sheet(tally: &mut Tally, path: &str) {
    let read = |path: &str| std::fs::read(path).unwrap_or_else(|error| panic!("{}: {}", path, error));
    let text = read(path);
    let rooms = sheets::lent(&mut Chance(1), text.clone(), 4_096);
    tally.read_sheet(&rooms);
    let printed = tally.meadow(&Text(text), OUT_ROOM).printed;
    if printed.0 != read(&path.replace(".sheet", ".out")) {
        println!("outside: {}: the reference does not print what is stored beside it", path);
        std::process::exit(1);
    }
}
