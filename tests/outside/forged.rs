//! Rounds of forged runs and records: numbers that no step would have written, and totals and depths that just can or cannot be.

use crate::calls::{Call, Tally};
use crate::chance::Chance;
use crate::meadows::{self, Lent, MOST_CLOCK, MOST_DEPTH, MOST_OUTFLOW, MOST_SOAKED};
use crate::reference::{self, ADDED, CLOSED, SOAKED, WORDS};
use crate::steps::{look, one_call};

/// One number of the newest record set to anything, a rim square's off the grid and a closed square's among them.
fn forge_record(chance: &mut Chance, lent: &mut Lent) {
    let size = lent.meadow.record_size();
    let at = lent.run.newest * size + chance.index(size);
    lent.meadow.records[at] = match chance.below(4) {
        0 => chance.word() as u32,
        1 => chance.amount(MOST_DEPTH) as u32,
        2 => chance.below(100) as u32,
        _ => lent.meadow.records[at].wrapping_add(chance.below(3) as u32).wrapping_sub(1),
    };
}

/// Every number of the newest record small, so that a take-back of it may well be possible.
fn small_record(chance: &mut Chance, lent: &mut Lent) {
    let size = lent.meadow.record_size();
    let most = chance.pick(&[1, 2, 50, 5_000, 1 << 32]);
    for at in lent.run.newest * size..(lent.run.newest + 1) * size {
        lent.meadow.records[at] = chance.below(most) as u32;
    }
    lent.meadow.records[lent.run.newest * size] = chance.between(1, 60_000) as u32;
    lent.meadow.records[lent.run.newest * size + 1] = chance.between(1, 60_000) as u32;
    let deep = chance.between(1, MOST_DEPTH / 2);
    for square in lent.open_squares() {
        lent.meadow.depths[square] = (deep + chance.below(20_000)) as u32;
    }
}

fn forge_run(chance: &mut Chance, lent: &mut Lent) {
    let slots = lent.meadow.slots();
    match chance.below(6) {
        0 => lent.run.clock = chance.amount(MOST_CLOCK + 2),
        1 => lent.run.length = chance.amount(60_002),
        2 => lent.run.outflow = chance.amount(MOST_OUTFLOW + 2),
        3 => lent.run.soaked = chance.amount(MOST_SOAKED + 2),
        4 => lent.run.kept = chance.index(slots + 2),
        _ => lent.run.newest = chance.index(slots + 1),
    }
}

/// The outflow total at what the record says went off the grid, one below, or far off; likewise the total soaked at what it soaked, and the
/// clock at what it lasted.
fn forge_totals(chance: &mut Chance, lent: &mut Lent) {
    let (size, columns) = (lent.meadow.record_size(), lent.meadow.columns);
    let record = lent.meadow.records[lent.run.newest * size..(lent.run.newest + 1) * size].to_vec();
    let (mut off, mut soaked) = (0, 0);
    for square in lent.open_squares() {
        let (row, column) = (square / columns, square % columns);
        let beyond = [row == 0, column + 1 == columns, row + 1 == lent.meadow.rows, column == 0];
        off += (0..4).filter(|side| beyond[*side]).map(|side| record[2 + WORDS * square + side] as u64).sum::<u64>();
        soaked += record[2 + WORDS * square + SOAKED] as u64;
    }
    let mut beside = |total: u64, most: u64| chance.pick(&[total, total.saturating_sub(1), total + 1, most]).min(most);
    lent.run.outflow = beside(off, MOST_OUTFLOW);
    lent.run.soaked = beside(soaked, MOST_SOAKED);
    lent.run.clock = beside(record[1] as u64, MOST_CLOCK);
}

/// Which sides of a square have no square beyond that is not closed: only its own numbers count there.
fn lone_sides(lent: &Lent, square: usize) -> Vec<usize> {
    let (rows, columns) = (lent.meadow.rows, lent.meadow.columns);
    let (row, column) = (square / columns, square % columns);
    let closed = |next: usize| lent.meadow.marks[next] == CLOSED;
    let lone = [
        row == 0 || closed(square - columns),
        column + 1 == columns || closed(square + 1),
        row + 1 == rows || closed(square + columns),
        column == 0 || closed(square - 1),
    ];
    (0..4).filter(|side| lone[*side]).collect()
}

/// The record of one square set so that its depth before comes out at a limit or just past it: by much or little that soaked or left
/// through sides where it reaches no other square, and by the amount added.
fn forge_restored(chance: &mut Chance, lent: &mut Lent) {
    lent.run.outflow = MOST_OUTFLOW / 2;
    lent.run.soaked = MOST_SOAKED / 2;
    let open = lent.open_squares();
    let mut before = lent.clone();
    if open.is_empty() || reference::take_back(&mut before.meadow, &lent.run).is_err() {
        return;
    }
    let square = chance.pick(&open);
    let at = lent.run.newest * lent.meadow.record_size() + 2 + WORDS * square;
    // the last of these has a sum of 32 bits pass its range
    let whole = chance.pick(&[0, 1_000, MOST_DEPTH, (1 << 32) + MOST_DEPTH / 2]);
    let mut restored = before.meadow.depths[square] as i64;
    let mut words = if chance.one_in(3) { Vec::new() } else { lone_sides(lent, square) };
    if words.is_empty() || chance.one_in(2) {
        words.push(SOAKED);
    }
    for word in &words {
        restored -= lent.meadow.records[at + word] as i64;
        lent.meadow.records[at + word] = (whole / words.len() as u64).min(u32::MAX as u64) as u32;
        restored += lent.meadow.records[at + word] as i64;
    }
    let wanted = chance.pick(&[0, -1, 1, MOST_DEPTH as i64 - 1, MOST_DEPTH as i64, MOST_DEPTH as i64 + 1]);
    let added = lent.meadow.records[at + ADDED] as i64 + restored - wanted;
    lent.meadow.records[at + ADDED] = added.max(0).min(u32::MAX as i64) as u32;
}

pub fn forged(tally: &mut Tally, chance: &mut Chance) {
    for _ in 0..5 {
        forged_meadow(tally, chance);
    }
}

fn forged_meadow(tally: &mut Tally, chance: &mut Chance) {
    let shape = meadows::small_shape(chance);
    let mut base = meadows::lent(chance, shape);
    for _ in 0..3 {
        one_call(tally, chance, &mut base);
    }
    for _ in 0..8 {
        let mut lent = base.clone();
        lent.run.kept = lent.meadow.slots();
        if chance.one_in(2) {
            small_record(chance, &mut lent);
        }
        for _ in 0..chance.below(3) {
            forge_record(chance, &mut lent);
        }
        if chance.one_in(2) {
            forge_totals(chance, &mut lent);
        }
        if chance.one_in(2) {
            forge_restored(chance, &mut lent);
        }
        if chance.one_in(4) {
            forge_run(chance, &mut lent);
        }
        if chance.one_in(4) {
            let square = chance.index(lent.meadow.squares());
            lent.meadow.depths[square] = chance.amount(MOST_DEPTH) as u32;
        }
        tally.call(Call::TakeBack, &lent);
        tally.call(Call::Step, &lent);
        look(tally, chance, &lent);
    }
}
