//! Rounds of good inputs with one value or two changed: to the limits of their ranges, just past them, and to sizes that slices may not
//! have.

use crate::board_rounds;
use crate::calls::{Call, Tally, ON_MEADOW};
use crate::chance::Chance;
use flood::declared_boards::Board;
use crate::meadows::{self, Lent, MOST_BED, MOST_CLOCK, MOST_DEPTH, MOST_OUTFLOW, MOST_SOAKED, MOST_SOAK_RATE};
use crate::reference::{ADDED, CLOSED, LAST, SOAKED, WORDS};
use crate::worked::go_on;

type Change = Box<dyn Fn(&mut Lent)>;

const MOST_32: u64 = u32::MAX as u64;

/// The values round the two limits of a range, and the largest that the type holds.
fn round_limits(least: u64, most: u64, widest: u64) -> Vec<u64> {
    let mut values = vec![least.saturating_sub(1), least, least + 1, most.saturating_sub(1), most, most + 1, widest];
    if widest > MOST_32 {
        values.extend([MOST_32, MOST_32 + 1]);
    }
    values.retain(|value| *value <= widest);
    values.sort_unstable();
    values.dedup();
    values
}

fn each(changes: &mut Vec<Change>, values: Vec<u64>, set: impl Fn(&mut Lent, u64) + Copy + 'static) {
    for value in values {
        changes.push(Box::new(move |lent| set(lent, value)));
    }
}

fn put<Number>(numbers: &mut Vec<Number>, at: usize, value: Number) {
    if let Some(number) = numbers.get_mut(at) {
        *number = value;
    }
}

fn rules_and_run(changes: &mut Vec<Change>, base: &Lent) {
    let wide = |least, most| round_limits(least, most, u64::MAX);
    let slots = base.meadow.slots() as u64;
    let (shortest, longest) = (base.rules.shortest, base.rules.longest);
    each(changes, wide(1, 64), |lent, value| lent.meadow.rows = value as usize);
    each(changes, wide(1, 64), |lent, value| lent.meadow.columns = value as usize);
    each(changes, wide(1, 100), |lent, value| lent.rules.square_side = value);
    each(changes, wide(0, 10_000), |lent, value| lent.rules.tolerance = value);
    each(changes, wide(1, 60_000), |lent, value| lent.rules.shortest = value);
    each(changes, wide(longest, longest), |lent, value| lent.rules.shortest = value);
    each(changes, wide(1, 60_000), |lent, value| lent.rules.longest = value);
    each(changes, wide(shortest, shortest), |lent, value| lent.rules.longest = value);
    each(changes, wide(1, 3_600_000), |lent, value| lent.rules.update = value);
    each(changes, wide(0, 10_000), |lent, value| lent.rules.edge = value);
    each(changes, wide(1, 3), |lent, value| lent.rules.edition = value);
    each(changes, wide(0, MOST_CLOCK), |lent, value| lent.run.clock = value);
    each(changes, wide(1, 60_000), |lent, value| lent.run.length = value);
    each(changes, wide(0, MOST_OUTFLOW), |lent, value| lent.run.outflow = value);
    each(changes, wide(0, MOST_SOAKED), |lent, value| lent.run.soaked = value);
    each(changes, wide(0, slots), |lent, value| lent.run.kept = value as usize);
    each(changes, wide(0, slots - 1), |lent, value| lent.run.newest = value as usize);
    each(changes, wide(0, base.meadow.rows as u64 - 1), |lent, value| lent.row = value as usize);
    each(changes, wide(0, base.meadow.columns as u64 - 1), |lent, value| lent.column = value as usize);
    // a late end wants a late clock, or the run to it would be long
    each(changes, wide(0, MOST_CLOCK), |lent, value| {
        lent.end = value;
        lent.run.clock = value.min(MOST_CLOCK).saturating_sub(60);
    });
    each(changes, wide(base.end, base.end), |lent, value| lent.end = value);
}

/// The numbers of one square: closed or not, each is tried.
fn square(changes: &mut Vec<Change>, at: usize) {
    let narrow = |least, most| round_limits(least, most, MOST_32);
    each(changes, round_limits(0, 2, 255), move |lent, value| put(&mut lent.meadow.marks, at, value as u8));
    each(changes, narrow(0, MOST_BED), move |lent, value| put(&mut lent.meadow.beds, at, value as u32));
    each(changes, narrow(1, 10_000), move |lent, value| put(&mut lent.meadow.roughness, at, value as u32));
    each(changes, narrow(0, MOST_SOAK_RATE), move |lent, value| put(&mut lent.meadow.rates, at, value as u32));
    each(changes, narrow(0, MOST_DEPTH), move |lent, value| put(&mut lent.meadow.depths, at, value as u32));
    each(changes, narrow(0, MOST_DEPTH), move |lent, value| put(&mut lent.meadow.lasts, at, value as u32));
}

fn tables(changes: &mut Vec<Change>, base: &Lent) {
    let narrow = |least, most| round_limits(least, most, MOST_32);
    let (rain, inflow) = (&base.meadow.rain, &base.meadow.inflow);
    if rain.len() >= 3 {
        each(changes, narrow(rain[1] as u64, MOST_CLOCK), |lent, value| put(&mut lent.meadow.rain, 0, value as u32));
        each(changes, narrow(rain[0] as u64, MOST_CLOCK), |lent, value| put(&mut lent.meadow.rain, 1, value as u32));
        each(changes, narrow(0, 1_000_000), |lent, value| put(&mut lent.meadow.rain, 2, value as u32));
    }
    if inflow.len() >= 5 {
        let (rows, columns) = (base.meadow.rows as u64, base.meadow.columns as u64);
        each(changes, narrow(0, rows - 1), |lent, value| put(&mut lent.meadow.inflow, 0, value as u32));
        each(changes, narrow(0, columns - 1), |lent, value| put(&mut lent.meadow.inflow, 1, value as u32));
        each(changes, narrow(inflow[3] as u64, MOST_CLOCK), |lent, value| put(&mut lent.meadow.inflow, 2, value as u32));
        each(changes, narrow(inflow[2] as u64, MOST_CLOCK), |lent, value| put(&mut lent.meadow.inflow, 3, value as u32));
        each(changes, narrow(0, 100_000), |lent, value| put(&mut lent.meadow.inflow, 4, value as u32));
    }
    if let Some(closed) = base.meadow.marks.iter().position(|mark| *mark == CLOSED) {
        let (row, column) = (closed / base.meadow.columns, closed % base.meadow.columns);
        changes.push(Box::new(move |lent| lent.meadow.inflow.extend([row as u32, column as u32, 0, 0, 0])));
    }
    each(changes, vec![1, 2, 4, 5], |lent, more| lent.meadow.rain.extend(vec![0; more as usize]));
    each(changes, vec![1, 2, 3, 4], |lent, more| lent.meadow.inflow.extend(vec![0; more as usize]));
    // rows of zeros are good rows of rain; good rows of inflow are copies of the first
    each(changes, vec![191, 192, 193, 195], |lent, length| lent.meadow.rain = vec![0; length as usize]);
    each(changes, vec![319, 320, 321, 325], |lent, length| {
        let row: Vec<u32> = lent.meadow.inflow.iter().take(5).cloned().collect();
        lent.meadow.inflow = row.into_iter().cycle().take(length as usize).collect();
    });
}

/// The slices one short, one long and empty.
fn sizes(changes: &mut Vec<Change>, base: &Lent) {
    fn resized<Number: Copy + Default>(numbers: &mut Vec<Number>, way: u64) {
        match way {
            0 => numbers.clear(),
            1 => drop(numbers.pop()),
            _ => numbers.push(Number::default()),
        }
    }
    let ways = || vec![0, 1, 2];
    each(changes, ways(), |lent, way| resized(&mut lent.meadow.marks, way));
    each(changes, ways(), |lent, way| resized(&mut lent.meadow.beds, way));
    each(changes, ways(), |lent, way| resized(&mut lent.meadow.roughness, way));
    each(changes, ways(), |lent, way| resized(&mut lent.meadow.rates, way));
    each(changes, ways(), |lent, way| resized(&mut lent.meadow.depths, way));
    each(changes, ways(), |lent, way| resized(&mut lent.meadow.lasts, way));
    each(changes, ways(), |lent, way| resized(&mut lent.meadow.records, way));
    each(changes, ways(), |lent, way| resized(&mut lent.wet, way));
    let record = base.meadow.record_size() as u64;
    each(changes, vec![record - 1, record, record + 1], |lent, length| lent.meadow.records.resize(length as usize, 7));
    for more in [-7, -1, 1, 7] {
        changes.push(Box::new(move |lent| lent.sizes.rules = more));
        changes.push(Box::new(move |lent| lent.sizes.run = more));
        changes.push(Box::new(move |lent| lent.sizes.answer = more));
    }
}

/// The newest record's two times, and P before, amount added and amount soaked of one square; that amount also at the total soaked, and the
/// total at what the record says.
fn record(changes: &mut Vec<Change>, base: &Lent, square: usize) {
    let narrow = |least, most| round_limits(least, most, MOST_32);
    let at = base.run.newest * base.meadow.record_size();
    let clock = base.run.clock;
    each(changes, narrow(1, 60_000), move |lent, value| put(&mut lent.meadow.records, at, value as u32));
    each(changes, narrow(1, 60_000), move |lent, value| put(&mut lent.meadow.records, at + 1, value as u32));
    each(changes, narrow(clock, clock), move |lent, value| put(&mut lent.meadow.records, at + 1, value as u32));
    let part = at + 2 + WORDS * square;
    for word in [LAST, ADDED, SOAKED] {
        each(changes, narrow(0, MOST_DEPTH), move |lent, value| put(&mut lent.meadow.records, part + word, value as u32));
    }
    let total = base.run.soaked.min(MOST_32);
    each(changes, narrow(total, total), move |lent, value| put(&mut lent.meadow.records, part + SOAKED, value as u32));
    let soaked_here = |square: &usize| base.meadow.records[at + 2 + WORDS * square + SOAKED] as u64;
    let soaked = base.open_squares().iter().map(soaked_here).sum();
    each(changes, round_limits(soaked, soaked, u64::MAX), |lent, value| lent.run.soaked = value);
}

/// A board of a list that may have become too short for it.
fn on_board(lent: &mut Lent, at: usize, set: impl Fn(&mut Board)) {
    if let Some(board) = lent.boards.get_mut(at) {
        set(board);
    }
}

/// One more or fewer than the most boards; and the first and the last board's square and mark, a closed square's among them.
fn boards(changes: &mut Vec<Change>, base: &Lent) {
    each(changes, vec![0, 1, 15, 16, 17, 18, 40], |lent, many| lent.boards = lent.boards.iter().cloned().cycle().take(many as usize).collect());
    let closed = base.meadow.marks.iter().position(|mark| *mark == CLOSED);
    let (rows, columns) = (base.meadow.rows, base.meadow.columns);
    let along = |squares: usize| round_limits(0, squares as u64 - 1, u64::MAX);
    for at in [0, base.boards.len() - 1] {
        each(changes, along(rows), move |lent, value| on_board(lent, at, |board| board.row = value as usize));
        each(changes, along(columns), move |lent, value| on_board(lent, at, |board| board.column = value as usize));
        each(changes, round_limits(0, MOST_DEPTH, MOST_32), move |lent, value| on_board(lent, at, |board| board.mark = value as u32));
        for square in closed {
            let place = (square / columns, square % columns);
            changes.push(Box::new(move |lent| on_board(lent, at, |board| (board.row, board.column) = place)));
        }
    }
}

/// Every change of one value, on a good input.
fn changes(chance: &mut Chance, base: &Lent) -> Vec<Change> {
    let mut changes: Vec<Change> = Vec::new();
    rules_and_run(&mut changes, base);
    let closed = base.meadow.marks.iter().position(|mark| *mark == CLOSED);
    let any = chance.index(base.meadow.marks.len());
    for at in base.open_squares().first().into_iter().chain(&closed).chain(&[any]) {
        square(&mut changes, *at);
        record(&mut changes, base, *at);
    }
    tables(&mut changes, base);
    boards(&mut changes, base);
    sizes(&mut changes, base);
    each(&mut changes, round_limits(0, MOST_DEPTH, MOST_32), |lent, value| lent.wet_depth = value as u32);
    if let Some(depth) = base.meadow.depths.first() {
        each(&mut changes, round_limits(*depth as u64, *depth as u64, MOST_32), |lent, value| lent.wet_depth = value as u32);
    }
    changes
}

// ---------------------------------------------------------------- rounds

/// A good input for all calls on a meadow: its newest record is that of a step just made, and a run to its end is short. Now and then no
/// step is kept.
fn good_for_all(tally: &mut Tally, chance: &mut Chance) -> Lent {
    loop {
        let shape = (chance.between(1, 3) as usize, chance.between(1, 3) as usize);
        let mut lent = meadows::lent(chance, shape);
        let longest = chance.between(2, 50);
        lent.rules.longest = longest;
        lent.rules.shortest = chance.between(1, longest);
        lent.rules.update = chance.between(1, 50);
        lent.run.clock = chance.below(1_000);
        lent.run.outflow = chance.amount(MOST_OUTFLOW / 2);
        lent.run.soaked = chance.amount(MOST_SOAKED / 2);
        lent.end = 0;
        let after = tally.call(Call::Step, &lent);
        if after.number != 0 || lent.open_squares().is_empty() {
            continue;
        }
        go_on(&mut lent, &after);
        if chance.one_in(2) {
            lent.end = meadows::end(chance, &lent.run, &lent.rules);
        }
        if chance.one_in(4) {
            lent.run.kept = 0;
        }
        let many = chance.between(1, 16) as usize;
        lent.boards = board_rounds::on_open_squares(chance, &lent, many);
        return lent;
    }
}

/// A changed end or clock could ask for a run of weeks: that one is left out.
fn short_run(lent: &Lent) -> bool {
    lent.end > MOST_CLOCK || lent.end.saturating_sub(lent.run.clock) <= 1_000
}

pub fn call_all(tally: &mut Tally, lent: &Lent) {
    for call in ON_MEADOW {
        if ![Call::RunTo, Call::RunToBoards].contains(&call) || short_run(lent) {
            tally.call(call, lent);
        }
    }
}

pub fn one_value(tally: &mut Tally, chance: &mut Chance) {
    let base = good_for_all(tally, chance);
    call_all(tally, &base);
    for change in changes(chance, &base) {
        let mut lent = base.clone();
        change(&mut lent);
        call_all(tally, &lent);
    }
}

pub fn two_values(tally: &mut Tally, chance: &mut Chance) {
    let base = good_for_all(tally, chance);
    let changes = changes(chance, &base);
    for _ in 0..200 {
        let mut lent = base.clone();
        changes[chance.index(changes.len())](&mut lent);
        changes[chance.index(changes.len())](&mut lent);
        call_all(tally, &lent);
    }
}
