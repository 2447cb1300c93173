//! Random meadows, rules, tables and runs that every check passes. What closed squares hold is junk.

use crate::chance::Chance;
use flood::declared_boards::Board;
use crate::reference::{Meadow, Rules, Run, CLOSED, EXIT, OPEN};

pub const MOST_BED: u64 = 1_000_000_000;
pub const MOST_DEPTH: u64 = 100_000_000;
pub const MOST_CLOCK: u64 = 604_800_000;
pub const MOST_OUTFLOW: u64 = 1_000_000_000_000_000;
pub const MOST_SOAKED: u64 = 1_000_000_000_000_000;
pub const MOST_SOAK_RATE: u64 = 1_000_000;

/// How many numbers more than they must have the slices for rules, run and answer have.
#[derive(Clone, Copy, Debug, Default, PartialEq)]
pub struct Sizes {
    pub rules: i64,
    pub run: i64,
    pub answer: i64,
}

/// Everything that the calls on a meadow are lent; each is lent its part.
#[derive(Clone, Debug, PartialEq)]
pub struct Lent {
    pub meadow: Meadow,
    pub rules: Rules,
    pub run: Run,
    pub end: u64,
    pub row: usize,
    pub column: usize,
    pub wet_depth: u32,
    pub wet: Vec<u64>,
    pub boards: Vec<Board>,
    pub sizes: Sizes,
}

impl Lent {
    pub fn open_squares(&self) -> Vec<usize> {
        (0..self.meadow.marks.len()).filter(|square| self.meadow.marks[*square] != CLOSED).collect()
    }
}

pub fn small_shape(chance: &mut Chance) -> (usize, usize) {
    match chance.below(16) {
        0 => (1, 1),
        1 => (1, chance.between(1, 64) as usize),
        2 => (chance.between(1, 64) as usize, 1),
        3 => (chance.between(1, 9) as usize, chance.between(1, 9) as usize),
        _ => (chance.between(1, 5) as usize, chance.between(1, 5) as usize),
    }
}

pub fn rules(chance: &mut Chance) -> Rules {
    let longest = match chance.below(4) {
        0 => chance.between(1, 60_000),
        1 => 60_000 - chance.below(2),
        _ => chance.between(1, 5_000),
    };
    let shortest = match chance.below(3) {
        0 => longest,
        1 => chance.between(1, longest),
        _ => (longest / 4).max(1),
    };
    Rules {
        square_side: chance.pick(&[1, 1, 2, 3, 7, 10, 10, 50, 99, 100]),
        tolerance: chance.pick(&[0, 0, 1, 10, 100, 100, 9_999, 10_000]),
        shortest,
        longest,
        update: update(chance, shortest, longest),
        edge: edge(chance),
        edition: chance.between(1, 3),
    }
}

/// None, gentle as a ditch, as a cliff, or any.
fn edge(chance: &mut Chance) -> u64 {
    match chance.below(6) {
        0 => 0,
        1 => chance.between(1, 30),
        2 => 10_000 - chance.below(2),
        3 => 10_000,
        _ => chance.amount(10_000),
    }
}

/// An update time that a run passes in some twenty steps at most.
fn update(chance: &mut Chance, shortest: u64, longest: u64) -> u64 {
    match chance.below(6) {
        0 => longest,
        1 => shortest * chance.between(1, 3),
        2 => chance.between(1, shortest),
        3 => 1,
        _ => chance.between(1, 20 * shortest),
    }
    .min(20 * shortest)
    .min(3_600_000)
}

/// Times of a table row round about a clock, or anywhere.
fn times(chance: &mut Chance, clock: u64) -> [u32; 2] {
    let mut time = || match chance.below(5) {
        0 => chance.amount(MOST_CLOCK),
        1 => 0,
        2 => MOST_CLOCK,
        _ => (clock + chance.below(200_000)).saturating_sub(100_000).min(MOST_CLOCK),
    };
    let (one, other) = (time(), time());
    [one.min(other) as u32, one.max(other) as u32]
}

fn table_rows(chance: &mut Chance) -> u64 {
    match chance.below(12) {
        0 => 64,
        1 => chance.between(4, 63),
        2..=5 => 0,
        _ => chance.between(1, 3),
    }
}

pub fn tables(chance: &mut Chance, meadow: &mut Meadow, clock: u64) {
    meadow.rain.clear();
    for _ in 0..table_rows(chance) {
        meadow.rain.extend(times(chance, clock));
        meadow.rain.push(chance.amount(1_000_000) as u32);
    }
    meadow.inflow.clear();
    let open: Vec<usize> = (0..meadow.squares()).filter(|square| meadow.marks[*square] != CLOSED).collect();
    if open.is_empty() {
        return;
    }
    for _ in 0..table_rows(chance) {
        let square = chance.pick(&open);
        meadow.inflow.extend([(square / meadow.columns) as u32, (square % meadow.columns) as u32]);
        meadow.inflow.extend(times(chance, clock));
        let most = chance.pick(&[10, 1_000, 100_000]);
        meadow.inflow.push(chance.amount(most) as u32);
    }
}

pub fn on_rim(meadow: &Meadow, square: usize) -> bool {
    let (row, column) = (square / meadow.columns, square % meadow.columns);
    row == 0 || column == 0 || row + 1 == meadow.rows || column + 1 == meadow.columns
}

fn marks(chance: &mut Chance, meadow: &mut Meadow) {
    let closed = chance.pick(&[0, 0, 0, 10, 25, 50]);
    let exits = chance.pick(&[0, 10, 30, 100]);
    let all_closed = chance.one_in(100);
    for square in 0..meadow.squares() {
        meadow.marks[square] = if all_closed || chance.below(100) < closed {
            CLOSED
        } else if on_rim(meadow, square) && chance.below(100) < exits {
            EXIT
        } else {
            OPEN
        };
    }
}

fn roughness(chance: &mut Chance) -> u64 {
    match chance.below(6) {
        0 => 1,
        1 => 10_000,
        2 => chance.between(1, 10_000),
        _ => chance.between(100, 500),
    }
}

/// Rates of ground that does not soak, or soaks slowly, fast or here and there.
pub fn rates(chance: &mut Chance, meadow: &mut Meadow) {
    let most = chance.pick(&[0, 0, 5_000, 100_000, MOST_SOAK_RATE]);
    let firm = chance.pick(&[0, 0, 50]);
    for square in 0..meadow.squares() {
        meadow.rates[square] = if chance.below(100) < firm { 0 } else { chance.amount(most) } as u32;
    }
}

/// Beds, roughness and depths of one kind of ground, so that water moves gently, fiercely or not at all.
fn ground(chance: &mut Chance, meadow: &mut Meadow) {
    let (height, bumps) = (chance.pick(&[0, 1_000_000, 900_000_000]), chance.pick(&[1, 1_000, 100_000, 100_000_000]));
    let (most, dry) = (chance.pick(&[10, 2_000, 200_000, 3_000_000, MOST_DEPTH]), chance.pick(&[0, 20, 60, 95]));
    let wild = chance.one_in(4);
    let level = chance.one_in(10);
    for square in 0..meadow.squares() {
        let depth = if chance.below(100) < dry { 0 } else { chance.amount(most) };
        meadow.beds[square] = if wild { chance.amount(MOST_BED) } else { height + chance.below(bumps) } as u32;
        meadow.depths[square] = depth as u32;
        if level {
            meadow.beds[square] = (MOST_DEPTH - depth) as u32;
        }
        meadow.roughness[square] = roughness(chance) as u32;
        meadow.lasts[square] = match chance.below(3) {
            0 => 0,
            1 => chance.amount(depth),
            _ => chance.amount(MOST_DEPTH),
        } as u32;
    }
}

/// New junk in what no call may look at or write: all but the mark of a closed square.
pub fn junk(chance: &mut Chance, meadow: &mut Meadow) {
    for square in 0..meadow.marks.len() {
        if meadow.marks[square] == CLOSED {
            meadow.beds[square] = chance.word() as u32;
            meadow.roughness[square] = chance.word() as u32;
            meadow.rates[square] = chance.word() as u32;
            meadow.depths[square] = chance.word() as u32;
            meadow.lasts[square] = chance.word() as u32;
        }
    }
}

pub fn meadow(chance: &mut Chance, (rows, columns): (usize, usize), slots: usize) -> Meadow {
    let squares = rows * columns;
    let mut meadow = Meadow {
        rows,
        columns,
        marks: vec![OPEN; squares],
        beds: vec![0; squares],
        roughness: vec![1; squares],
        rates: vec![0; squares],
        depths: vec![0; squares],
        lasts: vec![0; squares],
        ..Meadow::default()
    };
    let rest = if chance.one_in(2) { 0 } else { chance.index(meadow.record_size()) };
    meadow.records = (0..slots * meadow.record_size() + rest).map(|_| chance.word() as u32).collect();
    marks(chance, &mut meadow);
    ground(chance, &mut meadow);
    rates(chance, &mut meadow);
    junk(chance, &mut meadow);
    meadow
}

pub fn lent(chance: &mut Chance, shape: (usize, usize)) -> Lent {
    let slots = chance.pick(&[1, 1, 2, 2, 3, 4, 6]);
    let mut meadow = meadow(chance, shape, slots);
    let rules = rules(chance);
    let clock = match chance.below(4) {
        0 => 0,
        1 => chance.below(100) * rules.update % MOST_CLOCK,
        2 => chance.amount(MOST_CLOCK),
        _ => chance.below(1_000_000),
    };
    tables(chance, &mut meadow, clock);
    let run = Run {
        clock,
        length: chance.between(1, 60_000),
        outflow: chance.amount(MOST_OUTFLOW),
        kept: chance.index(slots + 1),
        newest: chance.index(slots),
        soaked: chance.amount(MOST_SOAKED),
    };
    Lent {
        end: end(chance, &run, &rules),
        row: chance.index(shape.0),
        column: chance.index(shape.1),
        wet_depth: chance.amount(MOST_DEPTH) as u32,
        wet: (0..shape.0).map(|_| chance.word()).collect(),
        boards: Vec::new(),
        sizes: Sizes::default(),
        meadow,
        rules,
        run,
    }
}

/// An end that a run reaches in some forty steps at most, by the length that it holds and then by the shortest.
pub fn end(chance: &mut Chance, run: &Run, rules: &Rules) -> u64 {
    let into = run.clock % rules.update;
    let held_steps = if into == 0 { 0 } else { (rules.update - into) / run.length.max(1) };
    let steps_an_update = rules.update / rules.shortest + 1;
    let most = if held_steps > 20 { 0 } else { (20 / steps_an_update).max(1) };
    let end = (run.clock / rules.update + chance.between(0, most)) * rules.update;
    end.min(MOST_CLOCK / rules.update * rules.update)
}

// ---------------------------------------------------------------- where water lies

/// A meadow that is dry but for the junk of closed squares, under rain now and then; its next step often works its length afresh.
pub fn dry(chance: &mut Chance, shape: (usize, usize)) -> Lent {
    let mut lent = lent(chance, shape);
    for square in lent.open_squares() {
        lent.meadow.depths[square] = 0;
    }
    if !chance.one_in(4) {
        lent.meadow.rain.clear();
    }
    if chance.one_in(2) {
        lent.run.clock -= lent.run.clock % lent.rules.update;
    }
    lent.end = end(chance, &lent.run, &lent.rules);
    lent
}

/// Puts water on a square, which is opened where it is closed.
pub fn pour(chance: &mut Chance, lent: &mut Lent, square: usize) {
    let meadow = &mut lent.meadow;
    if meadow.marks[square] == CLOSED {
        meadow.marks[square] = OPEN;
        meadow.beds[square] = chance.amount(MOST_BED) as u32;
        meadow.roughness[square] = roughness(chance) as u32;
        meadow.rates[square] = chance.amount(MOST_SOAK_RATE) as u32;
        meadow.lasts[square] = chance.amount(MOST_DEPTH) as u32;
    }
    let any = chance.between(1, MOST_DEPTH);
    meadow.depths[square] = chance.pick(&[1, 2, 1_000, 300_000, any]) as u32;
}

/// The ways in which water comes to lie on a dry meadow, or comes later.
pub const WATERINGS: [fn(&mut Chance, &mut Lent); 11] = [
    no_water,
    water_everywhere,
    one_micrometre,
    water_in_first_row,
    water_in_last_row,
    high_at_row_ends,
    wet_closed_squares,
    old_leavings,
    inflow_into_dry,
    shallow_on_thirsty,
    level_pond,
];

fn no_water(_: &mut Chance, _: &mut Lent) {}

fn water_everywhere(chance: &mut Chance, lent: &mut Lent) {
    for square in lent.open_squares() {
        pour(chance, lent, square);
    }
}

fn one_micrometre(chance: &mut Chance, lent: &mut Lent) {
    let dry = chance.pick(&[0, 1, 3]);
    for square in lent.open_squares() {
        lent.meadow.depths[square] = (chance.below(dry + 1) == 0) as u32;
    }
}

fn water_in_row(chance: &mut Chance, lent: &mut Lent, row: usize) {
    for column in 0..lent.meadow.columns {
        if chance.one_in(2) {
            pour(chance, lent, row * lent.meadow.columns + column);
        }
    }
}

fn water_in_first_row(chance: &mut Chance, lent: &mut Lent) {
    water_in_row(chance, lent, 0);
}

fn water_in_last_row(chance: &mut Chance, lent: &mut Lent) {
    water_in_row(chance, lent, lent.meadow.rows - 1);
}

/// High squares with water at the end of a row or at the start of the next: what they send goes to the rows above and below, and not past
/// the row's end.
fn high_at_row_ends(chance: &mut Chance, lent: &mut Lent) {
    for square in lent.open_squares() {
        lent.meadow.beds[square] /= 2;
    }
    let start = chance.index(lent.meadow.rows) * lent.meadow.columns;
    let next = (start + lent.meadow.columns) % lent.meadow.squares();
    for square in [start + lent.meadow.columns - 1, next] {
        if chance.below(3) > 0 {
            pour(chance, lent, square);
            lent.meadow.beds[square] = (MOST_BED - chance.below(1_000)) as u32;
        }
    }
}

/// Closed squares, most of them with a depth, a wet one's, the deepest or one that none can have, and a few open ones with water.
fn wet_closed_squares(chance: &mut Chance, lent: &mut Lent) {
    lent.meadow.inflow.clear();
    for square in 0..lent.meadow.squares() {
        if chance.one_in(2) {
            lent.meadow.marks[square] = CLOSED;
            lent.meadow.depths[square] = chance.pick(&[0, 1, 1_000, MOST_DEPTH as u32, MOST_DEPTH as u32 + 1, u32::MAX]);
            lent.meadow.rates[square] = chance.pick(&[0, MOST_SOAK_RATE as u32, u32::MAX]);
        } else if chance.one_in(3) {
            pour(chance, lent, square);
        }
    }
}

/// Dry squares that have let water go before, and one with water among them.
fn old_leavings(chance: &mut Chance, lent: &mut Lent) {
    for square in lent.open_squares() {
        lent.meadow.lasts[square] = chance.pick(&[1, 1_000, MOST_DEPTH as u32]);
    }
    let square = chance.index(lent.meadow.squares());
    pour(chance, lent, square);
}

/// Inflow into one or two dry squares all the time.
fn inflow_into_dry(chance: &mut Chance, lent: &mut Lent) {
    lent.meadow.inflow.clear();
    for square in lent.open_squares().into_iter().take(2) {
        let (row, column) = ((square / lent.meadow.columns) as u32, (square % lent.meadow.columns) as u32);
        lent.meadow.inflow.extend([row, column, 0, MOST_CLOCK as u32, chance.between(1, 1_000) as u32]);
    }
}

/// Thin water on ground that soaks it up within some steps, or that lets it off the grid.
fn shallow_on_thirsty(chance: &mut Chance, lent: &mut Lent) {
    for square in lent.open_squares() {
        lent.meadow.depths[square] = chance.amount(1_000) as u32;
        lent.meadow.rates[square] = (MOST_SOAK_RATE - chance.below(10)) as u32;
        if on_rim(&lent.meadow, square) && chance.one_in(2) {
            lent.meadow.marks[square] = EXIT;
        }
    }
}

/// Water of one level, now and then at the deepest depth, of which a square or two may have fallen dry: few squares send, or none.
fn level_pond(chance: &mut Chance, lent: &mut Lent) {
    let depth = chance.pick(&[1, 1_000, MOST_DEPTH - 5, MOST_DEPTH]);
    for square in lent.open_squares() {
        lent.meadow.marks[square] = OPEN;
        lent.meadow.beds[square] = 0;
        lent.meadow.depths[square] = depth as u32;
    }
    for square in lent.open_squares().into_iter().take(chance.index(3)) {
        lent.meadow.depths[square] = 0;
    }
}
