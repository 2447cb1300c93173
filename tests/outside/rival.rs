//! Document 01's run on plain vectors, written to win: what the library's time is held against. The ground is a plane with
//! walls round the grid, so that no side is tested; a level is bed and depth in one, and a wall where a square is closed. A row's wet
//! squares are the bits of one number, and so are those that sent water; both are kept from step to step, and a dry square costs nothing.
//! What leaves a square goes to its neighbours when it is worked. A slot of the record room is cleared once; then only words that are not
//! 0, or were not, are written. Roots are ended only where what is begun does not decide.

use crate::lent::{steps_to, Engine, Lent, Made, Rules, Run, CLOSED, EXIT, MOST_CLOCK, MOST_DEPTH, MOST_TOTAL, WORDS};
use crate::roots::{Begun, Roots};
use std::marker::PhantomData;

const GRAVITY: u64 = 9_810_000;

/// The editions whose rule is not document 01's.
const DIRECTED: u64 = 2;
const UNLIMITED: u64 = 3;

/// The most squares along a side, and those of the plane.
const SIDE: usize = 64;
const WIDTH: usize = SIDE + 2;
const MOST_SQUARES: u64 = (SIDE * SIDE) as u64;

/// A level that no water stands above.
const WALL: u32 = u32::MAX;

/// One number a square of the plane, and one bit a square of the grid.
type Plane = [u32; WIDTH * WIDTH];
type Bits = [u64; SIDE];

/// The place of a square in the plane. Its neighbours stand `WIDTH` and 1 before and after it.
#[inline(always)]
fn place(row: usize, column: usize) -> usize {
    (row + 1) * WIDTH + column + 1
}

// ---------------------------------------------------------------- quotients

/// Quotients by one number, found by multiplying.
#[derive(Clone, Copy)]
struct Divisor {
    by: u64,
    inverse: u64,
}

impl Divisor {
    #[inline(always)]
    fn new(by: u64) -> Divisor {
        Divisor { by, inverse: u64::MAX / by }
    }

    #[inline(always)]
    fn parts(self, of: u64) -> u64 {
        let below = (of as u128 * self.inverse as u128 >> 64) as u64;
        below + (of - below * self.by >= self.by) as u64
    }
}

// ---------------------------------------------------------------- tables

/// Rows of from, to and amount.
type Rows = Vec<[u64; 3]>;

/// The sum of amount times time run by a clock.
fn run_by(rows: &[[u64; 3]], clock: u64) -> u64 {
    rows.iter().map(|[from, to, amount]| amount * clock.min(*to).saturating_sub(*from)).sum()
}

/// Rows that pour on the same squares, what they have poured by the clock, and what the step adds.
#[derive(Clone)]
struct Source {
    rows: Rows,
    divisor: Divisor,
    poured: u64,
    added: u64,
}

impl Source {
    fn new(rows: Rows, divisor: u64, clock: u64) -> Source {
        let divisor = Divisor::new(divisor);
        let poured = divisor.parts(run_by(&rows, clock));
        Source { rows, divisor, poured, added: 0 }
    }

    fn pour(&mut self, clock: u64) -> u64 {
        let poured = self.divisor.parts(run_by(&self.rows, clock));
        self.added = poured - self.poured;
        self.poured = poured;
        self.added
    }
}

#[derive(Clone)]
struct Hatch {
    row: usize,
    column: usize,
    source: Source,
}

fn part_by_hatch(lent: &Lent, clock: u64) -> Vec<Hatch> {
    let mut parted: Vec<(usize, usize, Rows)> = Vec::new();
    for words in lent.inflow.chunks(5) {
        let (row, column, times) = (words[0] as usize, words[1] as usize, [words[2] as u64, words[3] as u64, words[4] as u64]);
        match parted.iter_mut().find(|hatch| (hatch.0, hatch.1) == (row, column)) {
            Some(hatch) => hatch.2.push(times),
            None => parted.push((row, column, vec![times])),
        }
    }
    let side = lent.rules.square_side;
    let hatch = |(row, column, rows)| Hatch { row, column, source: Source::new(rows, side * side, clock) };
    parted.into_iter().map(hatch).collect()
}

// ---------------------------------------------------------------- the weighing

/// What all squares of a step have in common.
#[derive(Clone, Copy)]
struct Pace {
    start: u64,
    end: u64,
    lasted: u64,
    rained: u32,
    side: Divisor,
    reach: Divisor,
    most_off: u32,
}

/// One square with water and a drop.
struct Square {
    depth: u64,
    last: u64,
    roughness: u64,
    inverse: u64,
    drops: [u32; 4],
}

/// Whether 100·h·s / k is at most the critical speed, where it is at most `high` / k.
#[inline(always)]
fn is_slow(square: &Square, high: u64) -> bool {
    high as u128 * high as u128 <= (GRAVITY * square.depth) as u128 * (square.roughness * square.roughness) as u128
}

/// The most through a side, held to the depth, from 100·h·s.
#[inline(always)]
fn most_held<R: Roots>(square: &Square, pace: &Pace, product: u64) -> u64 {
    let manning = Divisor { by: square.roughness, inverse: square.inverse }.parts(product);
    let speed = if is_slow(square, manning * square.roughness) { manning } else { R::square(GRAVITY * square.depth) };
    let moved = speed * pace.lasted;
    if moved < pace.reach.by {
        pace.reach.parts(moved * square.depth)
    } else {
        square.depth
    }
}

/// Whether the speed lets `limit` through, told from roots that are begun: (v·Δt·d / reach − 1)·T is at least limit·VM where v is taken
/// one below 100·h·s / k, and v is not the critical speed.
#[inline(always)]
fn surely_passes(square: &Square, pace: &Pace, high: Begun, steep: Begun, limit: u64, greatest: u64, whole: u64) -> bool {
    let low = (100 * high.root * steep.root).saturating_sub(square.roughness);
    let moved = (low * pace.lasted) as u128 * (square.depth * whole) as u128;
    let asked = (limit * greatest + whole) as u128 * (pace.reach.by * square.roughness) as u128;
    moved >= asked && is_slow(square, 100 * (high.root + high.place) * (steep.root + steep.place))
}

/// The smaller of the limit and what the speed lets through.
#[inline(always)]
fn total<R: Roots>(square: &Square, pace: &Pace, limit: u64, greatest: u64, whole: u64) -> u64 {
    let slope = pace.side.parts(100 * greatest);
    let (high, steep) = (R::begin_height(square.depth), R::begin_square(slope));
    if surely_passes(square, pace, high, steep, limit, greatest, whole) {
        return limit;
    }
    let product = 100 * R::end_height(square.depth, high) * R::end_square(slope, steep);
    let most = most_held::<R>(square, pace, product);
    limit.min(if whole == 2 * greatest { 2 * most } else { most * whole / greatest })
}

/// The least drop that is positive; one of them is.
#[inline(always)]
fn least_drop(drops: [u32; 4]) -> u64 {
    let [north, east, south, west] = drops.map(|drop| drop.wrapping_sub(1));
    north.min(east).min(south).min(west) as u64 + 1
}

#[inline(always)]
fn greatest_drop(drops: [u32; 4]) -> u64 {
    drops[0].max(drops[1]).max(drops[2]).max(drops[3]) as u64
}

/// Editions 1 and 3: a total, shared by the drops. A single drop has half of it.
#[inline(always)]
fn by_total<R: Roots, const EDITION: u64>(square: &Square, pace: &Pace, greatest: u64) -> [u32; 4] {
    let least = least_drop(square.drops);
    let sum = square.drops.iter().map(|drop| *drop as u64).sum::<u64>();
    let whole = sum + least;
    let limit = if EDITION == UNLIMITED { square.depth } else { square.depth.min(least + square.last) };
    let total = total::<R>(square, pace, limit, greatest, whole);
    if sum == greatest {
        return square.drops.map(|drop| if drop == 0 { 0 } else { total as u32 / 2 });
    }
    let shares = Divisor::new(whole);
    square.drops.map(|drop| shares.parts(total * drop as u64) as u32)
}

/// Edition 2: each side by its own drop, and cut down where they come to more than the depth.
fn directed<R: Roots>(square: &Square, pace: &Pace) -> [u32; 4] {
    let high = R::height(square.depth);
    let amount = |drop: u64| if drop == 0 { 0 } else { most_held::<R>(square, pace, 100 * high * R::square(pace.side.parts(100 * drop))) };
    let amounts = square.drops.map(|drop| amount(drop as u64));
    let sum = amounts.iter().sum::<u64>();
    if sum <= square.depth {
        return amounts.map(|amount| amount as u32);
    }
    amounts.map(|amount| (amount * square.depth / sum) as u32)
}

/// What leaves a square through its four sides.
#[inline(always)]
fn weigh<R: Roots, const EDITION: u64>(square: &Square, pace: &Pace) -> [u32; 4] {
    let greatest = greatest_drop(square.drops);
    if greatest == 0 {
        return [0; 4];
    }
    if EDITION == DIRECTED {
        return directed::<R>(square, pace);
    }
    by_total::<R, EDITION>(square, pace, greatest)
}

/// What soaks of the water that stays.
#[inline(always)]
fn soaks(rate: u64, pace: &Pace, stays: u32) -> u32 {
    if rate == 0 {
        return 0;
    }
    let due = rate * pace.end / 3_600_000 - rate * pace.start / 3_600_000;
    due.min(stays as u64) as u32
}

// ---------------------------------------------------------------- the ground

/// The grid's size, the plane, and bits of the squares that are not closed, are exits, have a hatch, are wet, sent water in the step
/// before, or may change in this one. `changes` is what a step adds to a level, `hatched` what hatches add. `depths` has every bit that a
/// depth has had.
#[derive(Clone)]
struct Ground {
    rows: usize,
    columns: usize,
    levels: Plane,
    beds: Plane,
    roughness: Plane,
    inverses: [u64; WIDTH * WIDTH],
    rates: Plane,
    lasts: Plane,
    changes: Plane,
    hatched: Plane,
    open: Bits,
    exits: Bits,
    hatches: Bits,
    wet: Bits,
    sent: Bits,
    changing: Bits,
    depths: u32,
}

/// What leaves the grid and what soaks in a step.
#[derive(Default)]
struct Lost {
    off: u64,
    soaked: u64,
}

/// The words of one square in a record.
#[inline(always)]
fn put(record: &mut [u32], at: usize, words: [u32; WORDS]) {
    record[WORDS * at..][..WORDS].copy_from_slice(&words);
}

impl Ground {
    fn new(lent: &Lent) -> Box<Ground> {
        let none = [0; WIDTH * WIDTH];
        let mut ground = Box::new(Ground {
            rows: lent.rows,
            columns: lent.columns,
            levels: [WALL; WIDTH * WIDTH],
            beds: none,
            roughness: none,
            inverses: [0; WIDTH * WIDTH],
            rates: none,
            lasts: none,
            changes: none,
            hatched: none,
            open: [0; SIDE],
            exits: [0; SIDE],
            hatches: [0; SIDE],
            wet: [0; SIDE],
            sent: [0; SIDE],
            changing: [0; SIDE],
            depths: 0,
        });
        for square in 0..lent.squares() {
            if lent.marks[square] != CLOSED {
                ground.lay(lent, square);
            }
        }
        ground
    }

    /// Takes over a square that is not closed.
    fn lay(&mut self, lent: &Lent, square: usize) {
        let (row, column) = (square / lent.columns, square % lent.columns);
        let at = place(row, column);
        self.levels[at] = lent.beds[square] + lent.depths[square];
        self.beds[at] = lent.beds[square];
        self.roughness[at] = lent.roughness[square];
        self.inverses[at] = Divisor::new(lent.roughness[square] as u64).inverse;
        self.rates[at] = lent.rates[square];
        self.lasts[at] = lent.lasts[square];
        self.open[row] |= 1 << column;
        self.exits[row] |= ((lent.marks[square] == EXIT) as u64) << column;
        self.wet[row] |= ((lent.depths[square] > 0) as u64) << column;
        self.sent[row] |= ((lent.lasts[square] > 0) as u64) << column;
        self.depths |= lent.depths[square];
    }

    #[inline(always)]
    fn depth(&self, at: usize) -> u32 {
        self.levels[at] - self.beds[at]
    }

    fn deepest(&self) -> u64 {
        (0..WIDTH * WIDTH).filter(|at| self.levels[*at] != WALL).map(|at| self.depth(at)).max().unwrap_or(0) as u64
    }

    fn write_back(&self, lent: &mut Lent) {
        for square in 0..lent.squares() {
            if lent.marks[square] != CLOSED {
                let at = place(square / lent.columns, square % lent.columns);
                lent.depths[square] = self.depth(at);
                lent.lasts[square] = self.lasts[at];
            }
        }
    }

    /// The drops towards the four sides; a wall is never lower.
    #[inline(always)]
    fn drops(&self, at: usize) -> [u32; 4] {
        let own = self.levels[at];
        [at - WIDTH, at + 1, at + WIDTH, at - 1].map(|beside| own.saturating_sub(self.levels[beside]))
    }

    /// Which sides of a square lead off the grid.
    fn off(&self, row: usize, column: usize) -> [bool; 4] {
        [row == 0, column + 1 == self.columns, row + 1 == self.rows, column == 0]
    }

    /// The drops of an exit, which falls off the grid too.
    fn exit_drops(&self, row: usize, column: usize, most_off: u32) -> [u32; 4] {
        let (at, off) = (place(row, column), self.off(row, column));
        let mut drops = self.drops(at);
        for side in 0..4 {
            if off[side] {
                drops[side] = most_off.min(self.depth(at));
            }
        }
        drops
    }

    /// Works a wet square by its drops: its words, its last leaving, and what changes here and beside it.
    #[inline(always)]
    fn work<R: Roots, const EDITION: u64>(&mut self, at: usize, drops: [u32; 4], pace: &Pace) -> [u32; WORDS] {
        let (depth, last) = (self.depth(at), self.lasts[at]);
        let (roughness, inverse) = (self.roughness[at] as u64, self.inverses[at]);
        let square = Square { depth: depth as u64, last: last as u64, roughness, inverse, drops };
        let [north, east, south, west] = weigh::<R, EDITION>(&square, pace);
        let left = north + east + south + west;
        let soaked = soaks(self.rates[at] as u64, pace, depth - left);
        for (beside, sent) in [(at - WIDTH, north), (at + 1, east), (at + WIDTH, south), (at - 1, west)] {
            self.changes[beside] = self.changes[beside].wrapping_add(sent);
        }
        self.changes[at] = self.changes[at].wrapping_sub(left + soaked);
        self.lasts[at] = left;
        [north, east, south, west, last, pace.rained + self.hatched[at], soaked]
    }

    /// Works the wet squares of a row that are no exits, and gives those that sent; `record` is the row's part of it.
    #[inline(always)]
    fn work_row<R: Roots, const EDITION: u64>(&mut self, row: usize, pace: &Pace, record: &mut [u32], lost: &mut Lost) -> u64 {
        let mut left = self.wet[row] & !self.exits[row];
        let mut sent = 0;
        while left != 0 {
            let column = left.trailing_zeros() as usize & 63;
            left &= left - 1;
            let at = place(row, column);
            let words = self.work::<R, EDITION>(at, self.drops(at), pace);
            sent |= ((self.lasts[at] > 0) as u64) << column;
            lost.soaked += words[6] as u64;
            put(record, column, words);
        }
        sent
    }

    /// Works the wet exits of a row.
    #[inline(never)]
    fn work_exits<R: Roots, const EDITION: u64>(&mut self, row: usize, pace: &Pace, record: &mut [u32], lost: &mut Lost) -> u64 {
        let wet = self.wet[row] & self.exits[row];
        let mut sent = 0;
        for column in (0..SIDE).filter(|column| wet >> column & 1 == 1) {
            let (at, off) = (place(row, column), self.off(row, column));
            let words = self.work::<R, EDITION>(at, self.exit_drops(row, column, pace.most_off), pace);
            sent |= ((self.lasts[at] > 0) as u64) << column;
            lost.off += (0..4).map(|side| if off[side] { words[side] as u64 } else { 0 }).sum::<u64>();
            lost.soaked += words[6] as u64;
            put(record, column, words);
        }
        sent
    }

    /// Writes dry squares of a row that sent water before or are added to.
    #[inline(always)]
    fn write_dry(&mut self, row: usize, mut left: u64, rained: u32, record: &mut [u32]) {
        while left != 0 {
            let column = left.trailing_zeros() as usize & 63;
            left &= left - 1;
            let at = place(row, column);
            put(record, column, [0, 0, 0, 0, std::mem::take(&mut self.lasts[at]), rained + self.hatched[at], 0]);
        }
    }

    /// Adds what a row's squares have gained and lost, and finds the wet ones.
    #[inline(always)]
    fn change_row(&mut self, row: usize, rained: u32) {
        let mut left = if rained > 0 { self.open[row] } else { self.changing[row] & self.open[row] };
        let (mut wet, mut depths) = (self.wet[row], self.depths);
        self.changing[row] = 0;
        while left != 0 {
            let column = left.trailing_zeros() as usize & 63;
            left &= left - 1;
            let at = place(row, column);
            let change = std::mem::take(&mut self.changes[at]).wrapping_add(rained);
            if change == 0 {
                continue;
            }
            self.levels[at] = self.levels[at].wrapping_add(change);
            let depth = self.depth(at);
            depths |= depth;
            wet = wet & !(1 << column) | ((depth > 0) as u64) << column;
        }
        self.wet[row] = wet;
        self.depths = depths;
    }

    /// Marks the squares that may change by what a row's squares sent.
    #[inline(always)]
    fn mark_changing(&mut self, row: usize, sent: u64) {
        self.changing[row] |= sent | sent << 1 | sent >> 1;
        if row > 0 {
            self.changing[row - 1] |= sent;
        }
        if row + 1 < SIDE {
            self.changing[row + 1] |= sent;
        }
    }

    /// The candidate of a wet square by its gentlest drop that counts, which has the least; none where no drop counts.
    fn candidate<R: Roots>(&self, at: usize, drops: [u32; 4], rules: &Rules) -> Option<u64> {
        let side = rules.square_side;
        let drop = drops.into_iter().map(|drop| drop as u64).filter(|drop| *drop > rules.tolerance * 100 * side).min()?;
        let depth = self.depth(at) as u64;
        let above = 50_000 * side * side * self.roughness[at] as u64 * R::square(100 * drop / side);
        Some(above / (depth * R::height(depth)))
    }
}

// ---------------------------------------------------------------- the step

/// A run under way. `written` has, for each slot that is cleared, the squares whose words are not 0.
struct Flood {
    rules: Rules,
    record_size: usize,
    ground: Box<Ground>,
    rain: Source,
    hatches: Vec<Hatch>,
    written: Vec<Option<Bits>>,
}

impl Flood {
    fn new(lent: &Lent, clock: u64) -> Flood {
        let rain = lent.rain.chunks(3).map(|row| [row[0] as u64, row[1] as u64, row[2] as u64]).collect();
        let hatches = part_by_hatch(lent, clock);
        let mut ground = Ground::new(lent);
        for hatch in &hatches {
            ground.hatches[hatch.row] |= 1 << hatch.column;
        }
        let (rain, written) = (Source::new(rain, 3_600_000, clock), vec![None; lent.slots()]);
        Flood { rules: lent.rules, record_size: lent.record_size(), ground, rain, hatches, written }
    }

    /// The length worked afresh; nothing is below the shortest, so that the search ends there.
    fn length_afresh<R: Roots>(&self) -> u64 {
        let (ground, rules) = (&self.ground, &self.rules);
        let most_off = (rules.edge * 100 * rules.square_side) as u32;
        let mut least = rules.longest;
        for square in 0..ground.rows * ground.columns {
            if least <= rules.shortest {
                break;
            }
            let (row, column) = (square / ground.columns, square % ground.columns);
            if ground.wet[row] >> column & 1 == 0 {
                continue;
            }
            let (at, exit) = (place(row, column), ground.exits[row] >> column & 1 == 1);
            let drops = if exit { ground.exit_drops(row, column, most_off) } else { ground.drops(at) };
            least = least.min(ground.candidate::<R>(at, drops, rules).unwrap_or(least));
        }
        least.max(rules.shortest)
    }

    /// Adds what hatches pour in a step, and gives the most; 8 where a square could not hold it.
    fn pour(&mut self, clock: u64, rained: u64) -> Result<u64, u32> {
        let mut most = rained;
        for hatch in &mut self.hatches {
            let added = hatch.source.pour(clock);
            most = most.max(rained + added);
            let at = place(hatch.row, hatch.column);
            self.ground.hatched[at] = added as u32;
            self.ground.changes[at] = added as u32;
            self.ground.changing[hatch.row] |= 1 << hatch.column;
        }
        if most > MOST_DEPTH {
            return Err(8);
        }
        Ok(most)
    }

    /// Whether no refusal can follow: a square has at most what it and its four neighbours had and what is added.
    fn surely_fits(&self, run: &Run, added: u64) -> bool {
        let most_lost = MOST_SQUARES * MOST_DEPTH;
        5 * self.ground.depths as u64 + added <= MOST_DEPTH && run.outflow.max(run.soaked) + most_lost <= MOST_TOTAL
    }

    /// Works one row: its part of the record, and what changes by it.
    #[inline(always)]
    fn work_row<R: Roots, const EDITION: u64>(&mut self, row: usize, slot: usize, pace: &Pace, record: &mut [u32], lost: &mut Lost) {
        let ground = &mut *self.ground;
        let (wet, added) = (ground.wet[row], if pace.rained > 0 { ground.open[row] } else { ground.hatches[row] });
        let words = wet | ground.sent[row] | added;
        let kept = self.written[slot].as_mut().map(|written| std::mem::replace(&mut written[row], words)).unwrap_or(0);
        if words | kept == 0 {
            return;
        }
        let record = &mut record[2 + WORDS * ground.columns * row..][..WORDS * ground.columns];
        clear(record, kept & !words);
        ground.write_dry(row, words & !wet, pace.rained, record);
        let mut sent = ground.work_row::<R, EDITION>(row, pace, record, lost);
        if wet & ground.exits[row] != 0 {
            sent |= ground.work_exits::<R, EDITION>(row, pace, record, lost);
        }
        ground.sent[row] = sent;
        ground.mark_changing(row, sent);
        if lost.soaked > 0 {
            ground.changing[row] |= wet;
        }
    }

    /// Works all rows, then lets all squares change.
    fn work<R: Roots, const EDITION: u64>(&mut self, slot: usize, pace: &Pace, record: &mut [u32]) -> Lost {
        let mut lost = Lost::default();
        for row in 0..SIDE {
            self.work_row::<R, EDITION>(row, slot, pace, record, &mut lost);
        }
        for row in 0..SIDE {
            self.ground.change_row(row, pace.rained);
        }
        lost
    }

    /// Clears a slot that is used for the first time, and writes the head of its record.
    fn open_slot(&mut self, slot: usize, length: u64, lasted: u64, record: &mut [u32]) {
        if self.written[slot].is_none() {
            record.fill(0);
            self.written[slot] = Some([0; SIDE]);
        }
        record[0] = length as u32;
        record[1] = lasted as u32;
    }

    /// One step where a refusal may follow: everything is kept, and comes back with it.
    #[cold]
    fn work_carefully<R: Roots, const EDITION: u64>(&mut self, run: &Run, slot: usize, pace: &Pace, record: &mut [u32]) -> Result<Lost, u32> {
        let (ground, kept) = (self.ground.clone(), record.to_vec());
        self.open_slot(slot, run.length, pace.lasted, record);
        let lost = self.work::<R, EDITION>(slot, pace, record);
        let deepest = self.ground.deepest();
        let refusals = [(8, deepest > MOST_DEPTH), (9, run.outflow + lost.off > MOST_TOTAL), (15, run.soaked + lost.soaked > MOST_TOTAL)];
        if let Some((number, _)) = refusals.into_iter().find(|(_, applies)| *applies) {
            self.ground = ground;
            record.copy_from_slice(&kept);
            return Err(number);
        }
        self.ground.depths = deepest as u32;
        Ok(lost)
    }

    /// One step, or its refusal with everything as it was.
    fn step<R: Roots, const EDITION: u64>(&mut self, run: &Run, records: &mut [u32]) -> Result<Run, u32> {
        let rules = self.rules;
        let into = run.clock % rules.update;
        let length = if into == 0 { self.length_afresh::<R>() } else { run.length };
        let lasted = length.min(rules.update - into);
        let clock = run.clock + lasted;
        if clock > MOST_CLOCK {
            return Err(7);
        }
        let rained = self.rain.pour(clock);
        let added = self.pour(clock, rained)?;
        let pace = self.pace(run.clock, clock, rained as u32);
        let slot = (run.newest + 1) % self.written.len();
        let record = &mut records[slot * self.record_size..][..self.record_size];
        let lost = if self.surely_fits(run, added) {
            self.open_slot(slot, run.length, lasted, record);
            self.work::<R, EDITION>(slot, &pace, record)
        } else {
            self.work_carefully::<R, EDITION>(run, slot, &pace, record)?
        };
        let kept = (run.kept + 1).min(self.written.len());
        Ok(Run { clock, length, outflow: run.outflow + lost.off, kept, newest: slot, soaked: run.soaked + lost.soaked })
    }

    fn pace(&self, start: u64, end: u64, rained: u32) -> Pace {
        let side = self.rules.square_side;
        let most_off = (self.rules.edge * 100 * side) as u32;
        Pace { start, end, lasted: end - start, rained, side: Divisor::new(side), reach: Divisor::new(side * 1_000_000_000), most_off }
    }
}

/// Clears squares of a row's part of a record.
#[inline(always)]
fn clear(record: &mut [u32], mut left: u64) {
    while left != 0 {
        put(record, left.trailing_zeros() as usize & 63, [0; WORDS]);
        left &= left - 1;
    }
}

/// The rival, by one kind of roots.
pub struct Rival<R>(PhantomData<R>);

impl<R: Roots> Engine for Rival<R> {
    fn run_on(lent: &mut Lent, run: Run) -> Made {
        let mut flood = Flood::new(lent, run.clock);
        let made = match lent.rules.edition {
            DIRECTED => steps_to(lent.end, run, |run| flood.step::<R, DIRECTED>(run, lent.records)),
            UNLIMITED => steps_to(lent.end, run, |run| flood.step::<R, UNLIMITED>(run, lent.records)),
            _ => steps_to(lent.end, run, |run| flood.step::<R, 1>(run, lent.records)),
        };
        flood.ground.write_back(lent);
        made
    }
}
