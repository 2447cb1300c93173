//! Rounds of steps, runs and take-backs on random meadows: in series with changing rules, at the brim, and where a rounding is exact.

use crate::calls::{Call, Tally};
use crate::chance::Chance;
use crate::limits;
use crate::meadows::{self, Lent, MOST_BED, MOST_CLOCK, MOST_DEPTH, MOST_OUTFLOW, MOST_SOAKED, MOST_SOAK_RATE};
use crate::reference::{Rules, CLOSED, EXIT, OPEN, WORDS};
use crate::worked::go_on;

/// Arrows of every square of a small meadow and of some squares of a large one, and wet rows.
pub fn look(tally: &mut Tally, chance: &mut Chance, lent: &Lent) {
    let mut lent = lent.clone();
    let squares = lent.meadow.squares();
    for turn in 0..squares.min(30) {
        let square = if squares <= 30 { turn } else { chance.index(squares) };
        lent.row = square / lent.meadow.columns;
        lent.column = square % lent.meadow.columns;
        tally.call(Call::Arrow, &lent);
    }
    lent.wet_depth = wet_depth(chance, &lent);
    tally.call(Call::WetRows, &lent);
}

/// A depth at or beside one that a square has, or any.
fn wet_depth(chance: &mut Chance, lent: &Lent) -> u32 {
    let depth = chance.pick(&lent.meadow.depths) as u64;
    match chance.below(4) {
        0 => depth.saturating_sub(1).min(MOST_DEPTH) as u32,
        1 => depth.min(MOST_DEPTH) as u32,
        2 => (depth + 1).min(MOST_DEPTH) as u32,
        _ => chance.amount(MOST_DEPTH) as u32,
    }
}

/// New rules, another edition, now and then one that there is not, new tables, rates or roughness, as a warden may give between two calls.
fn change_rules(chance: &mut Chance, lent: &mut Lent) {
    match chance.below(5) {
        0 => lent.rules = meadows::rules(chance),
        1 => lent.rules.edition = chance.pick(&[1, 1, 2, 2, 3, 3, 0, 4]),
        2 => meadows::tables(chance, &mut lent.meadow, lent.run.clock),
        3 => meadows::rates(chance, &mut lent.meadow),
        _ => {
            for square in lent.open_squares() {
                lent.meadow.roughness[square] = chance.between(1, 10_000) as u32;
            }
        }
    }
}

pub fn one_call(tally: &mut Tally, chance: &mut Chance, lent: &mut Lent) {
    let call = chance.pick(&[Call::Step, Call::Step, Call::Step, Call::RunTo, Call::TakeBack, Call::TakeBack]);
    lent.end = meadows::end(chance, &lent.run, &lent.rules);
    let after = tally.call(call, lent);
    if after.number == 0 || (call == Call::RunTo && after.number >= 7) {
        go_on(lent, &after);
    }
}

fn make_series(tally: &mut Tally, chance: &mut Chance, lent: &mut Lent, calls: u64) {
    if chance.one_in(2) {
        let fresh = tally.call(Call::Fresh, lent);
        if fresh.number == 0 {
            go_on(lent, &fresh);
        }
    }
    for _ in 0..calls {
        match chance.below(8) {
            0 => change_rules(chance, lent),
            1 => look(tally, chance, lent),
            2 => meadows::junk(chance, &mut lent.meadow),
            _ => one_call(tally, chance, lent),
        }
    }
    look(tally, chance, lent);
}

pub fn series(tally: &mut Tally, chance: &mut Chance) {
    for _ in 0..12 {
        let shape = meadows::small_shape(chance);
        let mut lent = meadows::lent(chance, shape);
        let calls = chance.between(10, 40);
        make_series(tally, chance, &mut lent, calls);
    }
}

// ---------------------------------------------------------------- the brim

pub fn brim(tally: &mut Tally, chance: &mut Chance) {
    for _ in 0..15 {
        run_and_steps(tally, at_brim(chance), 6);
    }
}

/// A meadow that may soon be too deep, or let out or soak too much, or come to the last clock.
pub fn at_brim(chance: &mut Chance) -> Lent {
    let shape = meadows::small_shape(chance);
    let mut lent = meadows::lent(chance, shape);
    if chance.one_in(2) {
        for square in lent.open_squares() {
            lent.meadow.depths[square] = (MOST_DEPTH - chance.amount(MOST_DEPTH / 10)) as u32;
        }
    }
    if chance.one_in(2) {
        lent.run.outflow = MOST_OUTFLOW - chance.amount(1_000_000_000);
    }
    if chance.one_in(2) {
        lent.run.soaked = MOST_SOAKED - chance.amount(10_000);
    }
    if chance.one_in(2) {
        lent.run.clock = MOST_CLOCK - chance.below(200_000);
        meadows::tables(chance, &mut lent.meadow, lent.run.clock);
    }
    lent.end = meadows::end(chance, &lent.run, &lent.rules);
    lent
}

/// A run to the end, and from the same start so many steps, up to one that is refused.
fn run_and_steps(tally: &mut Tally, mut lent: Lent, steps: usize) {
    tally.call(Call::RunTo, &lent);
    for _ in 0..steps {
        let after = tally.call(Call::Step, &lent);
        if after.number != 0 {
            break;
        }
        go_on(&mut lent, &after);
    }
}

pub fn exact_brims(tally: &mut Tally, chance: &mut Chance) {
    for _ in 0..6 {
        exact_brim(tally, chance);
    }
}

/// A step that just passes and one that just does not, for each of 7, 8, 9 and 15.
fn exact_brim(tally: &mut Tally, chance: &mut Chance) {
    let shape = meadows::small_shape(chance);
    let mut lent = meadows::lent(chance, shape);
    let edition = lent.rules.edition;
    lent.rules = Rules { square_side: 1, tolerance: 0, shortest: 1, longest: 60_000, update: 1_000_000, edge: 10_000, edition };
    lent.run.clock = 500_000;
    lent.run.length = chance.between(2_000, 60_000);
    lent.run.outflow = 0;
    lent.run.soaked = 0;
    for most in [7, 8, 9, 15] {
        let mut at_brim = lent.clone();
        match most {
            7 => at_brim.run.clock = MOST_CLOCK - lent.run.length,
            8 => fill_one_square(tally, chance, &mut at_brim),
            15 => at_brim.run.soaked = MOST_SOAKED - tally.call(Call::Step, &lent).run[5].min(MOST_SOAKED),
            _ => at_brim.run.outflow = MOST_OUTFLOW - tally.call(Call::Step, &lent).run[2].min(MOST_OUTFLOW),
        }
        tally.call(Call::Step, &at_brim);
        match most {
            7 => at_brim.run.clock += 1,
            8 => put_one_more(&mut at_brim),
            15 => at_brim.run.soaked = (at_brim.run.soaked + 1).min(MOST_SOAKED),
            _ => at_brim.run.outflow = (at_brim.run.outflow + 1).min(MOST_OUTFLOW),
        }
        tally.call(Call::Step, &at_brim);
    }
}

/// Lets in what is missing to the deepest depth on a square, by two rows on a square of 1 m: so many litres each millisecond, and the rest
/// in one.
fn fill_one_square(tally: &mut Tally, chance: &mut Chance, lent: &mut Lent) {
    lent.meadow.rain.clear();
    lent.meadow.inflow.clear();
    let after = tally.call(Call::Step, lent);
    let open = lent.open_squares();
    if after.number != 0 || open.is_empty() {
        return;
    }
    let square = chance.pick(&open);
    let (row, column) = ((square / lent.meadow.columns) as u32, (square % lent.meadow.columns) as u32);
    let missing = MOST_DEPTH as u32 - after.meadow.depths[square];
    let (clock, time) = (lent.run.clock as u32, 1_500);
    lent.meadow.inflow.extend([row, column, clock, clock + time, missing / time]);
    lent.meadow.inflow.extend([row, column, clock, clock + 1, missing % time]);
}

fn put_one_more(lent: &mut Lent) {
    if let Some(litres) = lent.meadow.inflow.last_mut() {
        *litres += 1;
    }
}

/// Deep water above great drops and in long steps, where the most through a side times the sum of the drops passes 64 bits.
pub fn deep_and_steep(tally: &mut Tally, chance: &mut Chance) {
    for _ in 0..60 {
        let shape = (chance.between(1, 2) as usize, chance.between(2, 3) as usize);
        let mut lent = meadows::lent(chance, shape);
        lent.rules.square_side = chance.between(1, 2);
        lent.rules.update = 3_600_000;
        lent.run.clock = 1;
        lent.run.length = chance.between(50_000, 60_000);
        for square in lent.open_squares() {
            let high = square % 2 == 0;
            lent.meadow.beds[square] = if high { MOST_BED - chance.below(1_000) } else { chance.below(1_000) } as u32;
            lent.meadow.depths[square] = if high { chance.between(MOST_DEPTH / 2, MOST_DEPTH) } else { 0 } as u32;
            lent.meadow.roughness[square] = chance.between(1, 50) as u32;
            lent.meadow.lasts[square] = MOST_DEPTH as u32;
        }
        tally.call(Call::Step, &lent);
    }
}

/// The least whole number that is not below a quotient; Debian's compiler has no `div_ceil` yet.
fn rounded_up(over: u64, under: u64) -> u64 {
    (over + under - 1) / under
}

/// The largest whole number whose power fits, by binary digits: apart from both engines.
fn root(power: u32, of: u64) -> u64 {
    let fits = |root: u64| (root as u128).pow(power) <= of as u128;
    (0..25).rev().map(|bit| 1 << bit).fold(0, |root, place| if fits(root + place) { root + place } else { root })
}

/// A step of `ms`, and a run of that one step, of squares with this side; no rain and no inflow.
fn one_step(tally: &mut Tally, mut lent: Lent, side: u64, ms: u64) {
    lent.meadow.rain.clear();
    lent.meadow.inflow.clear();
    lent.rules.square_side = side;
    lent.rules.update = ms + 1;
    lent.run.clock = 1;
    lent.run.length = ms;
    lent.end = ms + 1;
    tally.call(Call::Step, &lent);
    tally.call(Call::RunTo, &lent);
}

/// A step of `ms`, and a run of that one step, of a square with water beside a dry one that lies `drop` below its level; P limits nothing.
fn one_fall(tally: &mut Tally, chance: &mut Chance, [side, depth, roughness, drop, ms]: [u64; 5]) {
    let mut lent = meadows::lent(chance, (1, 2));
    let bed = if drop < depth { 0 } else { MOST_BED };
    lent.meadow.marks = vec![OPEN; 2];
    lent.meadow.beds = vec![bed as u32, (bed + depth - drop) as u32];
    lent.meadow.roughness = vec![roughness as u32; 2];
    lent.meadow.rates = vec![0; 2];
    lent.meadow.depths = vec![depth as u32, 0];
    lent.meadow.lasts = vec![MOST_DEPTH as u32; 2];
    one_step(tally, lent, side, ms);
}

/// Water so deep that 1 µm/s tells in what leaves, and a roughness and a drop for which Manning's speed is at the critical one or beside it.
pub fn at_critical(tally: &mut Tally, chance: &mut Chance) {
    for _ in 0..20 {
        let depth = chance.between(40_000_000, MOST_DEPTH);
        let (critical, height) = (root(2, 9_810_000 * depth), root(3, depth * depth));
        let mut near = vec![(10_000, 100 * critical / height)];
        for roughness in 1..=10_000 {
            let above = rounded_up(critical * roughness, 100 * height);
            let beside = |slope: u64| (100 * height * slope / roughness).abs_diff(critical) <= 2;
            near.extend([above - 1, above].into_iter().filter(|slope| beside(*slope)).map(|slope| (roughness, slope)));
        }
        let side = chance.pick(&[1, 2, 10, 99, 100]);
        let (roughness, slope) = chance.pick(&near);
        let drop = rounded_up(slope * slope * side, 100);
        let ms = chance.between(side * 1_000_000_000 / depth, side * 1_000_000_000 / (2 * critical));
        one_fall(tally, chance, [side, depth, roughness, drop, ms]);
    }
}

/// Water of any depth, thin water above all, and a step that just lets so many µm through its steepest side, or is 1 ms too short for it.
pub fn at_whole_amounts(tally: &mut Tally, chance: &mut Chance) {
    for _ in 0..40 {
        let side = chance.pick(&[1, 2, 7, 10, 100]);
        let roughness = chance.pick(&[1, 300, 3_500, 10_000]);
        let (deepest, steepest) = (chance.pick(&[1_000, 20_000, 1_000_000, MOST_DEPTH]), chance.pick(&[100, 10_000, 1_000_000, MOST_BED]));
        let (depth, drop) = (chance.between(1, deepest), chance.between(1, steepest));
        let manning = 100 * root(3, depth * depth) * root(2, 100 * drop / side) / roughness;
        let speed = manning.min(root(2, 9_810_000 * depth)).max(1) as u128;
        let amount = chance.pick(&[1, 2, 1 + depth / 3]) as u128;
        let (over, under) = (amount * side as u128 * 1_000_000_000, speed * depth as u128);
        let enough = ((over + under - 1) / under).clamp(2, 60_000) as u64;
        for ms in [enough, enough - 1] {
            one_fall(tally, chance, [side, depth, roughness, drop, ms]);
        }
    }
}

/// A step of `ms`, and a run of that one step, of a square with water among dry ones that lie so far below its level; a drop of 0 is a
/// closed square.
fn four_falls(tally: &mut Tally, chance: &mut Chance, drops: [u64; 4], [side, depth, roughness, ms]: [u64; 4]) {
    const CENTRE: usize = 4;
    const BESIDE: [usize; 4] = [1, 5, 7, 3];
    let mut lent = meadows::lent(chance, (3, 3));
    lent.meadow.marks = vec![CLOSED; 9];
    lent.meadow.marks[CENTRE] = OPEN;
    lent.meadow.beds[CENTRE] = (MOST_BED - depth) as u32;
    lent.meadow.roughness[CENTRE] = roughness as u32;
    lent.meadow.rates = vec![0; 9];
    lent.meadow.depths[CENTRE] = depth as u32;
    lent.meadow.lasts[CENTRE] = chance.amount(MOST_DEPTH) as u32;
    for (square, drop) in BESIDE.into_iter().zip(drops).filter(|(_, drop)| *drop > 0) {
        lent.meadow.marks[square] = OPEN;
        lent.meadow.beds[square] = (MOST_BED - drop) as u32;
        lent.meadow.roughness[square] = roughness as u32;
        lent.meadow.depths[square] = 0;
        lent.meadow.lasts[square] = 0;
    }
    lent.rules.edition = chance.pick(&[1, 2, 2, 2, 3]);
    one_step(tally, lent, side, ms);
}

/// Water that falls on one to four sides, and a step in which what edition 2 sends by each just comes to the depth, or 1 ms less or more.
pub fn at_sums(tally: &mut Tally, chance: &mut Chance) {
    for _ in 0..30 {
        let side = chance.pick(&[1, 2, 7, 10, 100]);
        let roughness = chance.pick(&[1, 300, 3_500, 10_000]);
        let (deepest, steepest) = (chance.pick(&[8, 1_000, 20_000, 1_000_000, MOST_DEPTH]), chance.pick(&[9, 10_000, 1_000_000, MOST_BED]));
        let depth = chance.between(1, deepest);
        let alike = chance.between(1, steepest);
        let drops = [0; 4].map(|none| match chance.below(4) {
            0 => none,
            1 => alike,
            _ => chance.between(1, steepest),
        });
        let critical = root(2, 9_810_000 * depth);
        let speed = |drop: u64| critical.min(100 * root(3, depth * depth) * root(2, 100 * drop / side) / roughness);
        let speeds = drops.into_iter().filter(|drop| *drop > 0).map(speed).sum::<u64>().max(1);
        let whole = rounded_up(side * 1_000_000_000, speeds).clamp(2, 59_999);
        for ms in [whole - 1, whole, whole + 1] {
            four_falls(tally, chance, drops, [side, depth, roughness, ms]);
        }
    }
}

/// Exits just as deep as the edge slope's drop, one less and one more, or of any depth, at a tolerance at or beside the edge slope.
pub fn at_edges(tally: &mut Tally, chance: &mut Chance) {
    for _ in 0..20 {
        let shape = meadows::small_shape(chance);
        let mut lent = meadows::lent(chance, shape);
        let edge = chance.pick(&[1, 10, 100, 9_999, 10_000, lent.rules.edge]);
        let drop = edge * 100 * lent.rules.square_side;
        lent.rules.edge = edge;
        lent.rules.tolerance = chance.pick(&[edge.saturating_sub(1), edge, edge + 1, lent.rules.tolerance]).min(10_000);
        for square in lent.open_squares() {
            if meadows::on_rim(&lent.meadow, square) {
                lent.meadow.marks[square] = EXIT;
            }
            let any = chance.amount(MOST_DEPTH);
            let depth = chance.pick(&[drop.saturating_sub(1), drop, drop + 1, any]);
            lent.meadow.depths[square] = depth.min(MOST_DEPTH) as u32;
        }
        if chance.one_in(2) {
            lent.run.clock -= lent.run.clock % lent.rules.update;
        }
        lent.end = meadows::end(chance, &lent.run, &lent.rules);
        tally.call(Call::Step, &lent);
        tally.call(Call::RunTo, &lent);
    }
}

/// Rain and inflow that come out whole, one short of it and one more, at the start or the end of a step.
pub fn exact_roundings(tally: &mut Tally, chance: &mut Chance) {
    for _ in 0..20 {
        let mut lent = meadows::lent(chance, (1, 2));
        lent.meadow.marks = vec![OPEN; 2];
        lent.meadow.beds = vec![0; 2];
        lent.meadow.roughness = vec![100; 2];
        lent.meadow.rates = vec![0; 2];
        lent.meadow.depths = vec![chance.below(100) as u32; 2];
        lent.meadow.lasts = vec![0; 2];
        lent.rules.update = 3_600_000;
        lent.run.clock = chance.between(100_000_000, 500_000_000);
        let ends = lent.run.clock + lent.run.length.min(3_600_000 - lent.run.clock % 3_600_000);
        let at = chance.pick(&[lent.run.clock, ends]);
        lent.meadow.rain = summing_up(chance, at, 3_600_000, &[]);
        let area = lent.rules.square_side * lent.rules.square_side;
        lent.meadow.inflow = summing_up(chance, at, area, &[0, 1]);
        tally.call(Call::Step, &lent);
    }
}

/// Two rows of a table whose amounts times time run come to a multiple of `whole` by the clock, or to one beside it.
fn summing_up(chance: &mut Chance, clock: u64, whole: u64, place: &[u32]) -> Vec<u32> {
    let sum = whole * chance.between(1, 20) + chance.below(3) - 1;
    let amount = chance.between(1, 9);
    let rows = [(sum / amount, amount), (1, sum % amount)];
    rows.iter().flat_map(|(time, amount)| place.iter().cloned().chain([(clock - time) as u32, MOST_CLOCK as u32, *amount as u32])).collect()
}

// ---------------------------------------------------------------- soaking

pub fn soakings(tally: &mut Tally, chance: &mut Chance) {
    for _ in 0..15 {
        at_whole_due(tally, chance);
        at_what_is_left(tally, chance);
    }
}

/// A meadow whose next step lasts so long from a clock on, or to the next full hour.
fn from_clock(chance: &mut Chance, shape: (usize, usize), clock: u64, ms: u64) -> Lent {
    let mut lent = meadows::lent(chance, shape);
    lent.rules.update = 3_600_000;
    lent.rules.shortest = ms;
    lent.rules.longest = ms;
    lent.run.clock = clock;
    lent.run.length = ms;
    lent.run.soaked = chance.amount(MOST_SOAKED / 2);
    lent
}

/// A rate that has a whole number of µm due by a clock, or is one ms beside it, at the start or at the end of a step.
fn at_whole_due(tally: &mut Tally, chance: &mut Chance) {
    let any = chance.between(1, MOST_SOAK_RATE);
    let rate = chance.pick(&[1, 2, 7, 900, 3_600, 360_000, 999_999, MOST_SOAK_RATE, any]);
    let ms = chance.between(2, 60_000);
    // the clocks by which it is whole are so far apart
    let apart = 3_600_000 / common(rate, 3_600_000);
    let whole = apart * chance.between(1, (MOST_CLOCK / 2 / apart).max(1));
    let at = whole + chance.below(3) - 1;
    let shape = meadows::small_shape(chance);
    let clock = chance.pick(&[at, at.saturating_sub(ms)]);
    let mut lent = from_clock(chance, shape, clock, ms);
    for square in lent.open_squares() {
        lent.meadow.rates[square] = chance.pick(&[rate, rate, 0]) as u32;
        lent.meadow.depths[square] = chance.pick(&[0, 1, 50_000, 1_000_000]);
    }
    tally.call(Call::Step, &lent);
}

/// The greatest number that divides both.
fn common(one: u64, other: u64) -> u64 {
    if other == 0 {
        one
    } else {
        common(other, one % other)
    }
}

/// Rates for which what is due is about what the sides leave: that, one less, one more, or a little off.
fn at_what_is_left(tally: &mut Tally, chance: &mut Chance) {
    let shape = (chance.between(1, 3) as usize, chance.between(1, 3) as usize);
    let (clock, ms) = (chance.between(0, 500_000_000), chance.between(1_000, 60_000));
    let mut lent = from_clock(chance, shape, clock, ms);
    let most_due = MOST_SOAK_RATE * ms / 3_600_000;
    for square in lent.open_squares() {
        lent.meadow.rates[square] = 0;
        lent.meadow.depths[square] = chance.below(2 * most_due) as u32;
    }
    let unsoaked = tally.call(Call::Step, &lent);
    if unsoaked.number != 0 {
        return;
    }
    let newest = unsoaked.run[4] as usize * lent.meadow.record_size();
    for square in lent.open_squares() {
        let at = newest + 2 + WORDS * square;
        let left = lent.meadow.depths[square] as u64 - unsoaked.meadow.records[at..at + 4].iter().map(|sent| *sent as u64).sum::<u64>();
        let wanted = (left + chance.below(3)).saturating_sub(1);
        let beside = chance.below(3);
        let rate = rounded_up(wanted * 3_600_000, ms) + beside;
        lent.meadow.rates[square] = rate.saturating_sub(1).min(MOST_SOAK_RATE) as u32;
    }
    let step = tally.call(Call::Step, &lent);
    if step.number == 0 {
        go_on(&mut lent, &step);
        tally.call(Call::TakeBack, &lent);
    }
}

// ---------------------------------------------------------------- shapes and wet rows

/// Shapes at the limits and one past them, all slices fitting.
pub fn shapes(tally: &mut Tally, chance: &mut Chance) {
    const SHAPES: [(usize, usize); 12] =
        [(64, 64), (64, 63), (63, 64), (64, 1), (1, 64), (2, 64), (64, 2), (8, 64), (65, 1), (1, 65), (0, 3), (3, 0)];
    let shape = if chance.one_in(4) { (chance.between(1, 64) as usize, chance.between(1, 64) as usize) } else { chance.pick(&SHAPES) };
    if shape.0 * shape.1 == 0 || shape.0 > 64 || shape.1 > 64 {
        limits::call_all(tally, &out_of_shape(chance, shape));
        return;
    }
    let mut lent = meadows::lent(chance, shape);
    let calls = if shape.0 * shape.1 > 600 { 3 } else { 10 };
    make_series(tally, chance, &mut lent, calls);
}

fn out_of_shape(chance: &mut Chance, (rows, columns): (usize, usize)) -> Lent {
    let mut lent = meadows::lent(chance, (1, 1));
    let squares = rows * columns;
    lent.meadow.rows = rows;
    lent.meadow.columns = columns;
    lent.meadow.marks = vec![1; squares];
    lent.meadow.beds = vec![0; squares];
    lent.meadow.roughness = vec![100; squares];
    lent.meadow.rates = vec![0; squares];
    lent.meadow.depths = vec![5; squares];
    lent.meadow.lasts = vec![0; squares];
    lent.meadow.inflow.clear();
    lent.meadow.records = vec![1; 2 + WORDS * squares];
    lent.run.kept = 1;
    lent.run.newest = 0;
    lent.wet = vec![0; rows];
    lent
}

pub fn wet_rows(tally: &mut Tally, chance: &mut Chance) {
    let shape = if chance.one_in(3) { (chance.between(1, 64) as usize, 64) } else { meadows::small_shape(chance) };
    let mut lent = meadows::lent(chance, shape);
    for _ in 0..6 {
        lent.wet_depth = wet_depth(chance, &lent);
        tally.call(Call::WetRows, &lent);
    }
    for wet_depth in [0, 1, MOST_DEPTH as u32, MOST_DEPTH as u32 + 1] {
        lent.wet_depth = wet_depth;
        tally.call(Call::WetRows, &lent);
    }
}

// ---------------------------------------------------------------- the wet walk

/// A width that a row's mask just holds, or one that leaves bits free.
fn width(chance: &mut Chance) -> usize {
    let any = chance.between(1, 64);
    chance.pick(&[64, 64, 63, 33, 32, 31, 2, 1, any]) as usize
}

/// One square with water in a dry meadow, at each column in turn.
pub fn wet_columns(tally: &mut Tally, chance: &mut Chance) {
    let (rows, columns) = (chance.between(1, 3) as usize, width(chance));
    for column in 0..columns {
        let mut lent = meadows::dry(chance, (rows, columns));
        let square = chance.index(rows) * columns + column;
        meadows::pour(chance, &mut lent, square);
        run_and_steps(tally, lent, 2);
    }
}

/// Meadows with water in a few squares, in all or in none, and some that it comes to or goes from.
pub fn waterings(tally: &mut Tally, chance: &mut Chance) {
    for watering in meadows::WATERINGS {
        let shape = if chance.one_in(3) { (chance.between(1, 9) as usize, width(chance)) } else { meadows::small_shape(chance) };
        let mut lent = meadows::dry(chance, shape);
        watering(chance, &mut lent);
        run_and_steps(tally, lent, 5);
    }
}
