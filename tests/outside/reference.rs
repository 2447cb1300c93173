//! Document 01 in plain Rust, in its order and its words, with requests #102, #105, #113 and #106 of document 02, written from the
//! documents alone: what the library is compared with.
//! Amounts are `u128`, so that every formula stands as it is written there. The comment at each function names its sentence.

pub const CLOSED: u8 = 0;
pub const OPEN: u8 = 1;
pub const EXIT: u8 = 2;

// "Units and ranges"
const MOST_SIDE: u128 = 100;
const MOST_BED: u128 = 1_000_000_000;
const MOST_DEPTH: u128 = 100_000_000;
const MOST_ROUGHNESS: u128 = 10_000;
const MOST_TOLERANCE: u128 = 10_000;
const MOST_LENGTH: u128 = 60_000;
const MOST_UPDATE: u128 = 3_600_000;
const MOST_EDGE: u128 = 10_000;
const MOST_EDITION: u128 = 3;
const MOST_CLOCK: u128 = 604_800_000;
const MOST_RATE: u128 = 1_000_000;
const MOST_LITRES: u128 = 100_000;
const MOST_SOAK_RATE: u128 = 1_000_000;
const MOST_OUTFLOW: u128 = 1_000_000_000_000_000;
const MOST_SOAKED: u128 = 1_000_000_000_000_000;
const MOST_TABLE_ROWS: usize = 64;
pub const RAIN_ROOM: usize = 192;
pub const INFLOW_ROOM: usize = 320;

/// "North, east, south, west, P before, amount added", and with #106 "the amount soaked": the numbers of a square in a record, those after
/// the sides by their place.
pub const WORDS: usize = 7;
pub const LAST: usize = 4;
pub const ADDED: usize = 5;
pub const SOAKED: usize = 6;

/// "At most 65,536 bytes from standard input", and "1 above 1,024 squares".
pub const MOST_TEXT: usize = 65_536;
const MOST_MEADOW_SQUARES: usize = 1_024;

/// "Rules there are q, step limits, U, roughness and D": roughness is lent with the meadow. #102: "Give the rules an edge slope e".
/// #113: "a second rule edition, chosen per run".
#[derive(Clone, Copy, PartialEq, Debug)]
pub struct Rules {
    pub square_side: u64,
    pub tolerance: u64,
    pub shortest: u64,
    pub longest: u64,
    pub update: u64,
    pub edge: u64,
    pub edition: u64,
}

/// "A run value holds: clock, step length, outflow total, kept, newest slot." #106: "and the run a total soaked".
#[derive(Clone, Copy, PartialEq, Debug)]
pub struct Run {
    pub clock: u64,
    pub length: u64,
    pub outflow: u64,
    pub kept: usize,
    pub newest: usize,
    pub soaked: u64,
}

/// Everything that a call may be lent, of any lengths.
#[derive(Clone, PartialEq, Debug, Default)]
pub struct Meadow {
    pub rows: usize,
    pub columns: usize,
    pub marks: Vec<u8>,
    pub beds: Vec<u32>,
    pub roughness: Vec<u32>,
    pub rates: Vec<u32>,
    pub rain: Vec<u32>,
    pub inflow: Vec<u32>,
    pub depths: Vec<u32>,
    pub lasts: Vec<u32>,
    pub records: Vec<u32>,
}

/// A run to an end: "it gives that number with the steps made"; number 0 where no step was refused.
#[derive(Clone, Copy, PartialEq, Debug)]
pub struct Made {
    pub number: u32,
    pub steps: u64,
    pub run: Run,
}

/// "The answer is one of: closed; dry; still; moving, with the arrow; or a refusal."
#[derive(Clone, Copy, Debug)]
pub enum Arrow {
    Refused(u32),
    Closed,
    Dry,
    Still,
    Moving { east: f64, north: f64 },
}

/// #112: both figures of a run; its own case where the clock is no multiple of U or the end comes before it; or a refusal.
#[derive(Clone, Copy, PartialEq, Debug)]
pub enum Bounds {
    Refused(u32),
    NotBounded,
    Bounded { most: u128, least: u128 },
}

/// What the `grid` and `run` lines say, and how many lines of rain and inflow there are.
#[derive(Clone, Copy, PartialEq, Debug)]
pub struct Heading {
    pub rows: usize,
    pub columns: usize,
    pub rules: Rules,
    pub end: u64,
    pub rain_rows: usize,
    pub inflow_rows: usize,
}

/// "A refusal prints only `refused`, number, line (0 unless 12)."
#[derive(Clone, Copy, PartialEq, Debug)]
pub struct Refusal {
    pub number: u32,
    pub line: u64,
}

impl Meadow {
    pub fn squares(&self) -> usize {
        self.rows * self.columns
    }

    /// "One record is 2 + 6·squares numbers"; #106: "A record gains a seventh number a square".
    pub fn record_size(&self) -> usize {
        2 + WORDS * self.squares()
    }

    /// "The record room holds K records, its length divided by that size, rounded down."
    pub fn slots(&self) -> usize {
        self.records.len() / self.record_size()
    }

    fn closed(&self, square: usize) -> bool {
        self.marks[square] == CLOSED
    }

    /// "All but records hold one a square, row by row from the north"; `None` is off the grid.
    fn neighbour(&self, square: usize, side: usize) -> Option<usize> {
        let (row, column) = (square / self.columns, square % self.columns);
        match side {
            NORTH if row > 0 => Some(square - self.columns),
            EAST if column + 1 < self.columns => Some(square + 1),
            SOUTH if row + 1 < self.rows => Some(square + self.columns),
            WEST if column > 0 => Some(square - 1),
            _ => None,
        }
    }

    /// A number of the newest record: 0 to 3 what left through a side, then P before, amount added, amount soaked.
    fn recorded(&self, run: &Run, square: usize, part: usize) -> u128 {
        self.records[run.newest * self.record_size() + 2 + WORDS * square + part] as u128
    }

    /// "A closed square's numbers in a record are never read; it sent nothing"; nor does anything come from off the grid.
    fn sent_here(&self, run: &Run, square: usize, side: usize) -> u128 {
        match self.neighbour(square, side) {
            Some(next) if !self.closed(next) => self.recorded(run, next, opposite(side)),
            _ => 0,
        }
    }
}

// "north, east, south and west"
const NORTH: usize = 0;
const EAST: usize = 1;
const SOUTH: usize = 2;
const WEST: usize = 3;

fn opposite(side: usize) -> usize {
    (side + 2) % 4
}

fn within(least: u128, value: u128, most: u128) -> bool {
    least <= value && value <= most
}

// ---------------------------------------------------------------- Units and ranges

/// "A row has run by clock t for max(0, min(t, to) − from) ms."
fn time_run(from: u32, to: u32, clock: u128) -> u128 {
    clock.min(to as u128).saturating_sub(from as u128)
}

/// "A fresh run: clock 0, length = the longest of the rules it starts with, outflow 0, kept 0, newest K − 1, P 0 on squares not closed";
/// #106: the total soaked is "0 when fresh".
pub fn fresh(meadow: &mut Meadow, rules: &Rules) -> Result<Run, u32> {
    let lengths = [meadow.marks.len(), meadow.lasts.len()];
    refuse(1, shape_wrong(meadow) || side_wrong(rules.square_side) || lengths_wrong(meadow, &lengths))?;
    refuse(2, marks_wrong(meadow))?;
    refuse(5, rules_wrong(rules))?;
    refuse(6, meadow.slots() == 0)?;
    for square in 0..meadow.squares() {
        if !meadow.closed(square) {
            meadow.lasts[square] = 0;
        }
    }
    Ok(Run { clock: 0, length: rules.longest, outflow: 0, kept: 0, newest: meadow.slots() - 1, soaked: 0 })
}

// ---------------------------------------------------------------- The step

/// The largest whole number whose power does not pass `of`; `largest(3, n)` is the largest h with h³ ≤ n. No root of the documents
/// reaches 2^25: the greatest is the critical speed of 100 m of water, 31,320,919 µm/s.
fn largest(power: u32, of: u128) -> u128 {
    let (mut fits, mut passes) = (0u128, 1u128 << 25);
    while passes - fits > 1 {
        let tried = (fits + passes) / 2;
        if tried.pow(power) <= of {
            fits = tried;
        } else {
            passes = tried;
        }
    }
    fits
}

/// "h: the largest whole number with h³ ≤ d²."
fn depth_root(depth: u128) -> u128 {
    largest(3, depth * depth)
}

/// "s: the largest with s² ≤ 100·VM / D (rounded down)."
fn slope_root(drop: u128, side: u128) -> u128 {
    largest(2, 100 * drop / side)
}

/// "Level = bed + depth."
fn level(meadow: &Meadow, square: usize) -> u128 {
    meadow.beds[square] as u128 + meadow.depths[square] as u128
}

/// #102: "the drop off the grid is the smaller of d and e·100·D".
fn drop_off(rules: &Rules, depth: u128) -> u128 {
    depth.min(rules.edge as u128 * 100 * rules.square_side as u128)
}

/// "The four sides' drops of one cell, V for north, east, south and west."
fn drops(meadow: &Meadow, rules: &Rules, square: usize) -> [u128; 4] {
    let mut drops = [0; 4];
    for side in 0..4 {
        drops[side] = match meadow.neighbour(square, side) {
            Some(next) if meadow.closed(next) => 0,
            Some(next) => level(meadow, square).saturating_sub(level(meadow, next)),
            None if meadow.marks[square] == EXIT => drop_off(rules, meadow.depths[square] as u128),
            None => 0,
        };
    }
    drops
}

/// "If d = 0 or no drop is positive, nothing leaves. Otherwise .." by the edition; an edition that there is not is refused by 5.
fn leaving(meadow: &Meadow, rules: &Rules, square: usize, lasted: u128) -> [u128; 4] {
    let drops = drops(meadow, rules, square);
    let greatest = *drops.iter().max().unwrap();
    if meadow.depths[square] == 0 || greatest == 0 {
        return [0; 4];
    }
    match rules.edition {
        2 => in_each_direction(meadow, rules, square, lasted, drops),
        edition => by_total(meadow, rules, square, lasted, drops, edition == 3),
    }
}

/// "Total: the smallest of d, m·T / VM, and Vmin + P. Through each side: total·V / T." #113's third edition is "document 01's rule without
/// the Vmin + P limit".
fn by_total(meadow: &Meadow, rules: &Rules, square: usize, lasted: u128, drops: [u128; 4], unlimited: bool) -> [u128; 4] {
    let greatest = *drops.iter().max().unwrap();
    let least = *drops.iter().filter(|drop| **drop > 0).min().unwrap();
    let whole = drops.iter().sum::<u128>() + least;
    let by_speed = (meadow.depths[square] as u128).min(most_through(meadow, rules, square, lasted, greatest) * whole / greatest);
    let total = if unlimited { by_speed } else { by_speed.min(least + meadow.lasts[square] as u128) };
    drops.map(|drop| total * drop / whole)
}

/// #113's second edition: "for each positive drop, s from that drop, speed as now, amount the smaller of d and v·Δt·d over the same
/// divisor. If the four sum to more than d, each becomes amount·d / sum, rounded down."
fn in_each_direction(meadow: &Meadow, rules: &Rules, square: usize, lasted: u128, drops: [u128; 4]) -> [u128; 4] {
    let depth = meadow.depths[square] as u128;
    let amounts = drops.map(|drop| if drop == 0 { 0 } else { depth.min(most_through(meadow, rules, square, lasted, drop)) });
    let sum = amounts.iter().sum::<u128>();
    if sum > depth {
        amounts.map(|amount| amount * depth / sum)
    } else {
        amounts
    }
}

/// "Most through the steepest side: m = v·Δt·d / (D·1,000,000)", by #105 over D·10^9; #113 asks the same of every drop.
fn most_through(meadow: &Meadow, rules: &Rules, square: usize, lasted: u128, drop: u128) -> u128 {
    let (side, depth) = (rules.square_side as u128, meadow.depths[square] as u128);
    speed_of(depth, drop, side, meadow.roughness[square] as u128) * lasted * depth / (side * 1_000_000_000)
}

/// #105, in µm/s: "the largest c with c² ≤ 9,810,000·d, and 100·h·s / k"; the smaller of the two.
fn speed_of(depth: u128, drop: u128, side: u128, roughness: u128) -> u128 {
    let critical = largest(2, 9_810_000 * depth);
    let manning = 100 * depth_root(depth) * slope_root(drop, side) / roughness;
    critical.min(manning)
}

/// "Rain by clock t: sum of rate·time run, / 3,600,000, on every square not closed."
fn rain_by(rain: &[u32], clock: u128) -> u128 {
    let sum: u128 = rain.chunks(3).map(|row| row[2] as u128 * time_run(row[0], row[1], clock)).sum();
    sum / 3_600_000
}

/// "Inflow by t on a square: sum of litres·time run, / D²."
fn inflow_by(meadow: &Meadow, square: usize, side: u128, clock: u128) -> u128 {
    let here = |row: &&[u32]| row[0] as usize == square / meadow.columns && row[1] as usize == square % meadow.columns;
    let sum: u128 = meadow.inflow.chunks(5).filter(here).map(|row| row[4] as u128 * time_run(row[2], row[3], clock)).sum();
    sum / (side * side)
}

/// #106: "By clock t, rate·t / 3,600,000 is due".
fn soak_by(rate: u32, clock: u128) -> u128 {
    rate as u128 * clock / 3_600_000
}

/// "For each square not closed with d > 0 and each side with V > q·100·D .. the candidate is 50,000·D²·k·s / (d·h). The least, held
/// between shortest and longest; longest if there is none."
fn length_afresh(meadow: &Meadow, rules: &Rules) -> u64 {
    let side = rules.square_side as u128;
    let mut least = None;
    for square in 0..meadow.squares() {
        let depth = meadow.depths[square] as u128;
        if meadow.closed(square) || depth == 0 {
            continue;
        }
        for drop in drops(meadow, rules, square) {
            if drop > rules.tolerance as u128 * 100 * side {
                let above = 50_000 * side * side * meadow.roughness[square] as u128 * slope_root(drop, side);
                let candidate = above / (depth * depth_root(depth));
                least = Some(candidate.min(least.unwrap_or(candidate)));
            }
        }
    }
    match least {
        Some(candidate) => candidate.max(rules.shortest as u128).min(rules.longest as u128) as u64,
        None => rules.longest,
    }
}

/// One step, with every check of the refusal table.
pub fn step(meadow: &mut Meadow, rules: &Rules, run: &Run) -> Result<Run, u32> {
    check(meadow, rules, run, None)?;
    step_on(meadow, rules, run)
}

/// One step of what checks 1 to 6 have passed.
fn step_on(meadow: &mut Meadow, rules: &Rules, run: &Run) -> Result<Run, u32> {
    let side = rules.square_side as u128;
    // "when the clock is a multiple of U it is worked afresh"; "the run holds it until the next such clock"
    let length = if run.clock % rules.update == 0 { length_afresh(meadow, rules) } else { run.length };
    // "The step lasts the smaller of that length and the time to the next multiple of U."
    let lasted = length.min(rules.update - run.clock % rules.update);
    let clock = run.clock + lasted;
    refuse(7, clock as u128 > MOST_CLOCK)?;

    let squares = meadow.squares();
    let mut sent = vec![[0u128; 4]; squares];
    let mut added = vec![0u128; squares];
    let mut soaked = vec![0u128; squares];
    // "What a step adds is the amount by its end less the amount by its start."
    let (end, start) = (clock as u128, run.clock as u128);
    let rained = rain_by(&meadow.rain, end) - rain_by(&meadow.rain, start);
    for square in 0..squares {
        if !meadow.closed(square) {
            sent[square] = leaving(meadow, rules, square, lasted as u128);
            added[square] = rained + inflow_by(meadow, square, side, end) - inflow_by(meadow, square, side, start);
            // #106: "a step's due is the difference between its end and start. It takes the smaller of that due and the depth left after the
            // four sides have taken theirs, before anything arrives"
            let due = soak_by(meadow.rates[square], end) - soak_by(meadow.rates[square], start);
            soaked[square] = due.min(meadow.depths[square] as u128 - sent[square].iter().sum::<u128>());
        }
    }

    // "New depth = old − four leaving + what neighbours send + what is added. Water leaving the grid joins the outflow total."
    let mut depths = vec![0u128; squares];
    let mut outflow = run.outflow as u128;
    for square in 0..squares {
        if meadow.closed(square) {
            continue;
        }
        let mut depth = meadow.depths[square] as u128 - sent[square].iter().sum::<u128>() - soaked[square] + added[square];
        for side in 0..4 {
            match meadow.neighbour(square, side) {
                Some(next) => depth += sent[next][opposite(side)],
                None => outflow += sent[square][side],
            }
        }
        depths[square] = depth;
    }
    refuse(8, depths.iter().any(|depth| *depth > MOST_DEPTH))?;
    refuse(9, outflow > MOST_OUTFLOW)?;
    // #106: "the total soaked passing its limit is 15, after 9"
    let total_soaked = run.soaked as u128 + soaked.iter().sum::<u128>();
    refuse(15, total_soaked > MOST_SOAKED)?;

    // "A step writes the slot after the newest, slot 0 after the last, and kept rises by one up to K. Other slots stay."
    let newest = (run.newest + 1) % meadow.slots();
    let mut record = vec![run.length as u32, lasted as u32];
    for square in 0..squares {
        if meadow.closed(square) {
            record.extend([0; WORDS]);
        } else {
            record.extend(sent[square].map(|amount| amount as u32));
            record.extend([meadow.lasts[square], added[square] as u32, soaked[square] as u32]);
        }
    }
    let at = newest * record.len();
    meadow.records[at..at + record.len()].copy_from_slice(&record);
    for square in 0..squares {
        if !meadow.closed(square) {
            meadow.depths[square] = depths[square] as u32;
            // "P is then the sum of the four: what left during the step just made."
            meadow.lasts[square] = sent[square].iter().sum::<u128>() as u32;
        }
    }
    Ok(Run { clock, length, outflow: outflow as u64, kept: (run.kept + 1).min(meadow.slots()), newest, soaked: total_soaked as u64 })
}

/// "A run to an end makes steps while clock < end; clock ≥ end at the start gives 0 steps. If one of its steps is refused, it gives that
/// number with the steps made and leaves the state before that step."
pub fn run_to(meadow: &mut Meadow, rules: &Rules, run: &Run, end: u64) -> Result<Made, u32> {
    check(meadow, rules, run, Some(end))?;
    let mut made = Made { number: 0, steps: 0, run: *run };
    while made.run.clock < end {
        match step_on(meadow, rules, &made.run) {
            Ok(run) => made = Made { number: 0, steps: made.steps + 1, run },
            Err(number) => return Ok(Made { number, ..made }),
        }
    }
    Ok(made)
}

// ---------------------------------------------------------------- The record

/// "Depth before = depth + four leaving − what neighbours sent − amount added. .. Outflow falls by what squares not closed sent off the
/// grid. P, length, clock and outflow go back likewise; kept falls by one, newest moves back one slot; the record room is not written."
/// #106: "Take-back returns" what soaked, to the depth and off the total.
pub fn take_back(meadow: &mut Meadow, run: &Run) -> Result<Run, u32> {
    let lengths = [meadow.marks.len(), meadow.depths.len(), meadow.lasts.len()];
    refuse(1, shape_wrong(meadow) || lengths_wrong(meadow, &lengths))?;
    refuse(2, marks_wrong(meadow))?;
    refuse(3, depths_wrong(meadow, &meadow.depths) || depths_wrong(meadow, &meadow.lasts))?;
    refuse(6, run_wrong(meadow, run))?;
    refuse(10, run.kept == 0)?;
    refuse(11, times_wrong(meadow, run))?;
    let (length, lasted) = times(meadow, run);
    refuse(11, lasted > run.clock)?;

    let squares = meadow.squares();
    let (mut depths, mut lasts) = (meadow.depths.clone(), meadow.lasts.clone());
    let (mut sent_off, mut soaked) = (0u128, 0u128);
    for square in 0..squares {
        if meadow.closed(square) {
            continue;
        }
        let mut back = meadow.depths[square] as u128 + meadow.recorded(run, square, SOAKED);
        soaked += meadow.recorded(run, square, SOAKED);
        let mut gone = meadow.recorded(run, square, ADDED);
        for side in 0..4 {
            let left = meadow.recorded(run, square, side);
            back += left;
            gone += meadow.sent_here(run, square, side);
            if meadow.neighbour(square, side).is_none() {
                sent_off += left;
            }
        }
        let last = meadow.recorded(run, square, LAST);
        refuse(11, last > MOST_DEPTH || gone > back || back - gone > MOST_DEPTH)?;
        depths[square] = (back - gone) as u32;
        lasts[square] = last as u32;
    }
    refuse(11, sent_off > run.outflow as u128)?;
    // #106: "a record that would take back more than the total is 11"
    refuse(11, soaked > run.soaked as u128)?;

    meadow.depths = depths;
    meadow.lasts = lasts;
    let slots = meadow.slots();
    let newest = (run.newest + slots - 1) % slots;
    let (outflow, soaked) = (run.outflow - sent_off as u64, run.soaked - soaked as u64);
    Ok(Run { clock: run.clock - lasted, length, outflow, kept: run.kept - 1, newest, soaked })
}

// ---------------------------------------------------------------- Flow arrows and wet rows

/// "The first that applies in this order is given: refusal, closed, dry, still, moving."
pub fn arrow(meadow: &Meadow, square_side: u64, run: &Run, row: usize, column: usize) -> Arrow {
    if let Err(number) = arrow_refusal(meadow, square_side, run, row, column) {
        return Arrow::Refused(number);
    }
    let square = row * meadow.columns + column;
    if meadow.closed(square) {
        return Arrow::Closed;
    }
    if meadow.depths[square] == 0 {
        return Arrow::Dry;
    }
    let nets = [NORTH, EAST, SOUTH, WEST].map(|side| net(meadow, run, square, side));
    if nets == [0; 4] {
        return Arrow::Still;
    }
    let speeds = [NORTH, EAST, SOUTH, WEST].map(|side| speed(meadow, square_side, run, square, side, nets[side]));
    // "The arrow is east speed less west speed, and north less south, each rounded once."
    Arrow::Moving { east: speeds[EAST] - speeds[WEST], north: speeds[NORTH] - speeds[SOUTH] }
}

fn arrow_refusal(meadow: &Meadow, square_side: u64, run: &Run, row: usize, column: usize) -> Result<(), u32> {
    let lengths = [meadow.marks.len(), meadow.depths.len()];
    refuse(1, shape_wrong(meadow) || side_wrong(square_side) || lengths_wrong(meadow, &lengths))?;
    refuse(1, row >= meadow.rows || column >= meadow.columns)?;
    refuse(2, marks_wrong(meadow))?;
    refuse(3, depths_wrong(meadow, &meadow.depths))?;
    refuse(6, run_wrong(meadow, run))?;
    refuse(10, run.kept == 0)?;
    refuse(11, times_wrong(meadow, run))
}

/// "Net through a side = own leaving − what the neighbour sent back; off the grid, own leaving; towards a closed square, 0."
fn net(meadow: &Meadow, run: &Run, square: usize, side: usize) -> i128 {
    match meadow.neighbour(square, side) {
        Some(next) if meadow.closed(next) => 0,
        _ => meadow.recorded(run, square, side) as i128 - meadow.sent_here(run, square, side) as i128,
    }
}

/// "0 if net is 0, else the quotient of 2000·|net|·D by (own depth + neighbour's depth)·lasted, rounded once, negated where net is
/// negative. Off the grid the neighbour's depth is taken as the own depth."
fn speed(meadow: &Meadow, square_side: u64, run: &Run, square: usize, side: usize, net: i128) -> f64 {
    if net == 0 {
        return 0.0;
    }
    let own = meadow.depths[square] as u128;
    let beside = meadow.neighbour(square, side).map_or(own, |next| meadow.depths[next] as u128);
    let above = 2000 * net.unsigned_abs() * square_side as u128;
    let below = (own + beside) * times(meadow, run).1 as u128;
    let quotient = above as f64 / below as f64;
    if net < 0 {
        -quotient
    } else {
        quotient
    }
}

/// "Bit c set exactly when the square in column c is not closed and at least a given depth deep"; gives the wet count, "the number of
/// ones over all rows".
pub fn wet_rows(meadow: &Meadow, wet_depth: u32, wet: &mut [u64]) -> Result<u64, u32> {
    let lengths = [meadow.marks.len(), meadow.depths.len()];
    refuse(1, shape_wrong(meadow) || lengths_wrong(meadow, &lengths) || wet.len() != meadow.rows)?;
    refuse(2, marks_wrong(meadow))?;
    refuse(3, depths_wrong(meadow, &meadow.depths))?;
    refuse(5, wet_depth as u128 > MOST_DEPTH)?;
    let mut count = 0;
    for row in 0..meadow.rows {
        wet[row] = 0;
        for column in 0..meadow.columns {
            let square = row * meadow.columns + column;
            if !meadow.closed(square) && meadow.depths[square] >= wet_depth {
                wet[row] |= 1 << column;
                count += 1;
            }
        }
    }
    Ok(count)
}

// ---------------------------------------------------------------- How many steps

/// #112: "the steps counted are at most (E − clock)/U times the least whole number not below U/shortest, and at least the same with
/// longest".
pub fn step_bounds(rules: &Rules, clock: u64, end: u64) -> Bounds {
    if let Err(number) = bounds_refusal(rules, clock, end) {
        return Bounds::Refused(number);
    }
    if clock % rules.update != 0 || clock > end {
        return Bounds::NotBounded;
    }
    let spans = ((end - clock) / rules.update) as u128;
    Bounds::Bounded { most: spans * not_below(rules.update, rules.shortest), least: spans * not_below(rules.update, rules.longest) }
}

/// "A call skips checks of what it is not lent."
fn bounds_refusal(rules: &Rules, clock: u64, end: u64) -> Result<(), u32> {
    refuse(1, side_wrong(rules.square_side))?;
    refuse(5, rules_wrong(rules) || end_wrong(rules, end))?;
    refuse(6, clock as u128 > MOST_CLOCK)
}

/// "The least whole number not below" a quotient.
fn not_below(time: u64, length: u64) -> u128 {
    (time / length + (time % length).min(1)) as u128
}

// ---------------------------------------------------------------- Numbers given back on refusal

/// "Tried in this order; the first that applies is given."
fn refuse(number: u32, applies: bool) -> Result<(), u32> {
    if applies {
        Err(number)
    } else {
        Ok(())
    }
}

/// Numbers 1 to 6 for a step, and for a run where there is an end.
pub fn check(meadow: &Meadow, rules: &Rules, run: &Run, end: Option<u64>) -> Result<(), u32> {
    let grounds = [meadow.marks.len(), meadow.beds.len(), meadow.roughness.len(), meadow.rates.len()];
    let waters = [meadow.depths.len(), meadow.lasts.len()];
    refuse(1, shape_wrong(meadow) || side_wrong(rules.square_side) || lengths_wrong(meadow, &grounds) || lengths_wrong(meadow, &waters))?;
    refuse(2, marks_wrong(meadow) || ground_wrong(meadow))?;
    refuse(3, depths_wrong(meadow, &meadow.depths) || depths_wrong(meadow, &meadow.lasts))?;
    refuse(4, rain_wrong(&meadow.rain) || inflow_wrong(meadow))?;
    refuse(5, rules_wrong(rules) || end.map_or(false, |end| end_wrong(rules, end)))?;
    refuse(6, run_wrong(meadow, run))
}

/// 1: "shape .. out of range".
fn shape_wrong(meadow: &Meadow) -> bool {
    !within(1, meadow.rows as u128, 64) || !within(1, meadow.columns as u128, 64)
}

/// 1: "D out of range".
fn side_wrong(square_side: u64) -> bool {
    !within(1, square_side as u128, MOST_SIDE)
}

/// 1: "a slice not one number a square"; asked only of a good shape.
fn lengths_wrong(meadow: &Meadow, lengths: &[usize]) -> bool {
    lengths.iter().any(|length| *length != meadow.squares())
}

/// 2: "mark above 2, exit off the rim".
fn marks_wrong(meadow: &Meadow) -> bool {
    (0..meadow.squares()).any(|square| {
        let on_rim = (0..4).any(|side| meadow.neighbour(square, side).is_none());
        meadow.marks[square] > EXIT || (meadow.marks[square] == EXIT && !on_rim)
    })
}

/// 2: "bed or roughness of a square not closed out of range"; #106: "a rate above 1,000,000 on a square not closed is 2 (a closed square's
/// is not looked at)".
fn ground_wrong(meadow: &Meadow) -> bool {
    (0..meadow.squares()).any(|square| {
        let bed = meadow.beds[square] as u128 > MOST_BED;
        let roughness = !within(1, meadow.roughness[square] as u128, MOST_ROUGHNESS);
        !meadow.closed(square) && (bed || roughness || meadow.rates[square] as u128 > MOST_SOAK_RATE)
    })
}

/// 3: "depth or P of a square not closed out of range".
fn depths_wrong(meadow: &Meadow, depths: &[u32]) -> bool {
    (0..meadow.squares()).any(|square| !meadow.closed(square) && depths[square] as u128 > MOST_DEPTH)
}

/// 4: "a value out of range, from > to", for the times of a row.
fn table_times_wrong(from: u32, to: u32) -> bool {
    from as u128 > MOST_CLOCK || to as u128 > MOST_CLOCK || from > to
}

/// 4: "table: odd length (3s, 5s), over 64 rows, a value out of range", for rain.
fn rain_wrong(rain: &[u32]) -> bool {
    rain.len() % 3 != 0
        || rain.len() / 3 > MOST_TABLE_ROWS
        || rain.chunks(3).any(|row| table_times_wrong(row[0], row[1]) || row[2] as u128 > MOST_RATE)
}

/// 4: the same for inflow, and "inflow on a closed or missing square".
fn inflow_wrong(meadow: &Meadow) -> bool {
    meadow.inflow.len() % 5 != 0
        || meadow.inflow.len() / 5 > MOST_TABLE_ROWS
        || meadow.inflow.chunks(5).any(|row| {
            let (at_row, at_column) = (row[0] as usize, row[1] as usize);
            let missing = at_row >= meadow.rows || at_column >= meadow.columns;
            missing
                || meadow.closed(at_row * meadow.columns + at_column)
                || table_times_wrong(row[2], row[3])
                || row[4] as u128 > MOST_LITRES
        })
}

/// 5: "q, step limits, U .. out of range"; #102: "e above 10,000"; #113: "another edition", 1 to 3 being those there are.
fn rules_wrong(rules: &Rules) -> bool {
    rules.tolerance as u128 > MOST_TOLERANCE
        || rules.shortest < 1
        || rules.shortest > rules.longest
        || rules.longest as u128 > MOST_LENGTH
        || !within(1, rules.update as u128, MOST_UPDATE)
        || rules.edge as u128 > MOST_EDGE
        || !within(1, rules.edition as u128, MOST_EDITION)
}

/// 5: "end not a multiple of U or out of range"; asked only of good rules.
fn end_wrong(rules: &Rules, end: u64) -> bool {
    end as u128 > MOST_CLOCK || rules.update == 0 || end % rules.update != 0
}

/// 6: "K = 0, or a run value out of range".
fn run_wrong(meadow: &Meadow, run: &Run) -> bool {
    meadow.slots() == 0
        || run.clock as u128 > MOST_CLOCK
        || !within(1, run.length as u128, MOST_LENGTH)
        || run.outflow as u128 > MOST_OUTFLOW
        || run.soaked as u128 > MOST_SOAKED
        || run.kept > meadow.slots()
        || run.newest >= meadow.slots()
}

/// "Length held before the step, how long the step lasted", of the newest record.
fn times(meadow: &Meadow, run: &Run) -> (u64, u64) {
    let at = run.newest * meadow.record_size();
    (meadow.records[at] as u64, meadow.records[at + 1] as u64)
}

/// 11: "newest record: length or lasted not 1 to 60,000".
fn times_wrong(meadow: &Meadow, run: &Run) -> bool {
    let (length, lasted) = times(meadow, run);
    !within(1, length as u128, MOST_LENGTH) || !within(1, lasted as u128, MOST_LENGTH)
}

// ---------------------------------------------------------------- The sheet and its program

/// "Numbers decimal without sign or needless leading zeros, at most 4,294,967,295."
pub fn number(field: &[u8]) -> Option<u32> {
    let digits = !field.is_empty() && field.len() <= 10 && field.iter().all(u8::is_ascii_digit);
    if !digits || (field[0] == b'0' && field.len() > 1) {
        return None;
    }
    let value = field.iter().fold(0u128, |value, digit| value * 10 + (digit - b'0') as u128);
    u32::try_from(value).ok()
}

/// "Fields parted by one tab": the word, and then as many numbers as are asked.
pub fn word_and_numbers(line: &[u8], word: &str, count: usize) -> Option<Vec<u32>> {
    let mut fields = line.split(|byte| *byte == b'\t');
    if fields.next() != Some(word.as_bytes()) {
        return None;
    }
    let numbers = fields.map(number).collect::<Option<Vec<u32>>>()?;
    if numbers.len() == count {
        Some(numbers)
    } else {
        None
    }
}

/// A square as its line gives it: the mark, and bed, roughness, depth and soak rate where it is not closed.
type Cell = (u8, Option<[u32; 4]>);

/// "`cell` .. row, column (from 0), mark `x`, `o` or `e`, bed, roughness, depth (an `x` line ends after its mark)"; #106: "gains the rate at
/// its end".
fn cell(line: &[u8], row: usize, column: usize) -> Option<Cell> {
    let fields: Vec<&[u8]> = line.split(|byte| *byte == b'\t').collect();
    if fields.len() < 4 || fields[0] != b"cell" {
        return None;
    }
    if number(fields[1])? as usize != row || number(fields[2])? as usize != column {
        return None;
    }
    match (fields[3], fields.len()) {
        (b"x", 4) => Some((CLOSED, None)),
        (b"o", 8) | (b"e", 8) => {
            let mark = if fields[3] == b"o" { OPEN } else { EXIT };
            Some((mark, Some([number(fields[4])?, number(fields[5])?, number(fields[6])?, number(fields[7])?])))
        }
        _ => None,
    }
}

/// The lines that are ended by a newline, and whether something is left that is not.
pub fn lines(text: &[u8]) -> (Vec<&[u8]>, bool) {
    let mut lines: Vec<&[u8]> = text.split(|byte| *byte == b'\n').collect();
    let rest = lines.pop().unwrap_or(b"");
    (lines, !rest.is_empty())
}

/// "For a sheet the order is: line 1 read, shape (1, also a lent room under one number a square, 192 for rain or 320 for inflow), the
/// other text, then 2 to 5. Each room is filled from its start; the rest of it stays." The rooms are those of a meadow.
pub fn read_sheet(text: &[u8], rooms: &mut Meadow) -> Result<Heading, Refusal> {
    let (lines, unended) = lines(text);
    // "Any other line, or a missing one, is 12 with its number from 1."
    let bad = |line: usize| Refusal { number: 12, line: line as u64 + 1 };
    let refused = |number: u32| Refusal { number, line: 0 };

    let grid = lines.first().and_then(|line| word_and_numbers(line, "grid", 3)).ok_or(bad(0))?;
    let mut read = Meadow { rows: grid[0] as usize, columns: grid[1] as usize, ..Meadow::default() };
    refuse(1, shape_wrong(&read) || side_wrong(grid[2] as u64)).map_err(refused)?;
    let squares = read.squares();
    let least = [rooms.marks.len(), rooms.beds.len(), rooms.roughness.len(), rooms.rates.len(), rooms.depths.len()];
    refuse(1, least.iter().any(|room| *room < squares)).map_err(refused)?;
    refuse(1, rooms.rain.len() < RAIN_ROOM || rooms.inflow.len() < INFLOW_ROOM).map_err(refused)?;

    // #102: "The sheet's `run` line gains e as its last field"; #113: "gains the edition, 1 to 3, as its last field".
    let run = lines.get(1).and_then(|line| word_and_numbers(line, "run", 7)).ok_or(bad(1))?;
    for square in 0..squares {
        let at = 2 + square;
        let (row, column) = (square / read.columns, square % read.columns);
        let (mark, held) = lines.get(at).and_then(|line| cell(line, row, column)).ok_or(bad(at))?;
        let [bed, roughness, depth, rate] = held.unwrap_or([0; 4]);
        read.marks.push(mark);
        read.beds.push(bed);
        read.roughness.push(roughness);
        read.rates.push(rate);
        read.depths.push(depth);
    }
    let mut at = 2 + squares;
    while let Some(row) = lines.get(at).and_then(|line| word_and_numbers(line, "rain", 3)) {
        read.rain.extend(row);
        at += 1;
    }
    while let Some(row) = lines.get(at).and_then(|line| word_and_numbers(line, "inflow", 5)) {
        read.inflow.extend(row);
        at += 1;
    }
    if at < lines.len() || unended {
        return Err(bad(at));
    }

    let rules = Rules {
        square_side: grid[2] as u64,
        tolerance: run[0] as u64,
        shortest: run[1] as u64,
        longest: run[2] as u64,
        update: run[3] as u64,
        edge: run[5] as u64,
        edition: run[6] as u64,
    };
    let end = run[4] as u64;
    refuse(2, marks_wrong(&read) || ground_wrong(&read)).map_err(refused)?;
    refuse(3, depths_wrong(&read, &read.depths)).map_err(refused)?;
    refuse(4, rain_wrong(&read.rain) || inflow_wrong(&read)).map_err(refused)?;
    refuse(5, rules_wrong(&rules) || end_wrong(&rules, end)).map_err(refused)?;

    for square in 0..squares {
        rooms.marks[square] = read.marks[square];
        // "The bed, roughness, depth .. of a closed square are neither checked nor written"; nor is its rate.
        if !read.closed(square) {
            rooms.beds[square] = read.beds[square];
            rooms.roughness[square] = read.roughness[square];
            rooms.rates[square] = read.rates[square];
            rooms.depths[square] = read.depths[square];
        }
    }
    rooms.rain[..read.rain.len()].copy_from_slice(&read.rain);
    rooms.inflow[..read.inflow.len()].copy_from_slice(&read.inflow);
    let (rain_rows, inflow_rows) = (read.rain.len() / 3, read.inflow.len() / 5);
    Ok(Heading { rows: read.rows, columns: read.columns, rules, end, rain_rows, inflow_rows })
}

/// The program `meadow`: a sheet's text in, what is printed out.
pub fn meadow(text: &[u8]) -> Vec<u8> {
    meadow_by(text, run_to)
}

/// The same with the run to the sheet's end made by another engine.
pub fn meadow_by(text: &[u8], run_to: impl Fn(&mut Meadow, &Rules, &Run, u64) -> Result<Made, u32>) -> Vec<u8> {
    match depths_at_end(text, run_to) {
        Ok((meadow, made)) => printed(&meadow, &made),
        Err(refusal) => refused_line(&refusal),
    }
}

pub fn refused_line(refusal: &Refusal) -> Vec<u8> {
    format!("refused\t{}\t{}\n", refusal.number, refusal.line).into_bytes()
}

/// A sheet read within `meadow`'s limits, with room for one record.
pub fn within_limits(text: &[u8]) -> Result<(Meadow, Heading), Refusal> {
    // "reads at most 65,536 bytes from standard input (more: 12, line 0) and gives 1 above 1,024 squares"
    read_within(text, MOST_TEXT, MOST_MEADOW_SQUARES)
}

/// A sheet of at most so many bytes and squares, with room for one record.
pub fn read_within(text: &[u8], most_text: usize, most_squares: usize) -> Result<(Meadow, Heading), Refusal> {
    if text.len() > most_text {
        return Err(Refusal { number: 12, line: 0 });
    }
    let room = || vec![0u32; most_squares];
    let mut meadow = Meadow {
        marks: vec![0; most_squares],
        beds: room(),
        roughness: room(),
        rates: room(),
        depths: room(),
        rain: vec![0; RAIN_ROOM],
        inflow: vec![0; INFLOW_ROOM],
        ..Meadow::default()
    };
    let heading = read_sheet(text, &mut meadow)?;
    meadow.rows = heading.rows;
    meadow.columns = heading.columns;
    let squares = meadow.squares();
    meadow.marks.truncate(squares);
    meadow.beds.truncate(squares);
    meadow.roughness.truncate(squares);
    meadow.rates.truncate(squares);
    meadow.depths.truncate(squares);
    meadow.rain.truncate(3 * heading.rain_rows);
    meadow.inflow.truncate(5 * heading.inflow_rows);
    meadow.lasts = vec![0; squares];
    // "Its record room holds one record."
    meadow.records = vec![0; meadow.record_size()];
    Ok((meadow, heading))
}

fn depths_at_end(text: &[u8], run_to: impl Fn(&mut Meadow, &Rules, &Run, u64) -> Result<Made, u32>) -> Result<(Meadow, Made), Refusal> {
    let (mut meadow, heading) = within_limits(text)?;
    let refused = |number: u32| Refusal { number, line: 0 };
    let run = fresh(&mut meadow, &heading.rules).map_err(refused)?;
    let made = run_to(&mut meadow, &heading.rules, &run, heading.end).map_err(refused)?;
    refuse(made.number, made.number != 0).map_err(refused)?;
    Ok((meadow, made))
}

/// "Output, whole: each square not closed with its depth, then outflow, steps made, clock"; #106: "prints `soak` and the total on a line
/// after `out`".
pub fn printed(meadow: &Meadow, made: &Made) -> Vec<u8> {
    let mut text = String::new();
    for square in 0..meadow.squares() {
        if !meadow.closed(square) {
            let (row, column) = (square / meadow.columns, square % meadow.columns);
            text += &format!("cell\t{}\t{}\t{}\n", row, column, meadow.depths[square]);
        }
    }
    text += &format!("out\t{}\nsoak\t{}\nsteps\t{}\nclock\t{}\n", made.run.outflow, made.run.soaked, made.steps, made.run.clock);
    text.into_bytes()
}
