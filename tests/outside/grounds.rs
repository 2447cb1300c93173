//! The benchmark's meadows, 64 by 64 squares: from dry to all wet, then some with a tenth wet in other ways, and rain.

use crate::chance::Chance;
use crate::reference::{Meadow, Rules, EXIT, OPEN, WORDS};

/// All steps last as long, and a run is of so many or a multiple: there the length is worked afresh.
pub const STEP_LASTS: u64 = 100;
pub const SPAN: u64 = 50;
pub const RULES: Rules =
    Rules { square_side: 10, tolerance: 100, shortest: STEP_LASTS, longest: STEP_LASTS, update: SPAN * STEP_LASTS, edge: 10_000, edition: 1 };

const SLOTS: usize = 4;

/// A meadow with its rules, and how many turns of how many steps each program makes on it.
pub struct Ground {
    pub name: &'static str,
    pub meadow: fn() -> Meadow,
    pub rules: Rules,
    pub turns: u64,
    pub steps: u64,
}

/// A ditch's edge slope, for the river's mouths.
const TO_A_DITCH: Rules = Rules { edge: 10, ..RULES };
/// The length could be long, and is looked for at each step; the update time alone holds it.
const AT_EVERY_STEP: Rules = Rules { update: STEP_LASTS, longest: 60_000, ..RULES };

/// Document 02's first: a tenth of it wet, ten thousand steps. Then other shares of wet squares, and other meadows.
pub const GROUNDS: [Ground; 11] = [
    Ground { name: "10 in 100", meadow: tenth_wet, rules: RULES, turns: 10, steps: 1_000 },
    Ground { name: "1 in 100", meadow: hundredth_wet, rules: RULES, turns: 3, steps: 1_000 },
    Ground { name: "50 in 100", meadow: half_wet, rules: RULES, turns: 3, steps: 200 },
    Ground { name: "100 in 100", meadow: all_wet, rules: RULES, turns: 3, steps: 200 },
    Ground { name: "dry", meadow: all_dry, rules: RULES, turns: 3, steps: 1_000 },
    Ground { name: "river", meadow: river, rules: TO_A_DITCH, turns: 3, steps: 500 },
    Ground { name: "pond with a hatch", meadow: pond_with_a_hatch, rules: RULES, turns: 3, steps: 500 },
    Ground { name: "channels without hatches", meadow: closed_channels, rules: RULES, turns: 3, steps: 500 },
    Ground { name: "pond at rest", meadow: pond_at_rest, rules: RULES, turns: 3, steps: 500 },
    Ground { name: "U at every step", meadow: tenth_wet, rules: AT_EVERY_STEP, turns: 3, steps: 500 },
    Ground { name: "rain on all", meadow: rain_on_all, rules: RULES, turns: 3, steps: 200 },
];

fn open_meadow(side: usize) -> Meadow {
    let squares = side * side;
    Meadow {
        rows: side,
        columns: side,
        marks: vec![OPEN; squares],
        beds: vec![0; squares],
        roughness: vec![350; squares],
        rates: vec![0; squares],
        rain: Vec::new(),
        inflow: Vec::new(),
        depths: vec![0; squares],
        lasts: vec![0; squares],
        records: vec![0; SLOTS * (2 + WORDS * squares)],
    }
}

/// Uneven dry ground of any size.
pub fn dry(side: usize) -> Meadow {
    let mut chance = Chance(2);
    let mut meadow = open_meadow(side);
    for bed in &mut meadow.beds {
        *bed = (20_000_000 + chance.below(300_000)) as u32;
    }
    meadow
}

fn all_dry() -> Meadow {
    dry(64)
}

/// Uneven ground under half a metre of water and more, with exits along the southern rim.
fn all_wet() -> Meadow {
    let mut chance = Chance(1);
    let mut meadow = open_meadow(64);
    for square in 0..meadow.squares() {
        meadow.beds[square] = (1_000_000 + chance.below(300_000)) as u32;
        meadow.depths[square] = (500_000 + chance.below(500_000)) as u32;
        meadow.roughness[square] = chance.between(200, 500) as u32;
        if square / 64 == 63 && square % 4 == 0 {
            meadow.marks[square] = EXIT;
        }
    }
    meadow
}

/// Cuts a channel ten metres deep into the ground, with water in it and a hatch at its head: the water moves all the time and cannot leave.
fn cut_channel(meadow: &mut Meadow, chance: &mut Chance, squares: impl Iterator<Item = (usize, usize)>) {
    for (part, (row, column)) in squares.enumerate() {
        let square = row * 64 + column;
        meadow.beds[square] = 10_000_000 - 20_000 * part as u32;
        meadow.depths[square] = (200_000 + chance.below(200_000)) as u32;
        if part == 0 {
            meadow.inflow.extend([row as u32, column as u32, 0, 604_800_000, 200]);
        }
    }
}

/// Dry ground with a channel of six or seven squares in some of its 64 blocks of eight by eight.
fn channels(in_block: impl Fn(usize) -> bool) -> Meadow {
    let mut meadow = all_dry();
    let mut chance = Chance(2);
    for block in (0..64).filter(|block| in_block(*block)) {
        let length = 6 + block % 2;
        let along_row = chance.below(2) == 0;
        let (across, start) = (1 + chance.below(6) as usize, chance.below(9 - length as u64) as usize);
        let places = (start..start + length).map(|along| if along_row { (across, along) } else { (along, across) });
        let squares: Vec<(usize, usize)> = places.map(|(down, right)| (block / 8 * 8 + down, block % 8 * 8 + right)).collect();
        cut_channel(&mut meadow, &mut chance, squares.into_iter());
    }
    meadow
}

fn tenth_wet() -> Meadow {
    channels(|_| true)
}

fn hundredth_wet() -> Meadow {
    channels(|block| block % 10 == 4)
}

/// Every second row is a channel.
fn half_wet() -> Meadow {
    let mut meadow = all_dry();
    let mut chance = Chance(3);
    for row in (0..64).step_by(2) {
        cut_channel(&mut meadow, &mut chance, (0..64).map(|column| (row, column)));
    }
    meadow
}

/// The channels of the tenth that is wet, with no hatch: their water comes to rest.
fn closed_channels() -> Meadow {
    let mut meadow = tenth_wet();
    meadow.inflow.clear();
    meadow
}

/// Six rivers from west to east in pairs, some 0.9 m deep with a fall of 1 in 1,000, a hatch at the head and an exit at the mouth of each.
fn river() -> Meadow {
    let mut meadow = all_dry();
    let mut chance = Chance(4);
    for row in [4, 5, 20, 21, 40, 41] {
        for column in 0..64 {
            let square = row * 64 + column;
            meadow.beds[square] = 10_000_000 - 10_000 * column as u32;
            meadow.depths[square] = (900_000 + chance.below(100_000)) as u32;
        }
        meadow.inflow.extend([row as u32, 0, 0, 604_800_000, 2_000]);
        meadow.marks[row * 64 + 63] = EXIT;
    }
    meadow
}

/// A pond of 20 by 20 squares, ten metres below the meadow, with beds and depths as they are given.
fn pond(mut square: impl FnMut() -> (u32, u32)) -> Meadow {
    let mut meadow = all_dry();
    for (row, column) in (22..42).flat_map(|row| (22..42).map(move |column| (row, column))) {
        let (bed, depth) = square();
        meadow.beds[row * 64 + column] = bed;
        meadow.depths[row * 64 + column] = depth;
    }
    meadow
}

/// On uneven ground, with a hatch in a corner.
fn pond_with_a_hatch() -> Meadow {
    let mut chance = Chance(5);
    let mut meadow = pond(|| ((10_000_000 + chance.below(300_000)) as u32, (500_000 + chance.below(200_000)) as u32));
    meadow.inflow.extend([22, 22, 0, 604_800_000, 200]);
    meadow
}

/// On level ground under half a metre: every square is looked at, and nothing moves.
fn pond_at_rest() -> Meadow {
    pond(|| (10_000_000, 500_000))
}

/// Uneven ground under half a centimetre of water and rain of 36 mm an hour, which is one micrometre a step.
fn rain_on_all() -> Meadow {
    let mut meadow = all_dry();
    meadow.depths.fill(5_000);
    meadow.rain.extend([0, 604_800_000, 36_000]);
    meadow
}
