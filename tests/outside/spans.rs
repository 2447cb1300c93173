//! How many steps a run makes (#112): the figures told before it, worked by hand and on random meadows, and the run's own count held to
//! them.

use crate::calls::{Call, Tally};
use crate::chance::Chance;
use crate::meadows::{self, Lent};
use crate::reference::OPEN;
use crate::worked::{flat, hold};

/// Both figures where there are any, and the steps that the run then made: no more than the most, and no fewer than the least unless it
/// was refused.
fn told_and_run(tally: &mut Tally, lent: &Lent) -> (Vec<u64>, u64) {
    let told = tally.call(Call::StepBounds, lent);
    let ran = tally.call(Call::RunTo, lent);
    let steps = ran.answer[0];
    // a run that its checks refuse tells no steps
    if told.number == 0 && !(1..=6).contains(&ran.number) {
        hold("the most steps of a run", steps <= told.answer[0]);
        hold("the least steps of a run", ran.number != 0 || told.answer[1] <= steps);
    }
    (told.answer, steps)
}

/// Neither length divides U, so that a span has 4 steps of the shortest and 2 of the longest.
fn uneven(depth: u32) -> Lent {
    let mut lent = flat(vec![OPEN; 2], vec![depth, 0]);
    lent.rules.shortest = 300;
    lent.rules.longest = 700;
    lent.run.length = 700;
    lent.end = 3_000;
    lent
}

/// A flood held at the shortest makes the most steps, a dry meadow the least.
pub fn cases(tally: &mut Tally) {
    let mut flood = uneven(1_000_000);
    flood.meadow.inflow = vec![0, 0, 0, 60_000, 2_000];
    hold("a flood held at the shortest", told_and_run(tally, &flood) == (vec![12, 6], 12));
    hold("a dry meadow", told_and_run(tally, &uneven(0)) == (vec![12, 6], 6));
    for (clock, end, number) in [(2_000, 2_000, 0), (2_000, 1_000, 104), (1_999, 3_000, 104), (604_800_001, 3_000, 6), (0, 1_500, 5)] {
        let mut lent = uneven(0);
        lent.run.clock = clock;
        lent.end = end;
        hold("where figures hold", tally.call(Call::StepBounds, &lent).number == number);
    }
}

/// Any number of 64 bits, small ones as often as large ones.
fn any_size(chance: &mut Chance) -> u64 {
    chance.word() >> chance.below(64)
}

/// Runs from a multiple of U, and figures asked at clocks and ends beside.
pub fn counted_runs(tally: &mut Tally, chance: &mut Chance) {
    for _ in 0..8 {
        let shape = meadows::small_shape(chance);
        let mut lent = meadows::lent(chance, shape);
        let update = lent.rules.update;
        lent.run.clock -= lent.run.clock % update;
        lent.end = meadows::end(chance, &lent.run, &lent.rules);
        told_and_run(tally, &lent);
        let there = lent.run.clock;
        for clock in [there + 1, there + update, there.saturating_sub(1), any_size(chance)] {
            lent.run.clock = clock;
            tally.call(Call::StepBounds, &lent);
        }
        lent.run.clock = there;
        for end in [lent.end + 1, lent.end.saturating_sub(update), any_size(chance)] {
            lent.end = end;
            tally.call(Call::StepBounds, &lent);
        }
    }
}
