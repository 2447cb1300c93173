//! The rivals' roots against whole-number roots found by halving: begun they lie round them, whole they are them. A wrong bound would decide
//! wrongly in few meadows; here it is seen at both ends of every piece of every table.

use crate::roots::{Begun, Bounded, Digits, Guesses, Roots};

/// The largest depth, and the largest slope: a drop of 1,100 m over one metre.
const MOST_DEPTH: u64 = 100_000_000;
const MOST_SLOPE: u64 = 110_000_000_000;

/// The largest number whose power is at most `of`.
fn largest(power: u32, of: u128) -> u64 {
    let (mut fits, mut above) = (0u128, 1 << 32);
    while fits + 1 < above {
        let middle = (fits + above) / 2;
        if middle.pow(power) <= of {
            fits = middle;
        } else {
            above = middle;
        }
    }
    fits as u64
}

/// Numbers from 1 up to `most` about those whose first bits are 8 to 15, where pieces begin and end, and the last.
fn numbers(most: u64) -> impl Iterator<Item = u64> {
    let starts = (0..40).flat_map(|shift| (8..16u64).map(move |leading| leading << shift >> 3));
    starts.flat_map(|start| [start - 1, start, start + 1]).chain([most]).filter(move |number| (1..=most).contains(number))
}

fn hold(name: &str, number: u64, begun: Begun, whole: u64, root: u64) {
    let around = begun.root <= root && root < begun.root + begun.place;
    assert!(around && whole == root, "{} of {}: begun {} and {} more, whole {}, and is {}", name, number, begun.root, begun.place, whole, root);
}

fn cases_of<R: Roots>(kind: &str) {
    for slope in numbers(MOST_SLOPE) {
        hold(&format!("{}, square root", kind), slope, R::begin_square(slope), R::square(slope), largest(2, slope as u128));
    }
    for depth in numbers(MOST_DEPTH) {
        hold(&format!("{}, height", kind), depth, R::begin_height(depth), R::height(depth), largest(3, depth as u128 * depth as u128));
    }
}

pub fn cases() {
    cases_of::<Digits>("digits");
    cases_of::<Bounded>("bounds");
    cases_of::<Guesses>("fast roots");
}
