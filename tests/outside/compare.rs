//! The comparison: the static library against document 01 on random, forged and damaged inputs. Every round has a seed of its own, so
//! that one can be repeated alone. Words: --seed N, --rounds N, --from N (the first round), --seconds N (rounds for that long),
//! --long, --endless (the long run that `meadow` refuses with 9, which --long makes too); all others are sheets, with what `meadow` prints
//! of them stored beside them.

mod board_rounds;
mod calls;
mod chance;
mod forged;
mod lent;
mod library;
mod limits;
mod meadows;
mod reference;
mod rival;
mod root_cases;
mod roots;
mod sheets;
mod spans;
mod steps;
mod texts;
#[allow(dead_code)]
mod watching;
mod worked;

use calls::{Call, Tally, Text, ANSWERS};
use chance::Chance;
use flood::declared::OUT_ROOM;
use library::Walk;
use std::time::{Duration, Instant};

const ROUNDS: u64 = 660;
const LONG_ROUNDS: u64 = 10 * ROUNDS;

type Kind = fn(&mut Tally, &mut Chance);

/// The kinds of rounds, in turn.
const KINDS: [(&str, Kind); 22] = [
    ("series of steps and take-backs", steps::series),
    ("one value at or past a limit", limits::one_value),
    ("two values at or past a limit", limits::two_values),
    ("depth, outflow, clock at the brim", steps::brim),
    ("forged runs and records", forged::forged),
    ("deep and steep", steps::deep_and_steep),
    ("Manning's speed at the critical one", steps::at_critical),
    ("the most through a side just whole", steps::at_whole_amounts),
    ("amounts by each side that come to the depth", steps::at_sums),
    ("exits at the edge slope's drop", steps::at_edges),
    ("exact brims of 7, 8, 9, 15", steps::exact_brims),
    ("exact roundings of rain and inflow", steps::exact_roundings),
    ("soaking at its roundings and at what the sides leave", steps::soakings),
    ("shapes", steps::shapes),
    ("one square with water, at each column", steps::wet_columns),
    ("water in few squares, in all or in none", steps::waterings),
    ("figures before a run", spans::counted_runs),
    ("boards over a run", board_rounds::watched_runs),
    ("wet rows", steps::wet_rows),
    ("sheets", texts::good_sheets),
    ("sheets with a value at or past a limit", texts::sheets_at_limits),
    ("damaged sheets", texts::damaged_sheets),
];

struct Words {
    seed: u64,
    from: u64,
    rounds: u64,
    seconds: Option<u64>,
    endless: bool,
    sheets: Vec<String>,
}

fn words() -> Words {
    let mut words = Words { seed: 1, from: 0, rounds: ROUNDS, seconds: None, endless: false, sheets: Vec::new() };
    let mut rest = std::env::args().skip(1);
    while let Some(word) = rest.next() {
        let mut number = || rest.next().and_then(|number| number.parse().ok()).unwrap_or_else(|| usage());
        match word.as_str() {
            "--seed" => words.seed = number(),
            "--from" => words.from = number(),
            "--rounds" => words.rounds = number(),
            "--seconds" => words.seconds = Some(number()),
            "--long" => (words.rounds, words.endless) = (LONG_ROUNDS, true),
            "--endless" => words.endless = true,
            _ if word.starts_with('-') => usage(),
            _ => words.sheets.push(word),
        }
    }
    words
}

fn usage() -> ! {
    eprintln!("usage: compare [--seed N] [--from N] [--rounds N] [--seconds N] [--long] [--endless] [SHEET..]");
    std::process::exit(2);
}

fn make_rounds(tally: &mut Tally, words: &Words) -> u64 {
    let start = Instant::now();
    let mut made = 0;
    loop {
        let over = match words.seconds {
            Some(seconds) => start.elapsed() >= Duration::from_secs(seconds),
            None => made >= words.rounds,
        };
        if over {
            return made;
        }
        tally.round = words.from + made;
        let (name, kind) = KINDS[tally.round as usize % KINDS.len()];
        tally.kind = name;
        let mut chance = Chance(words.seed.wrapping_mul(0x9e37_79b9) ^ tally.round.wrapping_mul(0xd1b5_4a32_d192_ed03));
        kind(tally, &mut chance);
        made += 1;
    }
}

/// Each call by each of its walks, with what it can answer.
fn by_each_walk() -> impl Iterator<Item = (Call, Walk, &'static [u32])> {
    ANSWERS.into_iter().flat_map(|(call, answers)| call.walks().iter().map(move |walk| (call, *walk, answers)))
}

fn named(call: Call, walk: Walk) -> String {
    let by = if walk == Walk::Wet { " wet" } else { "" };
    format!("{:?}{}", call, by)
}

fn print_counts(tally: &Tally) {
    println!("outside: calls by kind");
    for (kind, count) in &tally.by_kind {
        println!("  {:>8}  {}", count, kind);
    }
    println!("outside: calls by answer (0 done, 1 to 13 and 15 refused; an arrow: 0 moving, 101 closed, 102 dry, 103 still; 104 no figures hold)");
    for (call, walk, answers) in by_each_walk() {
        let seen = |answer: &u32| tally.by_answer.get(&(call, walk, *answer)).unwrap_or(&0);
        let counts: Vec<String> = answers.iter().map(|answer| format!("{}: {}", answer, seen(answer))).collect();
        println!("  {:<11} {}", named(call, walk), counts.join(", "));
    }
    println!("outside: damaged sheets by damage and what the reader answers");
    for name in sheets::DAMAGES.iter().map(|(name, _)| *name).chain([texts::TWO_DAMAGES]) {
        let here = tally.by_damage.iter().filter(|((damage, _), _)| *damage == name);
        let counts: Vec<String> = here.map(|((_, number), count)| format!("{}: {}", number, count)).collect();
        println!("  {:<22} {}", name, counts.join(", "));
    }
}

/// An answer that a call can give and that no input of this run had is a hole in the comparison. `meadow` gives 9 only after a run of
/// some 156,000 steps, so that one is asked only where this run is made.
fn answers_missing(tally: &Tally, endless: bool) -> bool {
    let mut missing = false;
    for (call, walk, answers) in by_each_walk() {
        for answer in answers {
            let asked = endless || (call, *answer) != (Call::Meadow, 9);
            if asked && !tally.by_answer.contains_key(&(call, walk, *answer)) {
                println!("outside: no input was answered {} by {}", answer, named(call, walk));
                missing = true;
            }
        }
    }
    missing
}

fn main() {
    let words = words();
    root_cases::cases();
    let mut tally = Tally { seed: words.seed, ..Tally::default() };
    tally.kind = "worked by hand";
    worked::cases(&mut tally);
    spans::cases(&mut tally);
    board_rounds::cases(&mut tally);
    tally.kind = "stored sheets";
    for path in &words.sheets {
        texts::stored_sheet(&mut tally, path);
    }
    if words.endless {
        tally.kind = "endless sheet";
        tally.meadow(&Text(sheets::endless()), OUT_ROOM);
    }
    let rounds = make_rounds(&mut tally, &words);
    print_counts(&tally);
    if !words.endless {
        println!("outside: the run that meadow refuses with 9 is left out: it takes some 156,000 steps; --endless makes it");
    }
    // a few rounds alone, as when one is repeated, need not have every answer
    if rounds >= KINDS.len() as u64 && answers_missing(&tally, words.endless) {
        std::process::exit(1);
    }
    let calls: u64 = tally.by_answer.values().sum();
    println!("outside: seed {}, {} rounds, {} calls compared, no difference", words.seed, rounds, calls);
}
