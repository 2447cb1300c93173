//! The benchmark: the static library and the Rust engines, each built alone, on the same meadows. They take turns, so that a change of the
//! machine's pace meets all of them, and times are of the processor and not of the clock on the wall. What they leave is compared, and a
//! difference ends the program. It prints figures by lines of fields, for tools/speed.py; tests/outside/placed.rs makes it a program, which
//! bin/speed links at several places and lets run. Words: `check`; `time`; `time short`, a single turn; `engines`,
//! each with each meadow; or `count`, a meadow, an engine and steps.

// the benchmark uses a part of what the comparison does
#[allow(dead_code)]
mod chance;
mod grounds;
// only the type of an engine
#[allow(dead_code)]
mod lent;
#[allow(dead_code)]
mod library;
#[allow(dead_code)]
mod meadows;
#[allow(dead_code)]
mod reference;

use chance::Chance;
use flood::declared::{self, RULES_NUMBERS, RUN_NUMBERS};
use grounds::{Ground, GROUNDS, RULES, SPAN, STEP_LASTS};
use lent::RunTo;
use reference::{Meadow, Rules, CLOSED, WORDS};

extern "C" {
    fn clock_gettime(clock: i32, seconds_and_nanoseconds: *mut [i64; 2]) -> i32;
}

/// One step, with the parameters of `flood_step`.
type Step = fn(usize, usize, &[u64], &[u8], &[u32], &[u32], &[u32], &[u32], &[u32], &mut [u32], &mut [u32], &mut [u32], &mut [u64]) -> u32;

fn engines() -> [(&'static str, RunTo); 5] {
    [
        ("library", declared::flood_run_to),
        ("wet walk", declared::flood_run_to_wet),
        ("rival", engine_rival::RUN_TO),
        ("rival, bounds", engine_rival_bounds::RUN_TO),
        ("rival, fast roots", engine_rival_fast::RUN_TO),
    ]
}

/// The engines of the library that also make a single step.
const STEPS: [(&str, Step, RunTo); 2] =
    [("library", declared::flood_step, declared::flood_run_to), ("wet walk", declared::flood_step_wet, declared::flood_run_to_wet)];

// ---------------------------------------------------------------- a run under way

#[derive(Clone, PartialEq)]
struct Course {
    meadow: Meadow,
    rules: [u64; RULES_NUMBERS],
    run: [u64; RUN_NUMBERS],
}

impl Course {
    /// A fresh run.
    fn new(meadow: Meadow, rules: &Rules) -> Course {
        let mut course = Course { meadow, rules: library::rules_numbers(rules), run: [0; RUN_NUMBERS] };
        let number = library::fresh(&mut course.meadow, &course.rules, &mut course.run);
        assert!(number == 0, "a fresh run is refused by {}", number);
        course
    }

    /// Goes on to an end; gives the number and the steps.
    fn go_on(&mut self, run_to: RunTo, end: u64) -> (u32, u64) {
        let mut steps = [0];
        let number = library::run_to_by(run_to, &mut self.meadow, &self.rules, end, &mut self.run, &mut steps);
        (number, steps[0])
    }

    /// Makes steps by one run, and gives the nanoseconds of a step.
    fn run(&mut self, run_to: RunTo, steps: u64) -> f64 {
        let start = processor_time();
        let answer = self.go_on(run_to, self.run[0] + steps * STEP_LASTS);
        let time = processor_time() - start;
        assert!(answer == (0, steps), "a run of {} steps ends with {:?}", steps, answer);
        time / steps as f64
    }

    /// Makes steps by as many calls, and gives the nanoseconds of a call.
    fn step(&mut self, step: Step, steps: u64) -> f64 {
        let start = processor_time();
        for _ in 0..steps {
            let meadow = &mut self.meadow;
            let number = step(
                meadow.rows, meadow.columns, &self.rules,
                &meadow.marks, &meadow.beds, &meadow.roughness, &meadow.rates, &meadow.rain, &meadow.inflow,
                &mut meadow.depths, &mut meadow.lasts, &mut meadow.records, &mut self.run,
            );
            assert!(number == 0, "a step is refused by {}", number);
        }
        (processor_time() - start) / steps as f64
    }

    fn share(&self, counted: impl Fn(usize) -> bool) -> f64 {
        let squares = self.meadow.squares();
        100.0 * (0..squares).filter(|square| self.meadow.marks[*square] != CLOSED && counted(*square)).count() as f64 / squares as f64
    }

    fn share_wet(&self) -> f64 {
        self.share(|square| self.meadow.depths[square] > 0)
    }

    /// Of the squares, those that sent water in the newest step.
    fn share_sent(&self) -> f64 {
        let newest = self.run[4] as usize * self.meadow.record_size() + 2;
        self.share(|square| self.meadow.records[newest + WORDS * square..][..4] != [0; 4])
    }
}

/// The processor's time that this program has had so far, in nanoseconds; the standard library gives only the time on the wall.
fn processor_time() -> f64 {
    const OF_THIS_PROCESS: i32 = 2;
    let mut time = [0; 2];
    let failed = unsafe { clock_gettime(OF_THIS_PROCESS, &mut time) };
    assert!(failed == 0, "no processor time");
    time[0] as f64 * 1e9 + time[1] as f64
}

// ---------------------------------------------------------------- check

/// A random meadow by the reference and by an engine.
fn hold_to_reference(round: u64, name: &str, run_to: RunTo) {
    let mut chance = Chance(round);
    let mut side = || chance.between(1, 64) as usize;
    let shape = if round % 4 == 0 { (side(), side()) } else { meadows::small_shape(&mut chance) };
    let lent = meadows::lent(&mut chance, shape);
    let mut course = Course { meadow: lent.meadow.clone(), rules: library::rules_numbers(&lent.rules), run: library::run_numbers(&lent.run) };
    let (number, steps) = course.go_on(run_to, lent.end);
    let mut meadow = lent.meadow.clone();
    let made = reference::run_to(&mut meadow, &lent.rules, &lent.run, lent.end).expect("a meadow that every check passes");
    let same = (made.number, made.steps, library::run_numbers(&made.run)) == (number, steps, course.run) && meadow == course.meadow;
    assert!(same, "random meadow {}: {} leaves other numbers than the reference", round, name);
}

fn check(rounds: u64) {
    for (name, run_to) in engines() {
        for round in 0..rounds {
            hold_to_reference(round, name, run_to);
        }
        println!("agree\t{}\t{}", name, rounds);
    }
}

// ---------------------------------------------------------------- time

/// Lets the engines take turns on one meadow, after a few steps that are not counted.
fn take_turns(ground: &Ground, turns: u64, steps: u64) {
    let start = Course::new((ground.meadow)(), &ground.rules);
    let mut courses = vec![start.clone(); engines().len()];
    for turn in 0..turns + 1 {
        for ((name, run_to), course) in engines().iter().zip(&mut courses) {
            let time = course.run(*run_to, if turn == 0 { SPAN } else { steps });
            if turn > 0 {
                println!("time\t{}\t{}\t{:.1}", ground.name, name, time);
            }
        }
    }
    let first = &courses[0];
    for (course, (name, _)) in courses.iter().zip(engines()) {
        assert!(course == first, "{}: {} leaves other numbers than the library", ground.name, name);
    }
    println!("state\t{}\t{}\t{:.1}\t{:.1}\t{:.1}", ground.name, turns * steps, start.share_wet(), first.share_wet(), first.share_sent());
}

/// Single steps against steps of a run, on grids of several sizes.
fn time_calls(calls: u64) {
    for side in [8, 16, 32, 64] {
        let start = Course::new(grounds::dry(side), &RULES);
        for (name, step, run_to) in STEPS {
            let (mut single, mut run) = (start.clone(), start.clone());
            single.step(step, SPAN);
            run.run(run_to, SPAN);
            println!("call\t{} by {}\t{}\t{:.1}\t{:.1}", side, side, name, single.step(step, calls), run.run(run_to, calls));
            assert!(single == run, "{}: single steps leave other numbers than a run", name);
        }
    }
}

fn time(short: bool, padding: usize) {
    for (name, run_to) in engines() {
        assert!(padding < run_to as usize, "the code of {} is not moved", name);
        println!("place\t{}\t{}", name, run_to as usize % 4096);
    }
    for ground in GROUNDS {
        take_turns(&ground, if short { 1 } else { ground.turns }, ground.steps);
    }
    time_calls(if short { SPAN } else { 4 * SPAN });
}

// ---------------------------------------------------------------- count

fn list() {
    for ground in GROUNDS {
        for (name, _) in engines() {
            println!("{}\t{}", ground.name, name);
        }
    }
}

/// One engine on one meadow, so that its instructions can be counted from outside; the first thousand steps are made by the fastest.
fn count(ground: &str, engine: &str, steps: u64) {
    let ground = GROUNDS.iter().find(|each| each.name == ground).expect("a meadow");
    let (_, run_to) = engines().into_iter().find(|each| each.0 == engine).expect("an engine");
    let mut course = Course::new((ground.meadow)(), &ground.rules);
    course.run(engine_rival_fast::RUN_TO, 1_000);
    course.run(run_to, steps);
}

/// `padding` is the address of the room before the code.
pub fn main(padding: usize) {
    let words: Vec<String> = std::env::args().skip(1).collect();
    let words: Vec<&str> = words.iter().map(String::as_str).collect();
    match words[..] {
        ["check"] => check(300),
        ["time"] => time(false, padding),
        ["time", "short"] => time(true, padding),
        ["engines"] => list(),
        ["count", ground, engine, steps] => count(ground, engine, steps.parse().expect("a number")),
        _ => {
            eprintln!("usage: speed check | time [short] | engines | count MEADOW ENGINE STEPS");
            std::process::exit(2);
        }
    }
}
