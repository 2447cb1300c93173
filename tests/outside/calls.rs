//! One call made by the reference and by the library on the same input, a step and a run by each of the library's walks, and everything
//! compared afterwards: the answer, every number lent, the run. The first difference is printed with its input and ends the program.

use flood::declared::{self, BOUNDS_NUMBERS, COUNT_NUMBERS, HEADING_NUMBERS, LINE_NUMBERS, OUT_ROOM, RULES_NUMBERS, RUN_NUMBERS, SPEED_NUMBERS, STEPS_NUMBERS};
use flood::declared_boards::Board;
use crate::lent;
use crate::library::{self, Walk};
use crate::meadows::{Lent, Sizes};
use crate::reference::{self, Arrow, Bounds, Heading, Made, Meadow, Run};
use crate::rival::Rival;
use crate::roots::{Bounded, Digits, Guesses};
use crate::watching::{self, Asked, Shown};
use std::collections::BTreeMap;
use std::fmt;

#[derive(Clone, Copy, PartialEq, Eq, PartialOrd, Ord, Debug)]
pub enum Call {
    Fresh,
    Step,
    RunTo,
    RunToBoards,
    TakeBack,
    StepBounds,
    Arrow,
    WetRows,
    ReadSheet,
    Meadow,
}

use Call::*;

impl Call {
    /// The walks by which the library makes the call, each on every input; a call without that choice stands under the first.
    pub fn walks(self) -> &'static [Walk] {
        match self {
            Step | RunTo => &[Walk::All, Walk::Wet],
            _ => &[Walk::All],
        }
    }
}

/// The calls on a meadow.
pub const ON_MEADOW: [Call; 8] = [Fresh, Step, RunTo, RunToBoards, TakeBack, StepBounds, Call::Arrow, WetRows];

/// What each call can answer, by each of its walks: 0, a refusal, for an arrow 101 closed, 102 dry, 103 still, and 104 where figures do
/// not hold. A run can never give 7: its end is in range and no step passes a multiple of the update time. `meadow` can never give 15: in a
/// week less soaks into all its squares.
pub const ANSWERS: [(Call, &[u32]); 10] = [
    (Fresh, &[0, 1, 2, 5, 6]),
    (Step, &[0, 1, 2, 3, 4, 5, 6, 7, 8, 9, 15]),
    (RunTo, &[0, 1, 2, 3, 4, 5, 6, 8, 9, 15]),
    (RunToBoards, &[0, 1, 2, 3, 4, 5, 6, 8, 9, 13, 15]),
    (TakeBack, &[0, 1, 2, 3, 6, 10, 11]),
    (StepBounds, &[0, 1, 5, 6, 104]),
    (Call::Arrow, &[0, 1, 2, 3, 6, 10, 11, 101, 102, 103]),
    (WetRows, &[0, 1, 2, 3, 5]),
    (ReadSheet, &[0, 1, 2, 3, 4, 5, 12]),
    (Call::Meadow, &[0, 1, 2, 3, 4, 5, 8, 9, 12]),
];

/// The benchmark's Rust engines.
const ENGINES: [(&str, lent::RunTo); 3] = [
    ("the rival (digits)", lent::run_to::<Rival<Digits>>),
    ("the rival (bounds)", lent::run_to::<Rival<Bounded>>),
    ("the rival (fast roots)", lent::run_to::<Rival<Guesses>>),
];

/// What a slice for an answer holds before the call, so that a number not written is seen.
const JUNK: u64 = 0xa5a5_a5a5_a5a5_a5a5;

/// Bytes shown as a Rust literal.
#[derive(Clone, PartialEq)]
pub struct Text(pub Vec<u8>);

impl fmt::Debug for Text {
    fn fmt(&self, out: &mut fmt::Formatter) -> fmt::Result {
        let shown: String = self.0.iter().flat_map(|byte| std::ascii::escape_default(*byte)).map(char::from).collect();
        write!(out, "Text(b\"{}\".to_vec())", shown.replace('[', "\\x5b"))
    }
}

/// A sheet's text with the rooms lent for it; the two sizes are added to those that `heading` and `line` must have.
#[derive(Clone, Debug, PartialEq)]
pub struct LentSheet {
    pub text: Text,
    pub rooms: Meadow,
    pub heading: i64,
    pub line: i64,
}

/// Everything that a call can have changed, and its number. `answer` is what it gives besides a run: steps, speeds, a count, a heading.
#[derive(Clone, Debug, PartialEq)]
pub struct After {
    pub number: u32,
    pub meadow: Meadow,
    pub run: Vec<u64>,
    pub answer: Vec<u64>,
    pub more: Vec<u64>,
    pub boards: Vec<Board>,
    pub printed: Text,
}

/// Counts, and where the program stands.
#[derive(Default)]
pub struct Tally {
    pub seed: u64,
    pub round: u64,
    pub kind: &'static str,
    pub by_answer: BTreeMap<(Call, Walk, u32), u64>,
    pub by_kind: BTreeMap<&'static str, u64>,
    pub by_damage: BTreeMap<(&'static str, u32), u64>,
}

impl Tally {
    /// Calls both ways, compares, counts, and gives what the document says.
    pub fn call(&mut self, call: Call, lent: &Lent) -> After {
        let expected = by_reference(call, lent);
        let input = || format!("tally.call(Call::{:?}, &{:?});", call, lent);
        for walk in call.walks() {
            self.compare(call, &input, &expected, &by_library(call, *walk, lent), walk.name());
            self.count(call, *walk, expected.number);
        }
        if call == RunTo && lent.sizes == Sizes::default() {
            for (name, engine) in ENGINES {
                self.compare(call, &input, &expected, &by_engine(lent, engine), name);
            }
        }
        expected
    }

    pub fn read_sheet(&mut self, lent: &LentSheet) -> After {
        let expected = sheet_by_reference(lent);
        let input = || format!("tally.read_sheet(&crate::calls::{:?});", lent);
        self.compare(ReadSheet, &input, &expected, &sheet_by_library(lent), Walk::All.name());
        self.count(ReadSheet, Walk::All, expected.number);
        expected
    }

    /// `room` is the length lent for what is printed.
    pub fn meadow(&mut self, text: &Text, room: usize) -> After {
        let expected = meadow_by_reference(text, room);
        let input = || format!("tally.meadow(&{:?}, {});", text, room);
        self.compare(Call::Meadow, &input, &expected, &meadow_by_library(text, room), Walk::All.name());
        if room >= OUT_ROOM {
            self.count(Call::Meadow, Walk::All, expected.number);
        }
        expected
    }

    fn count(&mut self, call: Call, walk: Walk, number: u32) {
        *self.by_answer.entry((call, walk, number)).or_insert(0) += 1;
        *self.by_kind.entry(self.kind).or_insert(0) += 1;
    }

    /// `input` is the call as a line of Rust.
    fn compare(&self, call: Call, input: &dyn Fn() -> String, expected: &After, found: &After, who: &str) {
        if expected == found {
            return;
        }
        println!("outside: {:?} differs between the document and {} ({})", call, who, self.kind);
        println!("repeat with: tests/outside.sh --seed {} --from {} --rounds 1", self.seed, self.round);
        println!("or as a line in tests/outside/worked.rs:\n{}", input().replace('[', "vec!["));
        println!("by the document:\n{:?}", expected);
        println!("by {}:\n{:?}", who, found);
        println!("first difference: {}", first_difference(expected, found));
        std::process::exit(1);
    }
}

fn first_difference(expected: &After, found: &After) -> String {
    if expected.number != found.number {
        return format!("number {} by the document, {} found", expected.number, found.number);
    }
    let wide = |numbers: &[u32]| numbers.iter().map(|number| *number as u64).collect::<Vec<u64>>();
    let bytes = |bytes: &[u8]| bytes.iter().map(|byte| *byte as u64).collect::<Vec<u64>>();
    let (one, other) = (&expected.meadow, &found.meadow);
    let parts = [
        ("run", expected.run.clone(), found.run.clone()),
        ("answer", expected.answer.clone(), found.answer.clone()),
        ("wet or line", expected.more.clone(), found.more.clone()),
        ("boards", board_numbers(&expected.boards), board_numbers(&found.boards)),
        ("printed", bytes(&expected.printed.0), bytes(&found.printed.0)),
        ("marks", bytes(&one.marks), bytes(&other.marks)),
        ("beds", wide(&one.beds), wide(&other.beds)),
        ("roughness", wide(&one.roughness), wide(&other.roughness)),
        ("rates", wide(&one.rates), wide(&other.rates)),
        ("rain", wide(&one.rain), wide(&other.rain)),
        ("inflow", wide(&one.inflow), wide(&other.inflow)),
        ("depths", wide(&one.depths), wide(&other.depths)),
        ("lasts", wide(&one.lasts), wide(&other.lasts)),
        ("records", wide(&one.records), wide(&other.records)),
    ];
    for (name, expected, found) in parts {
        if expected.len() != found.len() {
            return format!("{}: length {} by the document, {} found", name, expected.len(), found.len());
        }
        if let Some(at) = (0..expected.len()).find(|at| expected[*at] != found[*at]) {
            return format!("{}[{}]: {} by the document, {} found", name, at, expected[at], found[at]);
        }
    }
    "none".to_string()
}

/// The numbers of boards one after the other: six a board.
fn board_numbers(boards: &[Board]) -> Vec<u64> {
    let six = |board: &Board| [board.row as u64, board.column as u64, board.mark as u64, board.highest as u64, board.reached as u64, board.first];
    boards.iter().flat_map(six).collect()
}

// ---------------------------------------------------------------- calls on a meadow

/// How many numbers the answer of a call has, besides its run.
fn answer_size(call: Call) -> usize {
    match call {
        RunTo | RunToBoards => STEPS_NUMBERS,
        StepBounds => BOUNDS_NUMBERS,
        Call::Arrow => SPEED_NUMBERS,
        WetRows => COUNT_NUMBERS,
        _ => 0,
    }
}

/// The numbers, as many more or fewer as is said.
fn resized(numbers: &[u64], more: i64) -> Vec<u64> {
    let mut numbers = numbers.to_vec();
    numbers.resize((numbers.len() as i64 + more).max(0) as usize, JUNK);
    numbers
}

fn rules(lent: &Lent) -> Vec<u64> {
    resized(&library::rules_numbers(&lent.rules), lent.sizes.rules)
}

/// A fresh run is only written.
fn before(call: Call, lent: &Lent) -> After {
    let run = if call == Fresh { [JUNK; RUN_NUMBERS] } else { library::run_numbers(&lent.run) };
    After {
        number: 0,
        meadow: lent.meadow.clone(),
        run: resized(&run, lent.sizes.run),
        answer: resized(&vec![JUNK; answer_size(call)], lent.sizes.answer),
        more: lent.wet.clone(),
        boards: lent.boards.clone(),
        printed: Text(Vec::new()),
    }
}

/// Whether each slice that the call is lent for rules, run and answer has its size.
fn sized(call: Call, lent: &Lent, after: &After) -> bool {
    let rules = rules(lent).len() == RULES_NUMBERS;
    let run = after.run.len() == RUN_NUMBERS;
    let answer = after.answer.len() == answer_size(call);
    match call {
        Fresh | Step => rules && run,
        RunTo | RunToBoards => rules && run && answer,
        TakeBack => run,
        StepBounds => rules && answer,
        Call::Arrow => run && answer,
        _ => answer,
    }
}

/// A run to an end: a refusal by 1 to 6 leaves run and steps as they were, one by 8, 9 or 15 tells them.
fn put_made(after: &mut After, made: Result<Made, u32>) {
    match made {
        Err(number) => after.number = number,
        Ok(made) => {
            after.number = made.number;
            after.run.copy_from_slice(&library::run_numbers(&made.run));
            after.answer[0] = made.steps;
        }
    }
}

/// A board after a run: it keeps its square and its mark, and nothing else that was lent in it.
fn shown(lent: &Board, shown: &Shown) -> Board {
    Board { highest: shown.highest, reached: shown.first.is_some(), first: shown.first.unwrap_or(0), ..*lent }
}

fn watch(after: &mut After, lent: &Lent) {
    let asked: Vec<Asked> = lent.boards.iter().map(|board| Asked { row: board.row, column: board.column, mark: board.mark }).collect();
    match watching::run_to_boards(&mut after.meadow, &lent.rules, &lent.run, lent.end, &asked) {
        Err(number) => after.number = number,
        Ok(watched) => {
            after.boards = lent.boards.iter().zip(&watched.boards).map(|(board, found)| shown(board, found)).collect();
            put_made(after, Ok(watched.made));
        }
    }
}

fn put_run(after: &mut After, run: Result<Run, u32>) {
    match run {
        Err(number) => after.number = number,
        Ok(run) => after.run.copy_from_slice(&library::run_numbers(&run)),
    }
}

fn by_engine(lent: &Lent, engine: lent::RunTo) -> After {
    let mut after = before(RunTo, lent);
    after.number = library::run_to_by(engine, &mut after.meadow, &rules(lent), lent.end, &mut after.run, &mut after.answer);
    after
}

fn by_reference(call: Call, lent: &Lent) -> After {
    let mut after = before(call, lent);
    if !sized(call, lent, &after) {
        after.number = declared::REFUSED_SHAPE;
        return after;
    }
    match call {
        Fresh => {
            let run = reference::fresh(&mut after.meadow, &lent.rules);
            put_run(&mut after, run);
        }
        Step => {
            let run = reference::step(&mut after.meadow, &lent.rules, &lent.run);
            put_run(&mut after, run);
        }
        RunTo => {
            let made = reference::run_to(&mut after.meadow, &lent.rules, &lent.run, lent.end);
            put_made(&mut after, made);
        }
        RunToBoards => watch(&mut after, lent),
        TakeBack => {
            let run = reference::take_back(&mut after.meadow, &lent.run);
            put_run(&mut after, run);
        }
        StepBounds => {
            after.number = match reference::step_bounds(&lent.rules, lent.run.clock, lent.end) {
                Bounds::Refused(number) => number,
                Bounds::NotBounded => declared::NOT_BOUNDED,
                Bounds::Bounded { most, least } => {
                    after.answer = vec![most as u64, least as u64];
                    declared::BOUNDED
                }
            };
        }
        Call::Arrow => {
            let arrow = reference::arrow(&lent.meadow, lent.rules.square_side, &lent.run, lent.row, lent.column);
            after.number = match arrow {
                Arrow::Refused(number) => number,
                Arrow::Closed => declared::CLOSED,
                Arrow::Dry => declared::DRY,
                Arrow::Still => declared::STILL,
                Arrow::Moving { east, north } => {
                    after.answer = vec![east.to_bits(), north.to_bits()];
                    declared::MOVING
                }
            };
        }
        WetRows => match reference::wet_rows(&lent.meadow, lent.wet_depth, &mut after.more) {
            Err(number) => after.number = number,
            Ok(count) => after.answer[0] = count,
        },
        ReadSheet | Call::Meadow => unreachable!("a call on a text"),
    }
    after
}

fn by_library(call: Call, walk: Walk, lent: &Lent) -> After {
    let mut after = before(call, lent);
    let rules = rules(lent);
    let (meadow, run, answer) = (&mut after.meadow, &mut after.run, &mut after.answer);
    after.number = match call {
        Fresh => library::fresh(meadow, &rules, run),
        Step => library::step(walk, meadow, &rules, run),
        RunTo => library::run_to(walk, meadow, &rules, lent.end, run, answer),
        RunToBoards => library::run_to_boards(meadow, &rules, lent.end, run, answer, &mut after.boards),
        TakeBack => library::take_back(meadow, run),
        StepBounds => declared::flood_step_bounds(&rules, lent.run.clock, lent.end, answer),
        Call::Arrow => {
            let mut speeds: Vec<f64> = answer.iter().map(|bits| f64::from_bits(*bits)).collect();
            let number = library::arrow(meadow, lent.rules.square_side, run, lent.row, lent.column, &mut speeds);
            *answer = speeds.iter().map(|speed| speed.to_bits()).collect();
            number
        }
        WetRows => library::wet_rows(meadow, lent.wet_depth, &mut after.more, answer),
        ReadSheet | Call::Meadow => unreachable!("a call on a text"),
    };
    after
}

// ---------------------------------------------------------------- calls on a text

fn sheet_before(lent: &LentSheet) -> After {
    After {
        number: 0,
        meadow: lent.rooms.clone(),
        run: Vec::new(),
        answer: resized(&[JUNK; HEADING_NUMBERS], lent.heading),
        more: resized(&[JUNK; LINE_NUMBERS], lent.line),
        boards: Vec::new(),
        printed: Text(Vec::new()),
    }
}

fn heading_numbers(heading: &Heading) -> Vec<u64> {
    let mut numbers = vec![heading.rows as u64, heading.columns as u64];
    numbers.extend(library::rules_numbers(&heading.rules));
    numbers.extend([heading.end, heading.rain_rows as u64, heading.inflow_rows as u64]);
    numbers
}

fn sheet_by_reference(lent: &LentSheet) -> After {
    let mut after = sheet_before(lent);
    if lent.heading != 0 || lent.line != 0 {
        after.number = declared::REFUSED_SHAPE;
        return after;
    }
    match reference::read_sheet(&lent.text.0, &mut after.meadow) {
        Ok(heading) => {
            after.answer = heading_numbers(&heading);
            after.more[0] = 0;
        }
        Err(refusal) => {
            after.number = refusal.number;
            after.more[0] = refusal.line;
        }
    }
    after
}

fn sheet_by_library(lent: &LentSheet) -> After {
    let mut after = sheet_before(lent);
    after.number = library::read_sheet(&lent.text.0, &mut after.meadow, &mut after.answer, &mut after.more);
    after
}

/// The number that a printed refusal tells, else 0.
fn refused_by(printed: &[u8]) -> u32 {
    let printed = String::from_utf8_lossy(printed);
    match printed.strip_prefix("refused\t").and_then(|rest| rest.split('\t').next()) {
        Some(number) => number.parse().unwrap_or(u32::MAX),
        None => 0,
    }
}

/// `answer` is the length that is given back, `more` where the rest of the room was written.
fn meadow_after(length: usize, room: &[u8]) -> After {
    let (printed, rest) = room.split_at(length);
    let written = |at: &usize| rest[*at] != JUNK as u8;
    After {
        number: refused_by(printed),
        meadow: Meadow::default(),
        run: Vec::new(),
        answer: vec![length as u64],
        more: (0..rest.len()).filter(written).map(|at| at as u64).collect(),
        boards: Vec::new(),
        printed: Text(printed.to_vec()),
    }
}

fn meadow_by_reference(text: &Text, room: usize) -> After {
    let mut out = vec![JUNK as u8; room];
    if room < OUT_ROOM {
        return meadow_after(0, &out);
    }
    let printed = reference::meadow(&text.0);
    out[..printed.len()].copy_from_slice(&printed);
    meadow_after(printed.len(), &out)
}

fn meadow_by_library(text: &Text, room: usize) -> After {
    let mut out = vec![JUNK as u8; room];
    let length = declared::flood_meadow(&text.0, &mut out);
    meadow_after(length.min(room), &out)
}
