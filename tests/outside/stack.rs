//! One call of the static library, on the largest grid that it takes, on a thread with so much stack: `stack CALL KIB`. A call that needs
//! more ends the program. Without words: each call and the KiB that its header says suffice for it.

use flood::declared::*;
use flood::declared_boards::{self, flood_run_to_boards, Board, MOST_BOARDS};
use std::fmt::Write;

const ALONG: usize = 64;
const ALONG_IN_PROGRAM: usize = 32;
const RULES: [u64; RULES_NUMBERS] = [10, 0, 100, 100, 100, 10_000, 1];
const END: u64 = 500;

fn sheet(along: usize) -> Vec<u8> {
    let mut text = format!("grid\t{}\t{}\t10\nrun\t0\t100\t100\t100\t{}\t10000\t1\n", along, along, END);
    for square in 0..along * along {
        let (row, column) = (square / along, square % along);
        writeln!(text, "cell\t{}\t{}\to\t{}\t350\t{}\t5000", row, column, square % 7 * 1000, 500_000 + square).unwrap();
    }
    for _ in 0..64 {
        text += "rain\t0\t1000\t100000\n";
    }
    for _ in 0..64 {
        text += "inflow\t0\t0\t0\t1000\t100\n";
    }
    text.into_bytes()
}

fn read_sheet(along: usize) {
    let text = sheet(along);
    let squares = along * along;
    let mut marks = vec![0; squares];
    let (mut beds, mut roughness) = (vec![0; squares], vec![0; squares]);
    let (mut rates, mut depths) = (vec![0; squares], vec![0; squares]);
    let (mut rain, mut inflow) = (vec![0; RAIN_ROOM], vec![0; INFLOW_ROOM]);
    let (mut heading, mut line) = ([0; HEADING_NUMBERS], [0; LINE_NUMBERS]);
    let number = flood_read_sheet(
        &text, &mut marks, &mut beds, &mut roughness, &mut rates, &mut depths, &mut rain, &mut inflow, &mut heading, &mut line,
    );
    assert!(number == 0, "reading gives {} at line {}", number, line[0]);
}

fn meadow() {
    let mut out = vec![0; OUT_ROOM];
    let length = flood_meadow(&sheet(ALONG_IN_PROGRAM), &mut out);
    assert!(out[..length].starts_with(b"cell"), "meadow prints {}", String::from_utf8_lossy(&out[..length]));
}

/// A call on a wet grid, after a step.
fn on_grid(call: &str) {
    let squares = ALONG * ALONG;
    let (marks, roughness, rates) = (vec![1; squares], vec![350; squares], vec![5_000; squares]);
    let beds: Vec<u32> = (0..squares as u32).map(|square| square % 7 * 1000).collect();
    let mut depths: Vec<u32> = (0..squares as u32).map(|square| 500_000 + square).collect();
    let (mut lasts, mut records) = (vec![0; squares], vec![0; record_numbers(ALONG, ALONG)]);
    let (rain, inflow) = ([0, 1000, 100_000], [0, 0, 0, 1000, 100]);
    // the record of a step of 100 ms that moved nothing, and the run that it left
    records[0] = 100;
    records[1] = 100;
    let (mut run, mut steps) = ([100, 100, 0, 1, 0, 0], [0; STEPS_NUMBERS]);
    let mut bounds = [0; BOUNDS_NUMBERS];
    let mut boards = [Board { row: 5, column: 5, mark: 500_100, highest: 0, reached: false, first: 0 }; MOST_BOARDS];
    let (mut speeds, mut wet, mut count) = ([0.0; SPEED_NUMBERS], vec![0; ALONG], [0; COUNT_NUMBERS]);
    let number = match call {
        "flood_fresh" => flood_fresh(ALONG, ALONG, &RULES, &marks, &mut lasts, &records, &mut run),
        "flood_step" | "flood_step_wet" => {
            let step_by = if call == "flood_step" { flood_step } else { flood_step_wet };
            step_by(
                ALONG, ALONG, &RULES, &marks, &beds, &roughness, &rates, &rain, &inflow, &mut depths, &mut lasts, &mut records, &mut run,
            )
        }
        "flood_run_to" | "flood_run_to_wet" => {
            let run_to_by = if call == "flood_run_to" { flood_run_to } else { flood_run_to_wet };
            run_to_by(
                ALONG, ALONG, &RULES, END, &marks, &beds, &roughness, &rates, &rain, &inflow, &mut depths, &mut lasts, &mut records,
                &mut run, &mut steps,
            )
        }
        "flood_run_to_boards" => flood_run_to_boards(
            ALONG, ALONG, &RULES, END, &marks, &beds, &roughness, &rates, &rain, &inflow, &mut depths, &mut lasts, &mut records, &mut run,
            &mut steps, &mut boards,
        ),
        "flood_take_back" => flood_take_back(ALONG, ALONG, &marks, &mut depths, &mut lasts, &records, &mut run),
        "flood_step_bounds" => flood_step_bounds(&RULES, 0, END, &mut bounds),
        "flood_arrow" => flood_arrow(ALONG, ALONG, RULES[0], &marks, &depths, &records, &run, 5, 5, &mut speeds),
        "flood_wet_rows" => flood_wet_rows(ALONG, ALONG, &marks, &depths, 1, &mut wet, &mut count),
        _ => panic!("no call {}", call),
    };
    let wanted = if call == "flood_arrow" { STILL } else { 0 };
    assert!(number == wanted, "{} gives {}", call, number);
}

fn make(call: &str) {
    match call {
        "flood_read_sheet" => read_sheet(ALONG),
        "flood_meadow" => meadow(),
        _ => on_grid(call),
    }
}

fn main() {
    let words: Vec<String> = std::env::args().skip(1).collect();
    if words.is_empty() {
        STACK.iter().chain(&declared_boards::STACK).for_each(|(call, kib)| println!("{} {}", call, kib));
        return;
    }
    let (call, kib) = (words[0].clone(), words[1].parse::<usize>().expect("KiB"));
    let thread = std::thread::Builder::new().stack_size(kib * 1024).spawn(move || make(&call));
    if thread.expect("a thread").join().is_err() {
        std::process::exit(2);
    }
}
