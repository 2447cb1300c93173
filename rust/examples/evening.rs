//! The evening of trials: at ten minutes a hatch is opened three times for forty steps, disliked and taken back each time; then the run goes on to
//! the sheet's end. What it prints is what `meadow` prints of the sheet: a trial taken back was never made.
//!
//!     cargo run --offline --release --example evening ../samples/walled-evening.sheet

use flood::{Inflow, Meadow, Refused};

const TEN_MINUTES: u64 = 600_000;
const A_WEEK: u32 = 604_800_000;
const OPENING: usize = 40;
const LITRES: [u32; 3] = [4000, 1500, 300];

/// Forty steps with the hatch at so many litres a second, taken back.
fn try_opening(meadow: &mut Meadow, litres: u32) -> Result<(), Refused> {
    let (before, without) = (meadow.depths().to_vec(), meadow.inflow());
    let mut with = without.clone();
    with.push(Inflow { row: 4, column: 1, from: 0, to: A_WEEK, litres });
    meadow.set_inflow(&with);
    for _ in 0..OPENING {
        meadow.step()?;
    }
    eprintln!("{} l/s: row 4, column 1 stands at {} µm after forty steps; taken back", litres, meadow.depth(4, 1));
    for _ in 0..OPENING {
        meadow.back()?;
    }
    meadow.set_inflow(&without);
    assert_eq!(before, meadow.depths(), "a trial has left a mark");
    Ok(())
}

/// The water as `meadow` tells it.
fn tell(meadow: &Meadow, steps: u64) {
    for row in 0..meadow.rows() {
        for column in (0..meadow.columns()).filter(|column| !meadow.is_closed(row, *column)) {
            println!("cell\t{}\t{}\t{}", row, column, meadow.depth(row, column));
        }
    }
    println!("out\t{}\nsoak\t{}\nsteps\t{}\nclock\t{}", meadow.outflow(), meadow.soaked(), steps, meadow.clock());
}

fn main() -> Result<(), Box<dyn std::error::Error>> {
    let name = std::env::args().nth(1).ok_or("usage: evening SHEET")?;
    let mut meadow = Meadow::read(&std::fs::read(name)?, OPENING)?;
    let mut steps = meadow.run_to(TEN_MINUTES)?;
    for litres in LITRES {
        try_opening(&mut meadow, litres)?;
    }
    steps += meadow.run_to(meadow.end())?;
    tell(&meadow, steps);
    Ok(())
}
