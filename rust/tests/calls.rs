//! The crate's calls on document 01's own sheet, held to what that document works by hand.

use flood::{Inflow, Meadow, Refused, Sight};

const SHEET: &str = "grid\t1\t2\t1\nrun\t100\t1000\t1000\t1000\t1000\t10000\t1\ncell\t0\t0\to\t0\t100\t1000\t0\ncell\t0\t1\to\t0\t100\t0\t0\n";

fn meadow(kept: usize) -> Meadow {
    Meadow::read(SHEET.as_bytes(), kept).unwrap()
}

fn refused<T>(number: u32) -> Result<T, Refused> {
    Err(Refused { number, line: 0 })
}

#[test]
fn a_step_is_made_and_taken_back() {
    let mut meadow = meadow(2);
    let fresh = meadow.clone();
    assert_eq!((meadow.rows(), meadow.columns(), meadow.end(), meadow.kept()), (1, 2, 1000, 0));
    meadow.step().unwrap();
    assert_eq!((meadow.depths(), meadow.clock(), meadow.kept()), (&[969, 31][..], 1000, 1));
    meadow.back().unwrap();
    assert_eq!((meadow.depths(), meadow.clock(), meadow.kept()), (fresh.depths(), 0, 0));
    assert_eq!(meadow.back(), refused(10));
}

#[test]
fn a_run_is_its_steps() {
    let (mut run, mut steps) = (meadow(4), meadow(4));
    assert_eq!(run.run_to(3000), Ok(3));
    (0..3).for_each(|_| steps.step().unwrap());
    assert_eq!(run, steps);
    assert_eq!(run.run_to(3500), refused(5));
    assert_eq!(run, steps);
}

#[test]
fn a_square_is_seen() {
    let mut meadow = meadow(1);
    assert_eq!(meadow.arrow(0, 0), refused(10));
    meadow.step().unwrap();
    assert_eq!(meadow.arrow(0, 0), Ok(Sight::Moving { east: 0.062, north: 0.0 }));
    assert_eq!(meadow.arrow(0, 2), refused(1));
    assert_eq!(meadow.wet_rows(100), Ok((vec![1], 1)));
    assert_eq!(meadow.wet_rows(0), Ok((vec![3], 2)));
    assert_eq!(meadow.wet_rows(100_000_001), refused(5));
}

#[test]
fn hatches_are_rows() {
    let mut meadow = meadow(1);
    let hatch = Inflow { row: 0, column: 1, from: 0, to: 1000, litres: 1 };
    meadow.set_inflow(&[hatch; 5]);
    assert_eq!(meadow.inflow(), [hatch; 5]);
    meadow.step().unwrap();
    assert_eq!(meadow.depths(), [969, 5031]);
    let before = meadow.clone();
    meadow.set_inflow(&[Inflow { column: 2, ..hatch }]);
    assert_eq!(meadow.step(), refused(4));
    assert_eq!((meadow.depths(), meadow.clock()), (before.depths(), before.clock()));
}

#[test]
fn what_is_no_sheet_is_refused_at_its_line() {
    let cut = &SHEET.as_bytes()[..SHEET.len() - 1];
    assert_eq!(Meadow::read(cut, 1), Err(Refused { number: 12, line: 4 }));
    assert_eq!(Meadow::read(SHEET.as_bytes(), 0), refused(6));
    assert_eq!(Refused { number: 12, line: 4 }.to_string(), "refused by 12 at line 4");
}
