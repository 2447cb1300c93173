//! Document 01's cases worked by hand, with the document's own numbers: both the reference and the library are held to them.

use crate::calls::{After, Call, Tally, Text};
use flood::declared::OUT_ROOM;
use crate::library;
use crate::meadows::{Lent, Sizes};
use crate::reference::{Meadow, Rules, Run, CLOSED, EXIT, OPEN, SOAKED, WORDS};

const SHEET: &[u8] = b"grid\t1\t2\t1\nrun\t100\t1000\t1000\t1000\t1000\t10000\t1\ncell\t0\t0\to\t0\t100\t1000\t0\ncell\t0\t1\to\t0\t100\t0\t0\n";
const PRINTED: &[u8] = b"cell\t0\t0\t969\ncell\t0\t1\t31\nout\t0\nsoak\t0\nsteps\t1\nclock\t1000\n";

/// A row of squares on flat ground, k 100, with a room for one record and a fresh run in steps of 1000 ms.
pub fn flat(marks: Vec<u8>, depths: Vec<u32>) -> Lent {
    let squares = marks.len();
    Lent {
        meadow: Meadow {
            rows: 1,
            columns: squares,
            marks,
            beds: vec![0; squares],
            roughness: vec![100; squares],
            rates: vec![0; squares],
            rain: Vec::new(),
            inflow: Vec::new(),
            depths,
            lasts: vec![0; squares],
            records: vec![0; 2 + WORDS * squares],
        },
        rules: Rules { square_side: 1, tolerance: 100, shortest: 1_000, longest: 1_000, update: 1_000, edge: 10_000, edition: 1 },
        run: Run { clock: 0, length: 1_000, outflow: 0, kept: 0, newest: 0, soaked: 0 },
        end: 1_000,
        row: 0,
        column: 0,
        wet_depth: 0,
        wet: vec![0],
        boards: Vec::new(),
        sizes: Sizes::default(),
    }
}

/// The input of the next call: the meadow and the run that a call left.
pub fn go_on(lent: &mut Lent, after: &After) {
    lent.meadow = after.meadow.clone();
    lent.run = library::run_of(&after.run);
}

pub fn hold(what: &str, right: bool) {
    if !right {
        println!("outside: not as worked by hand in the document: {}", what);
        std::process::exit(1);
    }
}

fn two_squares(tally: &mut Tally) {
    let start = flat(vec![OPEN; 2], vec![1_000, 0]);
    let mut lent = start.clone();
    let step = tally.call(Call::Step, &lent);
    hold("the sheet's step", step.meadow.depths == [969, 31] && step.meadow.records[2..] == [0, 31, 0, 0, 0, 0, 0, 0, 0, 0, 0, 0, 0, 0]);
    go_on(&mut lent, &step);

    let arrow = tally.call(Call::Arrow, &lent);
    let east: f64 = 62_000.0 / 1_000_000.0;
    hold("the arrow after it", arrow.number == 0 && arrow.answer == [east.to_bits(), 0.0f64.to_bits()]);

    let back = tally.call(Call::TakeBack, &lent);
    hold("its take-back", back.meadow.depths == [1_000, 0] && back.meadow.lasts == [0, 0] && back.run[0] == 0);

    let second = tally.call(Call::Step, &lent);
    hold("its second step", second.meadow.depths == [941, 59] && second.run[0] == 2_000);

    // K = 1: step, step, take-back, take-back
    go_on(&mut lent, &second);
    let back = tally.call(Call::TakeBack, &lent);
    hold("the first take-back of two", back.meadow.depths == [969, 31]);
    go_on(&mut lent, &back);
    hold("the second take-back of two", tally.call(Call::TakeBack, &lent).number == 10);
}

fn single_squares(tally: &mut Tally) {
    let exit = tally.call(Call::Step, &flat(vec![EXIT], vec![10_000]));
    hold("one exit square", exit.meadow.depths == [2_000] && exit.run[2] == 8_000 && exit.meadow.records[2..6] == [2_000; 4]);
    let still = tally.call(Call::Step, &flat(vec![OPEN; 2], vec![500, 500]));
    hold("two equal levels", still.meadow.depths == [500, 500] && still.meadow.lasts == [0, 0]);
    for (depth, number) in [(100_000_000, 0), (100_000_001, 3)] {
        hold("the deepest depth", tally.call(Call::Step, &flat(vec![OPEN], vec![depth])).number == number);
    }
    for (columns, number) in [(64, 0), (65, 1)] {
        let row = flat(vec![OPEN; columns], vec![0; columns]);
        hold("the longest row", tally.call(Call::Step, &row).number == number);
    }
}

/// The exit above at other edge slopes and depths, and what each of its sides lets out: the drop off the grid is the smaller of the depth
/// and 100·e.
fn edges(tally: &mut Tally) {
    const EXITS: [(u64, u32, u32); 5] =
        [(0, 10_000, 0), (50, 10_000, 1_000), (99, 10_000, 1_980), (100, 10_000, 2_000), (10_000, 2_000_000, 200_000)];
    for (edge, depth, each_side) in EXITS {
        let mut lent = flat(vec![EXIT], vec![depth]);
        lent.rules.edge = edge;
        let exit = tally.call(Call::Step, &lent);
        hold("the edge slope", exit.meadow.depths == [depth - 4 * each_side] && exit.meadow.records[2..6] == [each_side; 4]);
    }
    // e = 10,000 is in range and 10,001 is not, for each call that takes rules
    for (edge, number) in [(10_000, 0), (10_001, 5)] {
        let mut lent = flat(vec![OPEN], vec![0]);
        lent.rules.edge = edge;
        for call in [Call::Fresh, Call::Step, Call::RunTo, Call::StepBounds] {
            hold("the steepest edge slope", tally.call(call, &lent).number == number);
        }
    }
}

/// The exit by other editions: its edge slope, its depth, and what each side lets out.
fn edition_exits(tally: &mut Tally) {
    const EXITS: [(u64, u64, u32, u32); 6] = [
        // m = 3,132, four times above the depth: 3,132·10,000 / 12,528
        (2, 10_000, 10_000, 2_500),
        // the drop is half the depth, the speed still the critical one
        (2, 50, 10_000, 2_500),
        // m = 1,603: 1,603·6,400 / 6,412; and m = 1,592, four times below the depth
        (2, 10_000, 6_400, 1_600),
        (2, 10_000, 6_371, 1_592),
        // m·T / VM = 15,660, so the total is the depth, where Vmin + P would be 10,000 and 5,000
        (3, 10_000, 10_000, 2_000),
        (3, 50, 10_000, 2_000),
    ];
    for (edition, edge, depth, each_side) in EXITS {
        let mut lent = flat(vec![EXIT], vec![depth]);
        lent.rules.edge = edge;
        lent.rules.edition = edition;
        let exit = tally.call(Call::Step, &lent);
        hold("an exit by its edition", exit.meadow.depths == [depth - 4 * each_side] && exit.meadow.records[2..6] == [each_side; 4]);
        hold("the last leaving by every edition", exit.meadow.lasts == [4 * each_side]);
    }
}

/// The middle square falls by 1 µm to the west and 30 cm to the east: by edition 1 it stands, by 2 and 3 it lets nearly all of it go.
fn standing(tally: &mut Tally) {
    for (edition, depths) in [(1, [999_999, 1_000_000, 700_000]), (2, [1_090_908, 1, 1_609_090]), (3, [1_000_002, 4, 1_699_993])] {
        let mut lent = flat(vec![OPEN; 3], vec![999_999, 1_000_000, 700_000]);
        lent.rules.edition = edition;
        hold("a standing square by its edition", tally.call(Call::Step, &lent).meadow.depths == depths);
    }
}

/// 5 m of water with drops of 3, 40,000, 50,000 and 60,000: T = 150,006, and the critical speed of 7,003,570 lets all of it through any
/// side but the first, whose s = 17 and v = 497,080 give m = 2,485,400.
fn least_drop(tally: &mut Tally) {
    const LEAVES: [(u64, [u32; 4]); 3] =
        [(1, [0, 0, 0, 1]), (2, [710_707, 1_429_764, 1_429_764, 1_429_764]), (3, [99, 1_333_280, 1_666_600, 1_999_920])];
    for (edition, leaves) in LEAVES {
        let mut lent = flat(vec![CLOSED; 9], vec![0; 9]);
        lent.meadow.rows = 3;
        lent.meadow.columns = 3;
        for (square, depth) in [(1, 4_999_997), (5, 4_960_000), (7, 4_950_000), (3, 4_940_000), (4, 5_000_000)] {
            lent.meadow.marks[square] = OPEN;
            lent.meadow.depths[square] = depth;
        }
        lent.rules.edition = edition;
        let step = tally.call(Call::Step, &lent);
        hold("a least drop by its edition", step.meadow.records[2 + WORDS * 4..][..4] == leaves && step.meadow.lasts[4] == leaves.iter().sum::<u32>());
    }
}

/// Each edition there is, and those beside them, for each call that takes rules.
fn edition_numbers(tally: &mut Tally) {
    for (edition, number) in [(0, 5), (1, 0), (2, 0), (3, 0), (4, 5)] {
        let mut lent = flat(vec![OPEN], vec![0]);
        lent.rules.edition = edition;
        for call in [Call::Fresh, Call::Step, Call::RunTo] {
            hold("the editions there are", tally.call(call, &lent).number == number);
        }
    }
}

/// The length is worked afresh at clock 0, and held in the run.
fn lengths(tally: &mut Tally) {
    for (tolerance, length) in [(99, 250), (100, 60_000)] {
        let mut lent = flat(vec![OPEN; 2], vec![1_000_000, 900_000]);
        lent.meadow.roughness = vec![500; 2];
        lent.rules = Rules { square_side: 10, tolerance, shortest: 1, longest: 60_000, update: 60_000, edge: 10_000, edition: 1 };
        hold("the step length", tally.call(Call::Step, &lent).run[1] == length);
    }
}

/// Rain of 3,600 µm an hour is 0 by 999 ms and 1 by 1000; 1 l/s on a square of 2 m is 0 by 3 ms and 1 by 4.
fn tables(tally: &mut Tally) {
    for (lasts, depth) in [(999, 0), (1_000, 1)] {
        let mut lent = flat(vec![OPEN], vec![0]);
        lent.meadow.rain = vec![0, 604_800_000, 3_600];
        lent.rules.update = lasts;
        hold("rain", tally.call(Call::Step, &lent).meadow.depths == [depth]);
    }
    for (lasts, depth) in [(3, 0), (4, 1)] {
        let mut lent = flat(vec![OPEN], vec![0]);
        lent.meadow.inflow = vec![0, 0, 0, 604_800_000, 1];
        lent.rules.square_side = 2;
        lent.rules.update = lasts;
        hold("inflow", tally.call(Call::Step, &lent).meadow.depths == [depth]);
    }
}

/// The total soaked that stands in a run.
fn total_soaked(after: &After) -> u64 {
    after.run[5]
}

/// One square that cannot send water anywhere: its rate, its depth, the clock and how long the step lasts, and what soaks.
fn soaked_alone(tally: &mut Tally) {
    const SQUARES: [(u32, u32, u64, u64, u32); 11] = [
        // dry
        (1_000_000, 0, 0, 1_000, 0),
        // 3,600 an hour is 1 by 1000 ms and not by 999; then 2 by 2000
        (3_600, 1_000, 0, 999, 0),
        (3_600, 1_000, 0, 1_000, 1),
        (3_600, 1_000, 999, 1, 1),
        (3_600, 1_000, 1_000, 999, 0),
        // half a micrometre a second: by the clock 0, then 1
        (1_800, 1_000, 0, 1_000, 0),
        (1_800, 1_000, 1_000, 1_000, 1),
        // 277 in the first second, 278 in the second, or all there is
        (1_000_000, 1_000, 0, 1_000, 277),
        (1_000_000, 1_000, 1_000, 1_000, 278),
        (1_000_000, 277, 1_000, 1_000, 277),
        // the last minute of the week: 168,000,000 less 167,983,333
        (1_000_000, 100_000_000, 604_740_000, 60_000, 16_667),
    ];
    for (rate, depth, clock, lasts, soaked) in SQUARES {
        let mut lent = flat(vec![OPEN], vec![depth]);
        lent.meadow.rates = vec![rate];
        lent.rules = Rules { shortest: lasts, longest: lasts, update: 3_600_000, ..lent.rules };
        lent.run.clock = clock;
        lent.run.length = lasts;
        let step = tally.call(Call::Step, &lent);
        hold("a square that soaks", step.number == 0 && step.meadow.depths == [depth - soaked] && total_soaked(&step) == soaked as u64);
        hold("its record", step.meadow.records[2..] == [0, 0, 0, 0, 0, 0, soaked] && step.meadow.lasts == [0]);
    }
}

/// The sheet's step with sides, soaking and rain at once, and its take-back: P is what went through the sides, and neither what is sent to
/// the dry square nor what rains on it soaks in this step.
fn soaked_with_sides(tally: &mut Tally) {
    let mut lent = flat(vec![OPEN; 2], vec![1_000, 0]);
    lent.meadow.rates = vec![7_200, 1_000_000];
    lent.meadow.rain = vec![0, 604_800_000, 3_600];
    let step = tally.call(Call::Step, &lent);
    hold("sides, soaking and rain", step.meadow.depths == [968, 32] && total_soaked(&step) == 2);
    hold("the last leaving beside soaking", step.meadow.lasts == [31, 0]);
    hold("the record's seventh number", step.meadow.records[2..] == [0, 31, 0, 0, 0, 1, 2, 0, 0, 0, 0, 0, 1, 0]);
    go_on(&mut lent, &step);

    // a drop of 936 and d 968 have h 97, s 305, v 29,585 and m 28; in the east 278 are due and 32 are there
    let second = tally.call(Call::Step, &lent);
    hold("its second step", second.meadow.depths == [968 - 28 - 2 + 1, 28 + 1] && total_soaked(&second) == 2 + 2 + 32);

    let back = tally.call(Call::TakeBack, &lent);
    hold("its take-back", back.meadow.depths == [1_000, 0] && back.meadow.lasts == [0, 0] && total_soaked(&back) == 0);
    // a total of less than the record has soaked, and a record of more than the total
    let mut less = lent.clone();
    less.run.soaked = 1;
    hold("a total below the record", tally.call(Call::TakeBack, &less).number == 11);
    let mut more = lent.clone();
    more.meadow.records[2 + SOAKED] = 3;
    hold("a record above the total", tally.call(Call::TakeBack, &more).number == 11);
}

/// The sides leave 2,000 of the exit's water, and in edition 2 nothing.
fn soaked_after_sides(tally: &mut Tally) {
    for (edition, out, soaked) in [(1, 8_000, 277), (2, 10_000, 0)] {
        let mut lent = flat(vec![EXIT], vec![10_000]);
        lent.meadow.rates = vec![1_000_000];
        lent.rules.edition = edition;
        let exit = tally.call(Call::Step, &lent);
        hold("an exit that soaks", exit.meadow.depths == [10_000 - out - soaked] && exit.run[2] == out as u64);
        hold("what an exit soaks", total_soaked(&exit) == soaked as u64 && exit.meadow.lasts == [out]);
    }
}

/// Rates and totals at their limits, for each call that looks at them.
fn soak_limits(tally: &mut Tally) {
    const MOST: u64 = 1_000_000_000_000_000;
    let on = [Call::Step, Call::RunTo];
    for (rate, number) in [(1_000_000, 0), (1_000_001, 2)] {
        let mut lent = flat(vec![OPEN, CLOSED], vec![0; 2]);
        lent.meadow.rates = vec![rate, u32::MAX];
        hold("the greatest rate, beside a closed square's", on.iter().all(|call| tally.call(*call, &lent).number == number));
    }
    let mut lent = flat(vec![OPEN], vec![1_000]);
    lent.meadow.rates.clear();
    hold("rates of another size", on.iter().all(|call| tally.call(*call, &lent).number == 1));

    // 1 soaks in each second
    lent.meadow.rates = vec![3_600];
    for (total, number) in [(MOST - 1, 0), (MOST, 15), (MOST + 1, 6)] {
        lent.run.soaked = total;
        hold("the greatest total soaked", on.iter().all(|call| tally.call(*call, &lent).number == number));
    }
    for call in [Call::TakeBack, Call::Arrow] {
        hold("a total that cannot be", tally.call(call, &lent).number == 6);
    }
    // a run to the third second makes one step, and leaves the state before the second
    lent.run.soaked = MOST - 1;
    lent.end = 3_000;
    let made = tally.call(Call::RunTo, &lent);
    hold("a run whose second step soaks too much", made.number == 15 && made.answer == [1] && made.meadow.depths == [999]);
    hold("the run that it leaves", made.run == [1_000, 1_000, 0, 1, 0, MOST]);

    // 8 and 9 come before 15
    let mut exit = flat(vec![EXIT], vec![10_000]);
    exit.meadow.rates = vec![1_000_000];
    exit.run = Run { outflow: MOST, soaked: MOST, ..exit.run };
    hold("an outflow and a total soaked that are too much", tally.call(Call::Step, &exit).number == 9);
    let mut deep = flat(vec![OPEN], vec![100_000_000]);
    deep.meadow.rates = vec![3_600];
    deep.meadow.rain = vec![0, 1_000, 7_200];
    deep.run.soaked = MOST;
    hold("a depth and a total soaked that are too much", tally.call(Call::Step, &deep).number == 8);
}

pub fn cases(tally: &mut Tally) {
    two_squares(tally);
    single_squares(tally);
    edges(tally);
    edition_exits(tally);
    standing(tally);
    least_drop(tally);
    edition_numbers(tally);
    lengths(tally);
    tables(tally);
    soaked_alone(tally);
    soaked_with_sides(tally);
    soaked_after_sides(tally);
    soak_limits(tally);
    let printed = tally.meadow(&Text(SHEET.to_vec()), OUT_ROOM).printed;
    hold("what meadow prints", printed.0 == PRINTED);
}
