//! What a run to an end is lent, for the benchmark's Rust engines: the parameters of `flood_run_to`, and the checks of document 01's table
//! that come before any step.

pub const CLOSED: u8 = 0;
pub const EXIT: u8 = 2;

/// The numbers of a square in a record.
pub const WORDS: usize = 7;

/// "Units and ranges", and those of document 02.
pub const MOST_DEPTH: u64 = 100_000_000;
pub const MOST_CLOCK: u64 = 604_800_000;
pub const MOST_TOTAL: u64 = 1_000_000_000_000_000;
const MOST_BED: u32 = 1_000_000_000;
const MOST_ROUGHNESS: u32 = 10_000;
const MOST_RATE: u32 = 1_000_000;
const MOST_LITRES: u32 = 100_000;
const MOST_LENGTH: u64 = 60_000;
const MOST_UPDATE: u64 = 3_600_000;

/// A run to an end, with the parameters of `flood_run_to`.
pub type RunTo = fn(
    usize, usize, &[u64], u64, &[u8], &[u32], &[u32], &[u32], &[u32], &[u32], &mut [u32], &mut [u32], &mut [u32], &mut [u64], &mut [u64],
) -> u32;

#[derive(Clone, Copy)]
pub struct Rules {
    pub square_side: u64,
    pub tolerance: u64,
    pub shortest: u64,
    pub longest: u64,
    pub update: u64,
    pub edge: u64,
    pub edition: u64,
}

#[derive(Clone, Copy)]
pub struct Run {
    pub clock: u64,
    pub length: u64,
    pub outflow: u64,
    pub kept: usize,
    pub newest: usize,
    pub soaked: u64,
}

/// The refusal's number, 0 for none, the steps made, and the run that they leave.
pub struct Made {
    pub number: u32,
    pub steps: u64,
    pub run: Run,
}

pub struct Lent<'a> {
    pub rows: usize,
    pub columns: usize,
    pub rules: Rules,
    pub end: u64,
    pub marks: &'a [u8],
    pub beds: &'a [u32],
    pub roughness: &'a [u32],
    pub rates: &'a [u32],
    pub rain: &'a [u32],
    pub inflow: &'a [u32],
    pub depths: &'a mut [u32],
    pub lasts: &'a mut [u32],
    pub records: &'a mut [u32],
}

/// A way to make the run, once the checks have passed.
pub trait Engine {
    fn run_on(lent: &mut Lent, run: Run) -> Made;
}

/// Steps while the clock is below the end, up to one that is refused.
#[inline(always)]
pub fn steps_to(end: u64, run: Run, mut step: impl FnMut(&Run) -> Result<Run, u32>) -> Made {
    let mut made = Made { number: 0, steps: 0, run };
    while made.run.clock < end {
        match step(&made.run) {
            Ok(run) => made = Made { number: 0, steps: made.steps + 1, run },
            Err(number) => return Made { number, ..made },
        }
    }
    made
}

/// The same on slices.
pub fn run_to<E: Engine>(
    rows: usize, columns: usize, rules: &[u64], end: u64,
    marks: &[u8], beds: &[u32], roughness: &[u32], rates: &[u32], rain: &[u32], inflow: &[u32],
    depths: &mut [u32], lasts: &mut [u32], records: &mut [u32], run: &mut [u64], steps: &mut [u64],
) -> u32 {
    let [square_side, tolerance, shortest, longest, update, edge, edition] = [0, 1, 2, 3, 4, 5, 6].map(|at| rules[at]);
    let rules = Rules { square_side, tolerance, shortest, longest, update, edge, edition };
    let start = Run { clock: run[0], length: run[1], outflow: run[2], kept: run[3] as usize, newest: run[4] as usize, soaked: run[5] };
    let mut lent = Lent { rows, columns, rules, end, marks, beds, roughness, rates, rain, inflow, depths, lasts, records };
    if let Err(number) = lent.check(&start) {
        return number;
    }
    let made = E::run_on(&mut lent, start);
    let after = made.run;
    run.copy_from_slice(&[after.clock, after.length, after.outflow, after.kept as u64, after.newest as u64, after.soaked]);
    steps[0] = made.steps;
    made.number
}

// ---------------------------------------------------------------- checks

fn refuse(number: u32, applies: bool) -> Result<(), u32> {
    if applies {
        Err(number)
    } else {
        Ok(())
    }
}

fn times_wrong(from: u32, to: u32) -> bool {
    from > to || to as u64 > MOST_CLOCK
}

impl Lent<'_> {
    pub fn squares(&self) -> usize {
        self.rows * self.columns
    }

    pub fn record_size(&self) -> usize {
        2 + WORDS * self.squares()
    }

    pub fn slots(&self) -> usize {
        self.records.len() / self.record_size()
    }

    /// Refusals 1 to 6, in their order.
    fn check(&self, run: &Run) -> Result<(), u32> {
        refuse(1, self.shape_wrong())?;
        refuse(2, self.marks_wrong() || self.any_open(|square| self.ground_wrong(square)))?;
        refuse(3, self.any_open(|square| self.depths[square].max(self.lasts[square]) as u64 > MOST_DEPTH))?;
        refuse(4, self.rain_wrong() || self.inflow_wrong())?;
        refuse(5, self.rules_wrong())?;
        refuse(6, self.run_wrong(run))
    }

    fn shape_wrong(&self) -> bool {
        let lengths = [self.marks.len(), self.beds.len(), self.roughness.len(), self.rates.len(), self.depths.len(), self.lasts.len()];
        let shape = [self.rows, self.columns].iter().any(|side| *side < 1 || *side > 64);
        shape || self.rules.square_side < 1 || self.rules.square_side > 100 || lengths.iter().any(|length| *length != self.squares())
    }

    fn any_open(&self, wrong: impl Fn(usize) -> bool) -> bool {
        (0..self.squares()).any(|square| self.marks[square] != CLOSED && wrong(square))
    }

    fn marks_wrong(&self) -> bool {
        self.marks.chunks(self.columns).enumerate().any(|(row, marks)| {
            let within = row > 0 && row + 1 < self.rows && self.columns > 2;
            let inner = if within { &marks[1..self.columns - 1] } else { &[][..] };
            marks.iter().any(|mark| *mark > EXIT) || inner.contains(&EXIT)
        })
    }

    fn ground_wrong(&self, square: usize) -> bool {
        let roughness = self.roughness[square];
        self.beds[square] > MOST_BED || roughness < 1 || roughness > MOST_ROUGHNESS || self.rates[square] > MOST_RATE
    }

    fn rain_wrong(&self) -> bool {
        let row_wrong = |row: &[u32]| times_wrong(row[0], row[1]) || row[2] > MOST_RATE;
        self.rain.len() % 3 != 0 || self.rain.len() > 3 * 64 || self.rain.chunks(3).any(row_wrong)
    }

    fn inflow_wrong(&self) -> bool {
        let row_wrong = |row: &[u32]| {
            let (down, right) = (row[0] as usize, row[1] as usize);
            let missing = down >= self.rows || right >= self.columns;
            missing || self.marks[down * self.columns + right] == CLOSED || times_wrong(row[2], row[3]) || row[4] > MOST_LITRES
        };
        self.inflow.len() % 5 != 0 || self.inflow.len() > 5 * 64 || self.inflow.chunks(5).any(row_wrong)
    }

    fn rules_wrong(&self) -> bool {
        let rules = &self.rules;
        let lengths = rules.shortest < 1 || rules.shortest > rules.longest || rules.longest > MOST_LENGTH;
        let update = rules.update < 1 || rules.update > MOST_UPDATE;
        let edition = rules.edition < 1 || rules.edition > 3;
        lengths || update || edition || rules.tolerance.max(rules.edge) > 10_000 || self.end > MOST_CLOCK || self.end % rules.update != 0
    }

    fn run_wrong(&self, run: &Run) -> bool {
        let totals = run.outflow.max(run.soaked) > MOST_TOTAL;
        let slots = self.slots();
        totals || run.clock > MOST_CLOCK || run.length < 1 || run.length > MOST_LENGTH || run.kept > slots || run.newest >= slots
    }
}
