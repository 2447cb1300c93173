//! Document 02, #104, "Heights from the survey office and back", with #106's fourth grid, written anew over the sheets of reference.rs. A text is
//! read byte by byte from its start, and a refusal has the line of the byte where the reading stopped.

use crate::reference::{self, Heading, Meadow, Refusal, Rules, Run, CLOSED, EXIT, OPEN};

const MOST_FILE: usize = 262_144;
const MOST_SQUARES: usize = 4_096;
const NO_DATA: &[u8] = b"-9999";
/// The files of a set, in the order in which they are judged.
pub const FILES: [&str; 5] = ["note", "bed", "depth", "roughness", "rate"];

/// "In metres with exactly six decimals"; "roughness is a whole number".
#[derive(Clone, Copy, PartialEq)]
enum Scale {
    Metres,
    Whole,
}

/// How the four grids are written, in their order.
const SCALES: [Scale; 4] = [Scale::Metres, Scale::Metres, Scale::Whole, Scale::Whole];

/// A square of a grid: None where it is closed.
type Square = Option<u32>;

struct Grid {
    rows: u32,
    columns: u32,
    side: u32,
    squares: Vec<Square>,
}

// ---------------------------------------------------------------- A grid as it is read

/// A text, and how far it has been read.
struct Cursor<'a> {
    text: &'a [u8],
    at: usize,
}

impl Cursor<'_> {
    fn here(&self) -> Option<u8> {
        self.text.get(self.at).copied()
    }

    /// Past a word that stands here.
    fn word(&mut self, word: &[u8]) -> Option<()> {
        self.text[self.at..].starts_with(word).then(|| self.at += word.len())
    }

    /// "One or more spaces".
    fn spaces(&mut self) -> Option<()> {
        self.word(b" ")?;
        while self.word(b" ").is_some() {}
        Some(())
    }

    fn digits(&mut self) -> &[u8] {
        let from = self.at;
        while self.here().map_or(false, |byte| byte.is_ascii_digit()) {
            self.at += 1;
        }
        &self.text[from..self.at]
    }

    /// A number as in a sheet, and "fewer decimals": in µm where it is in metres. "More than six decimals .. is 12."
    fn amount(&mut self, scale: Scale) -> Option<u32> {
        let whole = reference::number(self.digits())? as u64;
        if scale == Scale::Whole {
            return if self.here() == Some(b'.') { None } else { Some(whole as u32) };
        }
        let decimals = if self.word(b".").is_some() { Some(self.digits()) } else { None };
        if decimals.map_or(false, |decimals| decimals.is_empty() || decimals.len() > 6) {
            return None;
        }
        let places = decimals.unwrap_or(b"").iter().chain(b"000000").take(6);
        u32::try_from(places.fold(whole, |value, digit| value * 10 + (digit - b'0') as u64)).ok()
    }

    /// A line of the header: its word, one or more spaces, what `value` reads, and the end of the line.
    fn head<T>(&mut self, word: &str, value: impl Fn(&mut Self) -> Option<T>) -> Option<T> {
        self.word(word.as_bytes())?;
        self.spaces()?;
        let found = value(self)?;
        self.word(b"\n")?;
        Some(found)
    }

    /// "A corner other than 0 is 12."
    fn corner(&mut self, word: &str) -> Option<()> {
        (self.head(word, |cursor| cursor.amount(Scale::Metres))? == 0).then_some(())
    }

    /// A square: "NODATA is -9999 and stands exactly at closed squares".
    fn square(&mut self, scale: Scale) -> Option<Square> {
        match self.word(NO_DATA) {
            Some(()) => Some(None),
            None => self.amount(scale).map(Some),
        }
    }

    /// What parts a square from the next: the end of the line after the last of a row.
    fn gap(&mut self, last: bool) -> Option<()> {
        if last {
            self.word(b"\n")
        } else {
            self.spaces()
        }
    }

    fn line(&self, at: usize) -> u64 {
        1 + self.text[..at].iter().filter(|byte| **byte == b'\n').count() as u64
    }
}

/// "ncols, nrows, xllcorner, yllcorner, cellsize, NODATA_value": `from` is where the line that is read begins.
fn header(cursor: &mut Cursor, from: &mut usize) -> Option<Grid> {
    let columns = cursor.head("ncols", |cursor| cursor.amount(Scale::Whole))?;
    *from = cursor.at;
    let rows = cursor.head("nrows", |cursor| cursor.amount(Scale::Whole))?;
    *from = cursor.at;
    cursor.corner("xllcorner")?;
    *from = cursor.at;
    cursor.corner("yllcorner")?;
    *from = cursor.at;
    let side = cursor.head("cellsize", |cursor| cursor.amount(Scale::Whole))?;
    *from = cursor.at;
    cursor.head("NODATA_value", |cursor| cursor.word(NO_DATA))?;
    *from = cursor.at;
    Some(Grid { rows, columns, side, squares: Vec::new() })
}

/// "Then rows from the north", and nothing after them.
fn rows(cursor: &mut Cursor, from: &mut usize, scale: Scale, grid: &mut Grid) -> Option<()> {
    let columns = grid.columns as u64;
    for square in 0..grid.rows as u64 * columns {
        let found = cursor.square(scale)?;
        cursor.gap((square + 1) % columns == 0)?;
        grid.squares.push(found);
        *from = cursor.at;
    }
    (cursor.at == cursor.text.len()).then_some(())
}

/// The grid of a text; where it cannot be read, 12 with the line of what cannot.
fn grid(text: &[u8], scale: Scale) -> Result<Grid, Refusal> {
    let (mut cursor, mut from) = (Cursor { text, at: 0 }, 0);
    let found = header(&mut cursor, &mut from).and_then(|mut grid| rows(&mut cursor, &mut from, scale, &mut grid).map(|()| grid));
    found.ok_or_else(|| Refusal { number: 12, line: cursor.line(from) })
}

// ---------------------------------------------------------------- A note as it is read

/// "A note (the sheet, each `cell` line ended after its mark)": the grid's numbers, the run's, the marks, and the two tables.
struct Note {
    grid: Vec<u32>,
    run: Vec<u32>,
    marks: Vec<u8>,
    rain: Vec<u32>,
    inflow: Vec<u32>,
}

const MARKS: [(u8, char); 3] = [(CLOSED, 'x'), (OPEN, 'o'), (EXIT, 'e')];

/// A square's line in a note.
fn mark_line(row: u64, column: u64, letter: char) -> String {
    format!("cell\t{}\t{}\t{}", row, column, letter)
}

fn mark(line: &[u8], row: u64, column: u64) -> Option<u8> {
    MARKS.iter().find(|(_, letter)| line == mark_line(row, column, *letter).as_bytes()).map(|(mark, _)| *mark)
}

fn note(text: &[u8]) -> Result<Note, Refusal> {
    let (lines, unended) = reference::lines(text);
    let bad = |line: usize| Refusal { number: 12, line: line as u64 + 1 };
    let grid = lines.first().and_then(|line| reference::word_and_numbers(line, "grid", 3)).ok_or(bad(0))?;
    let run = lines.get(1).and_then(|line| reference::word_and_numbers(line, "run", 7)).ok_or(bad(1))?;
    let mut note = Note { grid, run, marks: Vec::new(), rain: Vec::new(), inflow: Vec::new() };
    let mut at = 2;
    let (rows, columns) = (note.grid[0] as u64, note.grid[1] as u64);
    for square in 0..rows * columns {
        let found = lines.get(at).and_then(|line| mark(line, square / columns, square % columns)).ok_or(bad(at))?;
        note.marks.push(found);
        at += 1;
    }
    for (word, width, table) in [("rain", 3, &mut note.rain), ("inflow", 5, &mut note.inflow)] {
        while let Some(row) = lines.get(at).and_then(|line| reference::word_and_numbers(line, word, width)) {
            table.extend(row);
            at += 1;
        }
    }
    if at < lines.len() || unended {
        return Err(bad(at));
    }
    Ok(note)
}

// ---------------------------------------------------------------- A set moved back

/// "Files that disagree in shape, cellsize or closed squares, the note's marks among them".
fn disagrees(note: &Note, grid: &Grid) -> bool {
    let shape = [grid.rows, grid.columns, grid.side] != note.grid[..];
    shape || grid.squares.iter().zip(&note.marks).any(|(square, mark)| square.is_none() != (*mark == CLOSED))
}

fn numbers(grid: &Grid) -> Vec<u32> {
    grid.squares.iter().map(|square| square.unwrap_or(0)).collect()
}

/// The meadow, rules and end that a set says; its files agree.
fn said(note: Note, grids: &[Grid]) -> (Meadow, Rules, u64) {
    let run = &note.run;
    let rules = Rules {
        square_side: note.grid[2] as u64,
        tolerance: run[0] as u64,
        shortest: run[1] as u64,
        longest: run[2] as u64,
        update: run[3] as u64,
        edge: run[5] as u64,
        edition: run[6] as u64,
    };
    let end = run[4] as u64;
    let mut meadow = Meadow {
        rows: note.grid[0] as usize,
        columns: note.grid[1] as usize,
        beds: numbers(&grids[0]),
        depths: numbers(&grids[1]),
        roughness: numbers(&grids[2]),
        rates: numbers(&grids[3]),
        lasts: vec![0; note.marks.len()],
        marks: note.marks,
        rain: note.rain,
        inflow: note.inflow,
        records: Vec::new(),
    };
    meadow.records = vec![0; meadow.record_size()];
    (meadow, rules, end)
}

/// A table's lines, each with so many numbers after its word.
fn table_text(word: &str, width: usize, table: &[u32]) -> String {
    let numbers = |row: &[u32]| row.iter().map(|number| format!("\t{}", number)).collect::<String>();
    table.chunks(width).map(|row| format!("{}{}\n", word, numbers(row))).collect()
}

/// A sheet's text, with what follows the mark in each square's line.
fn text_of(meadow: &Meadow, rules: &Rules, end: u64, after_mark: impl Fn(usize) -> String) -> Vec<u8> {
    let mut text = format!("grid\t{}\t{}\t{}\n", meadow.rows, meadow.columns, rules.square_side);
    let steps = [rules.tolerance, rules.shortest, rules.longest, rules.update, end, rules.edge, rules.edition];
    text += &format!("run{}\n", steps.iter().map(|number| format!("\t{}", number)).collect::<String>());
    for square in 0..meadow.squares() {
        let (row, column) = ((square / meadow.columns) as u64, (square % meadow.columns) as u64);
        text += &mark_line(row, column, MARKS[meadow.marks[square] as usize].1);
        text += &format!("{}\n", after_mark(square));
    }
    text += &table_text("rain", 3, &meadow.rain);
    text += &table_text("inflow", 5, &meadow.inflow);
    text.into_bytes()
}

/// "And moved back": the length of each file, all text, 14, "then 1 to 5 as for a sheet".
pub fn from_survey(files: &[Vec<u8>; 5]) -> Result<Vec<u8>, Refusal> {
    if files.iter().any(|file| file.len() > MOST_FILE) {
        return Err(Refusal { number: 12, line: 0 });
    }
    let note = note(&files[0])?;
    let grids = files[1..].iter().zip(SCALES).map(|(file, scale)| grid(file, scale)).collect::<Result<Vec<Grid>, Refusal>>()?;
    let refused = |number: u32| Refusal { number, line: 0 };
    if grids.iter().any(|grid| disagrees(&note, grid)) {
        return Err(refused(14));
    }
    let (meadow, rules, end) = said(note, &grids);
    let fresh = Run { clock: 0, length: 1, outflow: 0, kept: 0, newest: 0, soaked: 0 };
    reference::check(&meadow, &rules, &fresh, Some(end)).map_err(refused)?;
    Ok(text_of(&meadow, &rules, end, |square| match meadow.marks[square] {
        CLOSED => String::new(),
        _ => format!("\t{}\t{}\t{}\t{}", meadow.beds[square], meadow.roughness[square], meadow.depths[square], meadow.rates[square]),
    }))
}

// ---------------------------------------------------------------- A sheet moved to a set

fn amount_text(scale: Scale, number: u32) -> String {
    match scale {
        Scale::Metres => format!("{}.{:06}", number / 1_000_000, number % 1_000_000),
        Scale::Whole => number.to_string(),
    }
}

fn grid_text(meadow: &Meadow, heading: &Heading, scale: Scale, numbers: &[u32]) -> Vec<u8> {
    let mut text = format!("ncols {}\nnrows {}\nxllcorner 0\nyllcorner 0\n", meadow.columns, meadow.rows);
    text += &format!("cellsize {}\nNODATA_value -9999\n", heading.rules.square_side);
    for (square, number) in numbers.iter().enumerate() {
        let closed = meadow.marks[square] == CLOSED;
        text += &if closed { "-9999".to_string() } else { amount_text(scale, *number) };
        text += if (square + 1) % meadow.columns == 0 { "\n" } else { " " };
    }
    text.into_bytes()
}

/// "Our sheets moved to a set": every sheet that reads well, up to 64 by 64.
pub fn to_survey(sheet: &[u8]) -> Result<[Vec<u8>; 5], Refusal> {
    let (meadow, heading) = reference::read_within(sheet, MOST_FILE, MOST_SQUARES)?;
    let [bed, depth, roughness, rate] = SCALES;
    Ok([
        text_of(&meadow, &heading.rules, heading.end, |_| String::new()),
        grid_text(&meadow, &heading, bed, &meadow.beds),
        grid_text(&meadow, &heading, depth, &meadow.depths),
        grid_text(&meadow, &heading, roughness, &meadow.roughness),
        grid_text(&meadow, &heading, rate, &meadow.rates),
    ])
}
