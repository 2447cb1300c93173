//! Sheets written from random meadows, and the ways in which a sheet's text can be damaged.

use crate::calls::{LentSheet, Text};
use crate::chance::Chance;
use crate::meadows::{self, Lent};
use crate::reference::{Meadow, Rules, CLOSED, EXIT, INFLOW_ROOM, OPEN, RAIN_ROOM};

pub fn written(meadow: &Meadow, rules: &Rules, end: u64) -> Vec<u8> {
    let mut text = format!("grid\t{}\t{}\t{}\n", meadow.rows, meadow.columns, rules.square_side);
    let run = [rules.tolerance, rules.shortest, rules.longest, rules.update, end, rules.edge, rules.edition];
    text += &format!("run\t{}\n", run.map(|number| number.to_string()).join("\t"));
    for square in 0..meadow.squares() {
        text += &format!("cell\t{}\t{}\t", square / meadow.columns, square % meadow.columns);
        if meadow.marks[square] == CLOSED {
            text += "x\n";
            continue;
        }
        let mark = if meadow.marks[square] == OPEN { "o" } else { "e" };
        let numbers = [meadow.beds[square], meadow.roughness[square], meadow.depths[square], meadow.rates[square]];
        text += &format!("{}\t{}\n", mark, numbers.map(|number| number.to_string()).join("\t"));
    }
    for row in meadow.rain.chunks(3) {
        text += &format!("rain\t{}\t{}\t{}\n", row[0], row[1], row[2]);
    }
    for row in meadow.inflow.chunks(5) {
        text += &format!("inflow\t{}\t{}\t{}\t{}\t{}\n", row[0], row[1], row[2], row[3], row[4]);
    }
    text.into_bytes()
}

/// A good sheet, with a run of some forty steps from clock 0.
pub fn good(chance: &mut Chance, shape: (usize, usize)) -> Vec<u8> {
    let mut lent: Lent = meadows::lent(chance, shape);
    lent.run.clock = 0;
    meadows::tables(chance, &mut lent.meadow, 0);
    let end = meadows::end(chance, &lent.run, &lent.rules);
    written(&lent.meadow, &lent.rules, end)
}

/// Closed squares round one that a hatch fills past the limit: the run is refused.
pub fn overfull(chance: &mut Chance) -> Vec<u8> {
    let mut meadow = meadows::meadow(chance, (3, 3), 1);
    meadow.marks = vec![CLOSED; 9];
    meadow.marks[4] = OPEN;
    meadow.beds[4] = 0;
    meadow.roughness[4] = 100;
    meadow.rates[4] = chance.pick(&[0, 1_000_000]);
    meadow.depths[4] = chance.between(0, 100_000_000) as u32;
    meadow.inflow = vec![1, 1, 0, 604_800_000, 100_000];
    let rules = Rules { square_side: 1, tolerance: 0, shortest: 250, longest: 250, update: 1_000, edge: 10_000, edition: 1 };
    written(&meadow, &rules, 1_000 * chance.between(1, 2))
}

/// A row of exits, each filled to nearly the deepest depth in every step; by edition 2 all of it leaves in the next. After some 156,000 steps
/// more water has left than can be counted. By edition 1 an exit lets out 1 m through a side in a step, and it would take millions.
pub fn endless() -> Vec<u8> {
    let mut meadow = Meadow {
        rows: 1,
        columns: 64,
        marks: vec![EXIT; 64],
        beds: vec![0; 64],
        roughness: vec![1; 64],
        rates: vec![0; 64],
        depths: vec![0; 64],
        ..Meadow::default()
    };
    for column in 0..64 {
        meadow.inflow.extend([0, column, 0, 604_800_000, 99_999]);
    }
    let rules = Rules { square_side: 1, tolerance: 10_000, shortest: 1_000, longest: 1_000, update: 3_600_000, edge: 10_000, edition: 2 };
    written(&meadow, &rules, 604_800_000)
}

/// Rooms filled with junk, mostly larger than `squares` need, and now and then one too small.
pub fn rooms(chance: &mut Chance, squares: usize) -> Meadow {
    let small = if chance.one_in(12) { chance.index(7) } else { 7 };
    let mut room = |which: usize, size: usize| -> Vec<u32> {
        let size = if which == small { size.saturating_sub(1 + chance.index(3)) } else { size + chance.index(9) };
        (0..size).map(|_| chance.word() as u32).collect()
    };
    Meadow {
        marks: room(0, squares).into_iter().map(|junk| junk as u8).collect(),
        beds: room(1, squares),
        roughness: room(2, squares),
        depths: room(3, squares),
        rain: room(4, RAIN_ROOM),
        inflow: room(5, INFLOW_ROOM),
        rates: room(6, squares),
        ..Meadow::default()
    }
}

pub fn lent(chance: &mut Chance, text: Vec<u8>, squares: usize) -> LentSheet {
    let wrong = |chance: &mut Chance| if chance.one_in(60) { chance.pick(&[-12, -1, 1, 3]) } else { 0 };
    LentSheet { rooms: rooms(chance, squares), heading: wrong(chance), line: wrong(chance), text: Text(text) }
}

// ---------------------------------------------------------------- damage

type Damage = fn(&mut Chance, &mut Vec<u8>);

pub const DAMAGES: [(&str, Damage); 24] = [
    ("none", |_, _| ()),
    ("a byte changed", changed_byte),
    ("a byte's bit changed", changed_bit),
    ("a byte put in", put_in_byte),
    ("a byte taken out", taken_out_byte),
    ("cut off", |chance, text| text.truncate(chance.index(text.len() + 1))),
    ("last newline missing", |_, text| text.truncate(text.len().saturating_sub(1))),
    ("empty", |_, text| text.clear()),
    ("needless zero", needless_zero),
    ("no number", no_number),
    ("field missing", |chance, text| in_fields(chance, text, |chance, fields| drop(fields.remove(chance.index(fields.len()))))),
    ("field too many", field_too_many),
    ("two tabs or a space", other_parting),
    ("carriage return", carriage_return),
    ("blank line", |chance, text| in_lines(chance, text, |chance, lines| lines.insert(chance.index(lines.len() + 1), Vec::new()))),
    ("line missing", |chance, text| in_lines(chance, text, |chance, lines| drop(lines.remove(chance.index(lines.len()))))),
    ("line twice", line_twice),
    ("lines exchanged", lines_exchanged),
    ("upper case", upper_case),
    ("another mark", another_mark),
    ("rain lines", |chance, text| more_lines(chance, text, "rain\t0\t1000\t7", false)),
    ("inflow lines", |chance, text| more_lines(chance, text, "inflow\t0\t0\t0\t1000\t7", true)),
    ("another grid", another_grid),
    ("above 65,536 bytes", too_long),
];

fn in_lines(chance: &mut Chance, text: &mut Vec<u8>, change: impl Fn(&mut Chance, &mut Vec<Vec<u8>>)) {
    let mut lines: Vec<Vec<u8>> = text.split(|byte| *byte == b'\n').map(|line| line.to_vec()).collect();
    let rest = lines.pop().unwrap_or_default();
    if lines.is_empty() {
        return;
    }
    change(chance, &mut lines);
    text.clear();
    for line in lines {
        text.extend(line);
        text.push(b'\n');
    }
    text.extend(rest);
}

/// A change of the fields of one line; the first two lines and the last come as often as all others.
fn in_fields(chance: &mut Chance, text: &mut Vec<u8>, change: impl Fn(&mut Chance, &mut Vec<Vec<u8>>)) {
    in_lines(chance, text, |chance, lines| {
        let last = lines.len() - 1;
        let at = if chance.one_in(2) { chance.index(last + 1) } else { chance.pick(&[0, 1, last]).min(last) };
        let mut fields: Vec<Vec<u8>> = lines[at].split(|byte| *byte == b'\t').map(|field| field.to_vec()).collect();
        change(chance, &mut fields);
        lines[at] = fields.join(&b'\t');
    });
}

fn changed_byte(chance: &mut Chance, text: &mut Vec<u8>) {
    if !text.is_empty() {
        let at = chance.index(text.len());
        text[at] = if chance.one_in(2) { chance.word() as u8 } else { chance.pick(b"0123456789\t\n xoecrgin") };
    }
}

fn changed_bit(chance: &mut Chance, text: &mut Vec<u8>) {
    if !text.is_empty() {
        let at = chance.index(text.len());
        text[at] ^= 1 << chance.below(8);
    }
}

fn put_in_byte(chance: &mut Chance, text: &mut Vec<u8>) {
    let at = chance.index(text.len() + 1);
    text.insert(at, chance.pick(b"0123456789\t\n\r xoe-+.\0"));
}

fn taken_out_byte(chance: &mut Chance, text: &mut Vec<u8>) {
    if !text.is_empty() {
        text.remove(chance.index(text.len()));
    }
}

fn needless_zero(chance: &mut Chance, text: &mut Vec<u8>) {
    in_fields(chance, text, |chance, fields| {
        let at = chance.index(fields.len());
        fields[at].insert(0, b'0');
    });
}

/// The ranges of the numbers of each kind of line, by the place of the field; a cell's place is no range but the one it must have.
const RANGES: [(&str, &[(usize, u64, u64)]); 5] = [
    ("grid", &[(1, 1, 64), (2, 1, 64), (3, 1, 100)]),
    ("run", &[(1, 0, 10_000), (2, 1, 60_000), (3, 1, 60_000), (4, 1, 3_600_000), (5, 0, 604_800_000), (6, 0, 10_000), (7, 1, 3)]),
    ("cell", &[(1, 0, 0), (2, 0, 0), (4, 0, 1_000_000_000), (5, 1, 10_000), (6, 0, 100_000_000), (7, 0, 1_000_000)]),
    ("rain", &[(1, 0, 604_800_000), (2, 0, 604_800_000), (3, 0, 1_000_000)]),
    ("inflow", &[(1, 0, 63), (2, 0, 63), (3, 0, 604_800_000), (4, 0, 604_800_000), (5, 0, 100_000)]),
];

/// The same sheet with one number at a limit of its range, just past it, or at the largest that a sheet may have and one more: each
/// field of each kind of line in turn, on one line of that kind.
pub fn at_limits(chance: &mut Chance, text: &[u8]) -> Vec<Vec<u8>> {
    let lines: Vec<&[u8]> = text.split(|byte| *byte == b'\n').collect();
    let mut sheets = Vec::new();
    for (word, ranges) in RANGES {
        let of_kind: Vec<usize> = (0..lines.len()).filter(|at| lines[*at].starts_with(word.as_bytes())).collect();
        if of_kind.is_empty() {
            continue;
        }
        let at = chance.pick(&of_kind);
        for (place, least, most) in ranges.iter().cloned() {
            for value in [least.saturating_sub(1), least, most, most + 1, 4_294_967_295, 4_294_967_296] {
                let mut fields: Vec<Vec<u8>> = lines[at].split(|byte| *byte == b'\t').map(|field| field.to_vec()).collect();
                if let Some(field) = fields.get_mut(place) {
                    *field = value.to_string().into_bytes();
                }
                let mut changed: Vec<Vec<u8>> = lines.iter().map(|line| line.to_vec()).collect();
                changed[at] = fields.join(&b'\t');
                sheets.push(changed.join(&b'\n'));
            }
        }
    }
    sheets
}

fn no_number(chance: &mut Chance, text: &mut Vec<u8>) {
    const NUMBERS: [&str; 12] = [
        "",
        "+1",
        "-1",
        "1.0",
        "1e3",
        "0x1",
        "00",
        "4294967296",
        "18446744073709551616",
        "340282366920938463463374607431768211457",
        "1 ",
        "o",
    ];
    in_fields(chance, text, |chance, fields| {
        let at = chance.index(fields.len());
        fields[at] = chance.pick(&NUMBERS).as_bytes().to_vec();
    });
}

fn field_too_many(chance: &mut Chance, text: &mut Vec<u8>) {
    in_fields(chance, text, |chance, fields| {
        let at = chance.index(fields.len() + 1);
        let field = chance.pick(&["", "0", "1", "x"]).as_bytes().to_vec();
        fields.insert(at, field);
    });
}

fn other_parting(chance: &mut Chance, text: &mut Vec<u8>) {
    let tabs: Vec<usize> = (0..text.len()).filter(|at| text[*at] == b'\t').collect();
    if tabs.is_empty() {
        return;
    }
    let at = chance.pick(&tabs);
    match chance.below(3) {
        0 => text.insert(at, b'\t'),
        1 => text[at] = b' ',
        _ => text.insert(at, b' '),
    }
}

fn carriage_return(chance: &mut Chance, text: &mut Vec<u8>) {
    in_lines(chance, text, |chance, lines| {
        if chance.one_in(2) {
            let at = chance.index(lines.len());
            lines[at].push(b'\r');
        } else {
            lines.iter_mut().for_each(|line| line.push(b'\r'));
        }
    });
}

fn line_twice(chance: &mut Chance, text: &mut Vec<u8>) {
    in_lines(chance, text, |chance, lines| {
        let line = lines[chance.index(lines.len())].clone();
        lines.insert(chance.index(lines.len() + 1), line);
    });
}

fn lines_exchanged(chance: &mut Chance, text: &mut Vec<u8>) {
    in_lines(chance, text, |chance, lines| {
        let (one, other) = (chance.index(lines.len()), chance.index(lines.len()));
        lines.swap(one, other);
    });
}

fn upper_case(chance: &mut Chance, text: &mut Vec<u8>) {
    in_fields(chance, text, |chance, fields| {
        let at = if chance.one_in(2) { 0 } else { chance.index(fields.len()) };
        fields[at].make_ascii_uppercase();
    });
}

/// A cell's mark changed and its other fields left, or as many as the new mark asks.
fn another_mark(chance: &mut Chance, text: &mut Vec<u8>) {
    in_lines(chance, text, |chance, lines| {
        let cells: Vec<usize> = (0..lines.len()).filter(|at| lines[*at].starts_with(b"cell")).collect();
        if cells.is_empty() {
            return;
        }
        let at = chance.pick(&cells);
        let mut fields: Vec<Vec<u8>> = lines[at].split(|byte| *byte == b'\t').map(|field| field.to_vec()).collect();
        if fields.len() < 4 {
            return;
        }
        fields[3] = chance.pick(&["x", "x", "o", "e", "O", "?", "", "xo"]).as_bytes().to_vec();
        if chance.one_in(4) {
            fields.truncate(4);
        }
        lines[at] = fields.join(&b'\t');
    });
}

/// 63 to 67 lines of one kind in all, at their place in the order.
fn more_lines(chance: &mut Chance, text: &mut Vec<u8>, line: &str, at_end: bool) {
    in_lines(chance, text, |chance, lines| {
        let word = line.split('\t').next().unwrap().as_bytes();
        lines.retain(|line| !line.starts_with(word));
        let place = if at_end { lines.len() } else { lines.iter().position(|line| line.starts_with(b"inflow")).unwrap_or(lines.len()) };
        for _ in 0..chance.between(63, 67) {
            lines.insert(place, line.as_bytes().to_vec());
        }
    });
}

fn another_grid(chance: &mut Chance, text: &mut Vec<u8>) {
    in_lines(chance, text, |chance, lines| {
        let mut size = || chance.pick(&[0, 1, 2, 16, 17, 32, 33, 64, 65, 1_000, 4_294_967_295u64]);
        let (rows, columns) = (size(), size());
        lines[0] = format!("grid\t{}\t{}\t{}", rows, columns, chance.pick(&[0, 1, 100, 101])).into_bytes();
    });
}

/// 65,535 to 65,538 bytes, by lines of rain, by one long line or by zeros at the end.
fn too_long(chance: &mut Chance, text: &mut Vec<u8>) {
    let size = 65_535 + chance.index(4);
    let way = chance.below(3);
    while text.len() < size {
        match way {
            0 => text.extend(b"rain\t0\t1\t1\n"),
            1 => text.push(b'7'),
            _ => text.push(0),
        }
    }
    text.truncate(size);
    if chance.one_in(2) {
        text.pop();
        text.push(b'\n');
    }
}
