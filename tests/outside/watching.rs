//! Document 02, #101, "Level boards on the wheel-house display", written anew over the steps of reference.rs. Every state of the run is kept, and
//! what a board shows is looked up in them at the end, in the document's own words.

use crate::reference::{self, Made, Meadow, Refusal, Rules, Run, CLOSED, MOST_TEXT};

const MOST_DEPTH: u32 = 100_000_000;
const MOST_BOARDS: usize = 16;

/// "Each has a square, a mark depth ..".
#[derive(Clone, Copy)]
pub struct Asked {
    pub row: usize,
    pub column: usize,
    pub mark: u32,
}

/// ".. the highest depth seen, and the clock when the mark was first reached, if it was."
#[derive(Clone, Copy)]
pub struct Shown {
    pub highest: u32,
    pub first: Option<u64>,
}

/// A run to an end with what its boards show.
pub struct Watched {
    pub made: Made,
    pub boards: Vec<Shown>,
}

/// "A board off the grid or on a closed square, or a mark depth above 100,000,000."
fn board_wrong(meadow: &Meadow, board: &Asked) -> bool {
    let off = board.row >= meadow.rows || board.column >= meadow.columns;
    off || meadow.marks[board.row * meadow.columns + board.column] == CLOSED || board.mark > MOST_DEPTH
}

/// "Over sixteen boards", or one that is wrong.
fn boards_wrong(meadow: &Meadow, boards: &[Asked]) -> bool {
    boards.len() > MOST_BOARDS || boards.iter().any(|board| board_wrong(meadow, board))
}

/// "Highest and first time are those over that run's starting state and every state after a step", each a clock and its depths.
fn shown(columns: usize, board: &Asked, states: &[(u64, Vec<u32>)]) -> Shown {
    let square = board.row * columns + board.column;
    let highest = states.iter().map(|(_, depths)| depths[square]).max().unwrap_or(0);
    let first = states.iter().find(|(_, depths)| depths[square] >= board.mark).map(|(clock, _)| *clock);
    Shown { highest, first }
}

/// "Refreshed after each step of a run to an end .. When a step is refused they hold what the states before it gave." 13 is "after 6 and before
/// any step".
pub fn run_to_boards(meadow: &mut Meadow, rules: &Rules, run: &Run, end: u64, boards: &[Asked]) -> Result<Watched, u32> {
    reference::check(meadow, rules, run, Some(end))?;
    if boards_wrong(meadow, boards) {
        return Err(13);
    }
    let mut made = Made { number: 0, steps: 0, run: *run };
    let mut states = vec![(run.clock, meadow.depths.clone())];
    while made.run.clock < end && made.number == 0 {
        match reference::step(meadow, rules, &made.run) {
            Ok(run) => {
                made = Made { number: 0, steps: made.steps + 1, run };
                states.push((run.clock, meadow.depths.clone()));
            }
            Err(number) => made.number = number,
        }
    }
    let boards = boards.iter().map(|board| shown(meadow.columns, board, &states)).collect();
    Ok(Watched { made, boards })
}

/// A board as a line of text has it: row, column and mark, as a sheet's numbers.
fn board(line: &[u8]) -> Option<Asked> {
    let numbers = line.split(|byte| *byte == b'\t').map(reference::number).collect::<Option<Vec<u32>>>()?;
    match numbers[..] {
        [row, column, mark] => Some(Asked { row: row as usize, column: column as usize, mark }),
        _ => None,
    }
}

/// The boards of a text, or 12 with the first line that is none or has no newline.
fn boards_in(text: &[u8]) -> Result<Vec<Asked>, Refusal> {
    let (lines, unended) = reference::lines(text);
    let mut boards = Vec::new();
    for line in &lines {
        boards.push(board(line).ok_or(Refusal { number: 12, line: boards.len() as u64 + 1 })?);
    }
    if unended {
        return Err(Refusal { number: 12, line: lines.len() as u64 + 1 });
    }
    Ok(boards)
}

/// Both texts whole, the sheet, the boards' text, 13, and a run that comes to its end: the boards as asked with what they show.
fn ran(sheet: &[u8], boards: &[u8]) -> Result<(Vec<Asked>, Watched), Refusal> {
    let refused = |number: u32| Refusal { number, line: 0 };
    if sheet.len() > MOST_TEXT || boards.len() > MOST_TEXT {
        return Err(refused(12));
    }
    let (mut meadow, heading) = reference::within_limits(sheet)?;
    let asked = boards_in(boards)?;
    let run = reference::fresh(&mut meadow, &heading.rules).map_err(refused)?;
    let watched = run_to_boards(&mut meadow, &heading.rules, &run, heading.end, &asked).map_err(refused)?;
    match watched.made.number {
        0 => Ok((asked, watched)),
        number => Err(refused(number)),
    }
}

/// The program `boards`: the texts of a sheet and of boards in, what is printed out.
pub fn boards(sheet: &[u8], boards: &[u8]) -> Vec<u8> {
    let (asked, watched) = match ran(sheet, boards) {
        Ok(found) => found,
        Err(refusal) => return reference::refused_line(&refusal),
    };
    let mut told = String::new();
    for (board, shown) in asked.iter().zip(&watched.boards) {
        let first = shown.first.map_or("-".to_string(), |clock| clock.to_string());
        told += &format!("board\t{}\t{}\t{}\t{}\t{}\n", board.row, board.column, board.mark, shown.highest, first);
    }
    told += &format!("steps\t{}\nclock\t{}\n", watched.made.steps, watched.made.run.clock);
    told.into_bytes()
}
