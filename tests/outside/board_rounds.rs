//! Runs with boards (#101), worked by hand, and rounds of them: marks that a state just has or just has not, runs that end, that are refused on
//! their way or by 13, and boards that are lent full of anything.

use crate::calls::{After, Call, Tally};
use crate::chance::Chance;
use flood::declared_boards::{Board, MOST_BOARDS, REFUSED_BOARD};
use crate::meadows::{self, Lent, MOST_DEPTH};
use crate::reference::{self, CLOSED, OPEN};
use crate::steps::at_brim;
use crate::worked::{flat, go_on, hold};

// ---------------------------------------------------------------- worked by hand

/// A board lent with numbers that no run gives.
fn board(column: usize, mark: u32) -> Board {
    Board { row: 0, column, mark, highest: 4_000_000_000, reached: true, first: 77 }
}

/// What a board shows: the highest depth, and the clock when its mark was first reached.
fn shows(board: &Board, highest: u32, first: Option<u64>) -> bool {
    (board.highest, board.reached, board.first) == (highest, first.is_some(), first.unwrap_or(0))
}

/// A call with boards on the sheet of document 01, whose east square has 0, 31 and 59, to an end.
fn two_squares(boards: Vec<Board>, end: u64) -> Lent {
    let mut lent = flat(vec![OPEN; 2], vec![1_000, 0]);
    lent.boards = boards;
    lent.end = end;
    lent
}

fn first_reached(tally: &mut Tally) {
    const EAST: [(u32, Option<u64>); 7] =
        [(0, Some(0)), (1, Some(1_000)), (31, Some(1_000)), (32, Some(2_000)), (59, Some(2_000)), (60, None), (100_000_000, None)];
    let lent = two_squares(EAST.iter().map(|(mark, _)| board(1, *mark)).collect(), 2_000);
    let ran = tally.call(Call::RunToBoards, &lent);
    for (seen, (mark, first)) in ran.boards.iter().zip(EAST) {
        hold("a mark in the east", shows(seen, 59, first) && (seen.row, seen.column, seen.mark) == (0, 1, mark));
    }
    hold("the run with boards", ran.number == 0 && ran.answer == [2] && ran.run[0] == 2_000 && ran.meadow.depths == [941, 59]);
    let ran = tally.call(Call::RunToBoards, &two_squares(vec![board(0, 1_000), board(0, 1_001), board(0, 1_000)], 2_000));
    let falling = [Some(0), None, Some(0)];
    hold("marks in the west, which falls from the start", ran.boards.iter().zip(falling).all(|(seen, first)| shows(seen, 1_000, first)));
}

/// A run that goes on from another clock begins anew with the state that it starts from.
fn started_late(tally: &mut Tally) {
    let mut lent = two_squares(vec![board(1, 20), board(1, 59)], 1_000);
    let first = tally.call(Call::RunToBoards, &lent);
    hold("the first second", shows(&first.boards[0], 31, Some(1_000)) && shows(&first.boards[1], 31, None));
    go_on(&mut lent, &first);
    lent.boards = first.boards;
    lent.end = 2_000;
    let second = tally.call(Call::RunToBoards, &lent);
    hold("the second second", shows(&second.boards[0], 59, Some(1_000)) && shows(&second.boards[1], 59, Some(2_000)));
    lent.end = 0;
    let none = tally.call(Call::RunToBoards, &lent);
    hold("no step", none.answer == [0] && shows(&none.boards[0], 31, Some(1_000)) && shows(&none.boards[1], 31, None));
}

/// 1 l/s raises a square of 1 m² by 1,000 µm a second: the third second is too deep.
fn refused_later(tally: &mut Tally) {
    let mut lent = flat(vec![OPEN], vec![99_998_000]);
    lent.meadow.inflow = vec![0, 0, 0, 60_000, 1];
    lent.boards = vec![board(0, 99_999_000), board(0, 100_000_000), board(0, 0)];
    lent.end = 9_000;
    let ran = tally.call(Call::RunToBoards, &lent);
    hold("a run refused in its third step", ran.number == 8 && ran.answer == [2] && ran.meadow.depths == [100_000_000]);
    let firsts = [Some(1_000), Some(2_000), Some(0)];
    hold("what the states before gave", ran.boards.iter().zip(firsts).all(|(seen, first)| shows(seen, 100_000_000, first)));
}

fn as_lent(after: &After, lent: &Lent) -> bool {
    after.boards == lent.boards && after.meadow == lent.meadow && after.answer == [0xa5a5_a5a5_a5a5_a5a5]
}

/// Each board that is refused, in a list of good ones, and lists that are too long; and what comes before 13 and after it.
fn refused_boards(tally: &mut Tally) {
    let wrong = [Board { row: 1, ..board(0, 5) }, board(2, 5), board(1, 5), board(0, 100_000_001), Board { row: usize::MAX, ..board(usize::MAX, 5) }];
    for bad in wrong {
        for place in [0, 7, 15] {
            let mut lent = two_squares(vec![board(0, 5); 16], 1_000);
            lent.meadow.marks[1] = CLOSED;
            lent.boards[place] = bad;
            let refused = tally.call(Call::RunToBoards, &lent);
            hold("a board that is refused", refused.number == REFUSED_BOARD && as_lent(&refused, &lent));
        }
    }
    for (many, number) in [(0, 0), (1, 0), (MOST_BOARDS, 0), (MOST_BOARDS + 1, REFUSED_BOARD), (100, REFUSED_BOARD)] {
        for end in [0, 1_000] {
            hold("so many boards", tally.call(Call::RunToBoards, &two_squares(vec![board(1, 5); many], end)).number == number);
        }
    }
    let mut lent = two_squares(vec![board(9, 5)], 1_500);
    hold("5 before 13", tally.call(Call::RunToBoards, &lent).number == 5);
    lent.end = 1_000;
    lent.run.length = 0;
    hold("6 before 13", tally.call(Call::RunToBoards, &lent).number == 6);
    lent.run.length = 1_000;
    lent.meadow.depths = vec![100_000_000; 2];
    lent.meadow.inflow = vec![0, 0, 0, 60_000, 1];
    hold("13 before 8", tally.call(Call::RunToBoards, &lent).number == REFUSED_BOARD);
}

pub fn cases(tally: &mut Tally) {
    first_reached(tally);
    started_late(tally);
    refused_later(tally);
    refused_boards(tally);
}

// ---------------------------------------------------------------- rounds

/// The depths of a run's states, up to its end or a step that is refused.
fn states(lent: &Lent) -> Vec<Vec<u32>> {
    let (mut meadow, mut run) = (lent.meadow.clone(), lent.run);
    let mut states = vec![meadow.depths.clone()];
    while run.clock < lent.end {
        match reference::step(&mut meadow, &lent.rules, &run) {
            Ok(after) => run = after,
            Err(_) => break,
        }
        states.push(meadow.depths.clone());
    }
    states
}

/// A mark at a depth that a state has, one beside it, or any.
fn mark(chance: &mut Chance, depth: u32) -> u32 {
    let any = chance.amount(MOST_DEPTH) as u32;
    chance.pick(&[depth, depth, depth.saturating_add(1), depth.saturating_sub(1), 0, any]).min(MOST_DEPTH as u32)
}

/// So many boards on squares that are not closed, some on one square, full of anything that a call sets anew; none where all are closed.
pub fn on_open_squares(chance: &mut Chance, lent: &Lent, many: usize) -> Vec<Board> {
    let (open, states) = (lent.open_squares(), states(lent));
    if open.is_empty() {
        return Vec::new();
    }
    (0..many).map(|_| {
        let square = chance.pick(&open);
        let depth = states[chance.index(states.len())][square];
        let mark = mark(chance, depth);
        let (row, column) = (square / lent.meadow.columns, square % lent.meadow.columns);
        Board { row, column, mark, highest: chance.word() as u32, reached: chance.one_in(2), first: chance.word() }
    }).collect()
}

/// One board changed so that it may well be refused, or one more put in anywhere.
fn spoil(chance: &mut Chance, lent: &mut Lent) {
    let (row, column) = (chance.index(lent.meadow.rows + 2), chance.index(lent.meadow.columns + 2));
    let mark = chance.pick(&[5, MOST_DEPTH as u32, MOST_DEPTH as u32 + 1, u32::MAX]);
    let bad = Board { row, column, mark, highest: chance.word() as u32, reached: chance.one_in(2), first: chance.word() };
    let at = chance.index(lent.boards.len() + 1);
    if at < lent.boards.len() && chance.one_in(2) {
        lent.boards[at] = bad;
    } else {
        lent.boards.insert(at, bad);
    }
}

/// A run with boards, and the run that goes on from it with the same boards; then one of them may be wrong.
pub fn watched_runs(tally: &mut Tally, chance: &mut Chance) {
    for turn in 0..20 {
        let mut lent = if turn % 2 == 0 {
            at_brim(chance)
        } else {
            let shape = meadows::small_shape(chance);
            meadows::lent(chance, shape)
        };
        let many = chance.pick(&[0, 1, 2, 3, 8, 15, 16]);
        lent.boards = on_open_squares(chance, &lent, many);
        let ran = tally.call(Call::RunToBoards, &lent);
        if ran.number == 0 {
            go_on(&mut lent, &ran);
            lent.boards = ran.boards;
            lent.end = meadows::end(chance, &lent.run, &lent.rules);
            tally.call(Call::RunToBoards, &lent);
        }
        spoil(chance, &mut lent);
        tally.call(Call::RunToBoards, &lent);
    }
}
