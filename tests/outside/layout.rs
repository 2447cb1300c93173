//! Where the fields of a board lie that Rust programs lend, as tests/outside/display.c says it of C's: `layout`.

use flood::declared_boards::Board;
use std::mem::size_of;

fn main() {
    let board = Board { row: 0, column: 0, mark: 0, highest: 0, reached: false, first: 0 };
    let start = &board as *const Board as usize;
    let places = [
        ("row", &board.row as *const usize as usize),
        ("column", &board.column as *const usize as usize),
        ("mark", &board.mark as *const u32 as usize),
        ("highest", &board.highest as *const u32 as usize),
        ("reached", &board.reached as *const bool as usize),
        ("first", &board.first as *const u64 as usize),
    ];
    for (field, place) in places {
        println!("{} {}", field, place - start);
    }
    println!("whole {}", size_of::<Board>());
}
