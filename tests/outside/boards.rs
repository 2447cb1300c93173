//! Level boards by document 02 written anew in Rust: each word is a boards' text (`.boards`), with its sheet beside it (`.sheet`) and what `boards`
//! prints of the two (`.boards.out`).

// the boards use a part of it
#[allow(dead_code)]
mod reference;
mod watching;

use std::fs::read;
use std::process::exit;

fn bytes(path: &str) -> Vec<u8> {
    read(path).unwrap_or_else(|fault| {
        eprintln!("boards: {}: {}", path, fault);
        exit(2);
    })
}

fn main() {
    let (mut texts, mut wrong) = (0, 0);
    for path in std::env::args().skip(1) {
        let sheet = format!("{}.sheet", path.strip_suffix(".boards").unwrap_or(&path));
        let told = watching::boards(&bytes(&sheet), &bytes(&path));
        if told != bytes(&format!("{}.out", path)) {
            println!("boards: {}: document 02 in Rust gives {}", path, String::from_utf8_lossy(&told));
            wrong += 1;
        }
        texts += 1;
    }
    if wrong > 0 || texts == 0 {
        println!("boards: {} of {} differ", wrong, texts);
        exit(1);
    }
    println!("outside: {} boards' texts, no difference", texts);
}
