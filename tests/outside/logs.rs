//! Hatch logs by document 02 written anew in Rust: each word is a log, with its sheet beside it (`.sheet` for `.log`) and what `hatchlog` prints
//! of the two (`.log.out`).

mod evening;
// the logs use a part of it
#[allow(dead_code)]
mod reference;

use std::fs::read;
use std::process::exit;

fn bytes(path: &str) -> Vec<u8> {
    read(path).unwrap_or_else(|fault| {
        eprintln!("logs: {}: {}", path, fault);
        exit(2);
    })
}

fn main() {
    let (mut logs, mut wrong) = (0, 0);
    for path in std::env::args().skip(1) {
        let sheet = format!("{}.sheet", path.strip_suffix(".log").unwrap_or(&path));
        let told = evening::hatchlog(&bytes(&sheet), &bytes(&path));
        if told != bytes(&format!("{}.out", path)) {
            println!("logs: {}: document 02 in Rust gives {}", path, String::from_utf8_lossy(&told));
            wrong += 1;
        }
        logs += 1;
    }
    if wrong > 0 || logs == 0 {
        println!("logs: {} of {} differ", wrong, logs);
        exit(1);
    }
    println!("outside: {} hatch logs, no difference", logs);
}
