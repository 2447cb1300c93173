//! Sheets with beds that the survey could not see, by document 02 written anew in Rust. Each word is a sheet (`.sheet`), with what `repair` prints
//! of it (`.repaired`) beside it.

mod holes;
// the holes use a part of it
#[allow(dead_code)]
mod reference;

use std::fs::read;
use std::process::exit;

fn bytes(path: &str) -> Vec<u8> {
    read(path).unwrap_or_else(|fault| {
        eprintln!("repairs: {}: {}", path, fault);
        exit(2);
    })
}

fn main() {
    let (mut sheets, mut wrong) = (0, 0);
    for path in std::env::args().skip(1) {
        let worked = holes::repair(&bytes(&path));
        if worked != bytes(&format!("{}.repaired", path.trim_end_matches(".sheet"))) {
            println!("repairs: {}: document 02 in Rust gives {}", path, String::from_utf8_lossy(&worked[..worked.len().min(600)]));
            wrong += 1;
        }
        sheets += 1;
    }
    if wrong > 0 || sheets == 0 {
        println!("repairs: {} of {} differ", wrong, sheets);
        exit(1);
    }
    println!("outside: {} sheets repaired, no difference", sheets);
}
