//! Lists of sheets, and single sheets with their heights, by document 02 written anew in Rust. Each word is a list (`.list`), with what `drowned`
//! prints of it (`.list.out`) beside it and its sheets by their names in this folder; or a sheet, with what `highest` prints of it (`.highest`).

// the lists use a part of it
#[allow(dead_code)]
mod reference;
mod winter;

use std::fs::read;
use std::process::exit;
use std::str::from_utf8;

fn bytes(path: &str) -> Vec<u8> {
    read(path).unwrap_or_else(|fault| {
        eprintln!("lists: {}: {}", path, fault);
        exit(2);
    })
}

/// What document 02 gives of a file, and what is stored beside it.
fn worked_and_stored(path: &str) -> (Vec<u8>, Vec<u8>) {
    match path.strip_suffix(".sheet") {
        Some(name) => (winter::highest(&bytes(path)), bytes(&format!("{}.highest", name))),
        // a name that is not UTF-8 opens nothing
        None => (winter::drowned(&bytes(path), |name| from_utf8(name).ok().and_then(|text| read(text).ok())), bytes(&format!("{}.out", path))),
    }
}

fn main() {
    let (mut files, mut wrong) = (0, 0);
    for path in std::env::args().skip(1) {
        let (worked, stored) = worked_and_stored(&path);
        if worked != stored {
            println!("lists: {}: document 02 in Rust gives {}", path, String::from_utf8_lossy(&worked));
            wrong += 1;
        }
        files += 1;
    }
    if wrong > 0 || files == 0 {
        println!("lists: {} of {} differ", wrong, files);
        exit(1);
    }
    println!("outside: {} lists and heights, no difference", files);
}
