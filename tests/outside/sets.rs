//! The survey office's sets by document 02 written anew in Rust. Each word is a note (`.note`), with its grids beside it (`.bed`, `.depth`,
//! `.roughness`, `.rate`) and the sheet or the refusal that comes back of the five (`.back`); or a sheet (`.sheet`), with the five files that it is
//! moved to, or its refusal (`.refused`).

// the sets use a part of it
#[allow(dead_code)]
mod reference;
mod survey;

use std::fs::read;
use std::process::exit;

fn bytes(path: &str) -> Vec<u8> {
    read(path).unwrap_or_else(|fault| {
        eprintln!("sets: {}: {}", path, fault);
        exit(2);
    })
}

/// What document 02 gives of a word's file, each text with the name of the file that holds it.
fn worked(path: &str) -> Vec<(String, Vec<u8>)> {
    let (name, kind) = path.rsplit_once('.').unwrap_or((path, ""));
    let refused = |refusal| reference::refused_line(&refusal);
    if kind == "note" {
        let files = survey::FILES.map(|part| bytes(&format!("{}.{}", name, part)));
        return vec![(format!("{}.back", name), survey::from_survey(&files).unwrap_or_else(refused))];
    }
    match survey::to_survey(&bytes(path)) {
        Ok(files) => survey::FILES.iter().zip(files).map(|(part, text)| (format!("{}.{}", name, part), text)).collect(),
        Err(refusal) => vec![(format!("{}.refused", name), refused(refusal))],
    }
}

fn main() {
    let (mut moved, mut wrong) = (0, 0);
    for path in std::env::args().skip(1) {
        for (file, text) in worked(&path) {
            if read(&file).ok().as_ref() != Some(&text) {
                println!("sets: {}: document 02 in Rust gives {}", file, String::from_utf8_lossy(&text[..text.len().min(600)]));
                wrong += 1;
            }
        }
        moved += 1;
    }
    if wrong > 0 || moved == 0 {
        println!("sets: {} texts of {} moves differ", wrong, moved);
        exit(1);
    }
    println!("outside: {} sets and sheets moved, no difference", moved);
}
