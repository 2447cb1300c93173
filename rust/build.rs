//! Says where libflood.a lies: in the folder that FLOOD_LIB names, else in lib/ beside this crate, as in a release.

use std::env;
use std::path::PathBuf;

fn main() {
    println!("cargo:rerun-if-env-changed=FLOOD_LIB");
    let beside = || PathBuf::from(env::var("CARGO_MANIFEST_DIR").expect("cargo says where the crate is")).join("../lib");
    let folder = env::var("FLOOD_LIB").map(PathBuf::from).unwrap_or_else(|_| beside());
    let library = folder.join("libflood.a");
    println!("cargo:rerun-if-changed={}", library.display());
    if !library.exists() {
        panic!("there is no {}: set FLOOD_LIB to the folder that has libflood.a", library.display());
    }
    println!("cargo:rustc-link-search=native={}", folder.display());
    println!("cargo:rustc-link-lib=static=flood");
}
