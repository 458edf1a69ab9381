//! Looks for the archive, refuses one without the newest call, and tells cargo
//! to link it.

use std::env;
use std::fs;
use std::path::{Path, PathBuf};

/// A call that archives have from 0.4.0 on. An older one lacks it, and one from
/// before 0.3.0 would read the arguments of the pass wrongly: it has no k.
const NEWEST: &[u8] = b"kaugrenna_cut_edge_at_points";

/// Tells what is wrong with the archive, and ends.
fn refuse(archive: &Path, what: &str) -> ! {
    eprintln!("kaugrenna: {} {what}.", archive.display());
    eprintln!("`rt lib` in crates/healing writes it; KAUGRENNA_LIB names another folder.");
    std::process::exit(1);
}

fn main() {
    println!("cargo:rerun-if-changed=build.rs");
    println!("cargo:rerun-if-env-changed=KAUGRENNA_LIB");
    let here = PathBuf::from(env::var_os("CARGO_MANIFEST_DIR").expect("set by cargo"));
    let usual = here.join("../../crates/healing/out");
    let folder = env::var_os("KAUGRENNA_LIB").map_or(usual, |named| here.join(named));
    let archive = folder.join("libhealing.a");
    println!("cargo:rerun-if-changed={}", archive.display());
    let Ok(bytes) = fs::read(&archive) else {
        refuse(&archive, "is not there");
    };
    if !bytes.windows(NEWEST.len()).any(|name| name == NEWEST) {
        refuse(&archive, "is older than this module");
    }
    println!("cargo:rustc-link-search=native={}", folder.display());
    println!("cargo:rustc-link-lib=static=healing");
}
