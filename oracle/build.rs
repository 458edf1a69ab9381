//! Looks for the Rust sources and tells the crate through `cfg` whether they
//! are at hand.

use std::env;
use std::path::PathBuf;

fn main() {
    println!("cargo:rustc-check-cfg=cfg(rust_at_hand)");
    println!("cargo:rerun-if-changed=build.rs");
    println!("cargo:rerun-if-env-changed=KAUGRENNA_RUST");
    let here = PathBuf::from(env::var_os("CARGO_MANIFEST_DIR").expect("set by cargo"));
    let usual = here.join("../../shared/docs/src");
    let sources = env::var_os("KAUGRENNA_RUST").map_or(usual, |named| here.join(named));
    let sources = sources.canonicalize().unwrap_or(sources);
    // The two source files of the healing module, to be compiled as they are.
    let healing = sources.join("truck-shapeops/src/healing");
    let files = ["split_closed_edges.rs", "split_closed_faces.rs"].map(|name| healing.join(name));
    for file in &files {
        println!("cargo:rerun-if-changed={}", file.display());
    }
    if files.iter().all(|file| file.is_file()) {
        println!("cargo:rustc-cfg=rust_at_hand");
        println!("cargo:rustc-env=KAUGRENNA_HEALING={}", healing.display());
    }
}
