//! Finds the static library's seven archives beside this crate.

use std::path::Path;

/// The archives, by what their entries are for.
const ARCHIVES: [&str; 7] = [
    "station_building",
    "station_files",
    "station_ring_files",
    "station_steps",
    "station_cuts",
    "station_rings",
    "station_questions",
];

fn main() {
    let manifest = std::env::var("CARGO_MANIFEST_DIR").expect("cargo says where the crate is");
    let folder = Path::new(&manifest).join("../target/staticlib");
    let mut missing = Vec::new();
    for name in ARCHIVES {
        let archive = folder.join(format!("lib{name}.a"));
        println!("cargo::rerun-if-changed={}", archive.display());
        if !archive.exists() {
            missing.push(format!("lib{name}.a"));
        }
    }
    if missing.is_empty() {
        println!("cargo::rustc-link-search=native={}", folder.display());
        for name in ARCHIVES {
            println!("cargo::rustc-link-lib=static={name}");
        }
    } else {
        say_how_to_build(&missing);
    }
}

fn say_how_to_build(missing: &[String]) {
    println!(
        "cargo::error=target/staticlib has no {}: run `tools/archives` in the root of the repository first",
        missing.join(", ")
    );
}
