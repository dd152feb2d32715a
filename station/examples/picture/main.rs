//! A picture of a tracing's map.
//!
//! `cargo run --example picture < ../samples/waist.seg > waist.svg` reads a segment file from standard input
//! and writes an SVG.

mod drawing;
mod frame;
mod label;

use std::error::Error;
use std::io::{self, Read};
use tukmiheb::Graph;

fn main() -> Result<(), Box<dyn Error>> {
    let mut bytes = Vec::new();
    io::stdin().read_to_end(&mut bytes)?;
    let map = Graph::polygonize(&bytes)?;
    print!("{}", drawing::picture(&map));
    Ok(())
}
