//! A trace in, compartments and their areas out, without the islands in them, with the line ids of the
//! passes that drew their borders.
//!
//! `cargo run --example compartments < trace` reads a segment file from standard input.

use std::collections::BTreeSet;
use std::error::Error;
use std::io::{self, Read};
use tukmiheb::{Compartment, Graph, RefusedRecord};

/// What is printed of a compartment.
struct Listed {
    face: u16,
    area: f64,
    corners: Vec<(f64, f64)>,
    holes: Vec<u16>,
    passes: BTreeSet<u32>,
}

/// The compartments of a trace, or which record is refused and why.
fn compartments(bytes: &[u8]) -> Result<Vec<Listed>, RefusedRecord> {
    let map = Graph::polygonize(bytes)?;
    let compartments = map.compartments();
    Ok(compartments
        .map(|compartment| listed(compartment, map.graph()))
        .collect())
}

fn listed(compartment: Compartment, graph: &Graph) -> Listed {
    let ring = compartment.ring();
    let holes = compartment.holes().map(|hole| hole.face().0);
    Listed {
        face: ring.face().0,
        area: compartment.net_area(),
        corners: ring.points().map(|point| (point.x, point.y)).collect(),
        holes: holes.collect(),
        passes: passes(compartment, graph),
    }
}

/// The line ids of all passes that drew a compartment's borders, its outline and its holes.
fn passes(compartment: Compartment, graph: &Graph) -> BTreeSet<u32> {
    let borders = [compartment.ring()].into_iter().chain(compartment.holes());
    let half_edges = borders.flat_map(|ring| ring.half_edges());
    let edges = half_edges.map(|half_edge| half_edge.edge());
    edges.flat_map(|edge| graph.line_ids(edge)).collect()
}

fn main() -> Result<(), Box<dyn Error>> {
    let mut bytes = Vec::new();
    io::stdin().read_to_end(&mut bytes)?;
    for Listed {
        face,
        area,
        corners,
        holes,
        passes,
    } in compartments(&bytes)?
    {
        let holes = if holes.is_empty() {
            String::new()
        } else {
            format!(", holes {holes:?}")
        };
        println!("face {face}: area {area}, corners {corners:?}{holes}, drawn by lines {passes:?}");
    }
    Ok(())
}
