//! Times the library and the original on the same inputs, in one run.
//!
//! `cargo run --release --bin benchmark`. First the calls of a station, phase by phase, then the
//! listing programs as processes. The last maps are full of islands, where the library also finds the
//! holder of each and the original does not. Of each large map there are two sizes, the full one and
//! half of it, and behind them stands how file to rings grows from the one to the other.

mod calls;
mod programs;

use comparison::inputs::{self, Segment};
use comparison::islands;
use comparison::random::Random;
use oracle::original::Line3D;
use oracle::records;
use oracle::state::EDGE_LIMIT;
use std::time::Duration;

/// How many nodes and edges a graph had before request §6. The maps of this size and those of the full
/// size show how time grows.
const HALF: usize = EDGE_LIMIT / 2;

fn main() {
    let mut random = Random::new(11);
    calls::print_heading();
    for edges in [64, 256] {
        calls::measure(&format!("grid {edges}"), &lines(&grid(edges)));
        let map = random_map(edges, &mut random);
        calls::measure(&format!("random {edges}"), &lines(&map));
    }
    let half = maps(HALF, &mut random);
    let full = maps(EDGE_LIMIT, &mut random);
    for ((name, half), (_, full)) in half.iter().zip(&full) {
        let small = calls::measure(&format!("{name} {}", half.len()), &lines(half));
        let large = calls::measure(&format!("{name} {}", full.len()), &lines(full));
        let growth = large / small;
        println!("{name}: at the full size the library takes {growth:.2} times as long from file to rings");
    }
    let files = full.into_iter().take(2);
    let files = files.map(|(name, map)| (name, file(&lines(&map))));
    programs::measure(&files.collect::<Vec<_>>());
}

/// A map of each kind with as many nodes and edges as there may be, or nearly as many. Every square of the
/// nested ones has all smaller ones inside, and every sliver's box has others' nodes inside.
fn maps(limit: usize, random: &mut Random) -> [(&'static str, Vec<Segment>); 8] {
    let nodes = limit as i32;
    let corners = (1..).take_while(|n| n * (n - 1) / 2 <= nodes).last();
    let triangles = (nodes - 4) / 3;
    [
        ("grid", grid(limit)),
        ("random", random_map(limit, random)),
        (
            "dense",
            inputs::complete(corners.expect("one corner has no edge")),
        ),
        ("star", inputs::star(limit - 1)),
        ("nested in", islands::segments(&islands::nested(nodes / 4))),
        ("nested out", inputs::nested_squares(nodes / 4)),
        (
            "islands",
            islands::segments(&islands::triangles_in_a_square(triangles)),
        ),
        ("slivers", islands::segments(&islands::slivers(nodes / 3))),
    ]
}

/// A grid as wide as high, cut off at so many edges.
fn grid(edges: usize) -> Vec<Segment> {
    let across = (1..)
        .find(|n| 2 * n * (n + 1) >= edges as i32)
        .expect("a wide grid");
    distinct(inputs::grid(across, across, 10), edges)
}

/// So many edges between two thirds as many points.
fn random_map(edges: usize, random: &mut Random) -> Vec<Segment> {
    let points = edges * 2 / 3;
    distinct(inputs::random_map(4 * edges, points, 1000, random), edges)
}

/// The first so many segments between nodes that are not joined yet.
fn distinct(map: Vec<Segment>, edges: usize) -> Vec<Segment> {
    let mut kept: Vec<Segment> = Vec::new();
    for [a, b] in map {
        let joined = kept.contains(&[a, b]) || kept.contains(&[b, a]);
        if a != b && !joined && kept.len() < edges {
            kept.push([a, b]);
        }
    }
    kept
}

fn lines(map: &[Segment]) -> Vec<Line3D> {
    let lines = map.iter().zip(1..);
    lines
        .map(|(&segment, id)| inputs::segment_line(segment, id))
        .collect()
}

fn file(lines: &[Line3D]) -> Vec<u8> {
    lines.iter().flat_map(records::segment).collect()
}

/// The median, in microseconds.
fn median(mut times: Vec<Duration>) -> f64 {
    times.sort();
    times[times.len() / 2].as_secs_f64() * 1e6
}
