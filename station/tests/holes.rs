//! Holes: the open rings with their holders, and the compartments without their islands.

use tukmiheb::layout::EDGE_LIMIT;
use tukmiheb::{Coord3D, Graph, Line3D, Refusal, Rings};

type Point = [i32; 2];

/// The sides of loops through these points, in all stages up to the rings.
fn ringed(loops: &[&[Point]]) -> Graph {
    let mut graph = Graph::new();
    for corners in loops {
        let next = corners.iter().cycle().skip(1);
        for (&a, &b) in corners.iter().zip(next) {
            let [start, end] = [a, b].map(|[x, y]| Coord3D::new(x.into(), y.into(), 0.0));
            let added = graph.add_line(&Line3D::new(start, end, 1));
            assert!(added.is_ok(), "{added:?}");
        }
    }
    graph.sort_edges().expect("stage 0");
    graph.prune_dangles().expect("stage 1");
    graph.delete_cut_edges().expect("stage 2");
    graph
}

fn square([x, y]: Point, side: i32) -> [Point; 4] {
    [[x, y], [x + side, y], [x + side, y + side], [x, y + side]]
}

/// Each hole's ring, holder and doubled area.
fn records(rings: Rings) -> Vec<(usize, Option<usize>, i64)> {
    let holes = rings.holes();
    let record = holes.map(|hole| {
        let holder = hole.holder.map(|ring| ring.number());
        // The record's area is its ring's.
        assert_eq!(hole.doubled as f64, 2.0 * hole.ring.area());
        (hole.ring.number(), holder, hole.doubled)
    });
    record.collect()
}

/// Each compartment's ring, holes and net area.
fn compartments(rings: Rings) -> Vec<(usize, Vec<usize>, f64)> {
    let compartments = rings.compartments();
    let parts = compartments.map(|compartment| {
        let holes = compartment.holes().map(|ring| ring.number());
        let area = compartment.net_area();
        (compartment.ring().number(), holes.collect(), area)
    });
    parts.collect()
}

// Rings 2 k and 2 k + 1 are the inside and the outside of loop k.

#[test]
fn nothing() {
    let mut graph = ringed(&[]);
    let rings = graph.extract_rings().expect("stage 3");
    assert_eq!((rings.len(), rings.half_edge_count()), (0, 0));
    assert_eq!(rings.holes().count(), 0);
    assert_eq!(rings.compartments().count(), 0);
}

#[test]
fn unheld() {
    let mut graph = ringed(&[&square([0, 0], 6), &square([7, 7], 2)]);
    let rings = graph.extract_rings().expect("stage 3");
    assert_eq!((rings.len(), rings.half_edge_count()), (4, 16));
    assert_eq!(records(rings), [(1, None, -72), (3, None, -8)]);
    assert_eq!(compartments(rings), [(0, vec![], 36.0), (2, vec![], 4.0)]);
}

#[test]
fn nested_squares() {
    let [outer, inner] = [square([0, 0], 6), square([2, 2], 2)];
    let mut graph = ringed(&[&outer, &inner]);
    let rings = graph.extract_rings().expect("stage 3");
    assert_eq!(records(rings), [(1, None, -72), (3, Some(0), -8)]);
    assert_eq!(compartments(rings), [(0, vec![3], 32.0), (2, vec![], 4.0)]);
}

/// An island in an island is a hole of the inner one alone; two beside one another are both holes.
#[test]
fn island_in_island() {
    let loops = [
        square([0, 0], 20),
        square([2, 2], 10),
        square([4, 4], 3),
        square([14, 14], 2),
        square([8, 8], 1),
    ];
    let mut graph = ringed(&loops.each_ref().map(|corners| &corners[..]));
    let rings = graph.extract_rings().expect("stage 3");
    let holders = [None, Some(0), Some(2), Some(0), Some(2)];
    assert!(rings
        .holes()
        .map(|hole| hole.holder.map(|ring| ring.number()))
        .eq(holders));
    assert_eq!(
        compartments(rings),
        [
            (0, vec![3, 7], 296.0),
            (2, vec![5, 9], 90.0),
            (4, vec![], 9.0),
            (6, vec![], 4.0),
            (8, vec![], 1.0)
        ]
    );
    // All compartments together are what the one outside leaves.
    let outside = rings.holes().find(|hole| hole.holder.is_none());
    let outside = outside.expect("the outer square").ring;
    let areas = rings
        .compartments()
        .map(|compartment| compartment.net_area());
    assert_eq!(areas.sum::<f64>(), -outside.area());
}

/// The island's least node is a corner of its holder. Its area is no whole number, nor is what is left.
#[test]
fn island_that_touches() {
    let mut graph = ringed(&[&square([0, 0], 6), &[[0, 0], [4, 1], [1, 4]]]);
    let rings = graph.extract_rings().expect("stage 3");
    assert_eq!(records(rings), [(1, None, -72), (3, Some(0), -15)]);
    assert_eq!(compartments(rings), [(0, vec![3], 28.5), (2, vec![], 7.5)]);
}

/// A corner on a side, where the side has no node, is not strictly inside.
#[test]
fn corner_on_a_side() {
    let mut graph = ringed(&[&square([0, 0], 6), &[[0, 3], [2, 2], [2, 4]]]);
    let rings = graph.extract_rings().expect("stage 3");
    assert_eq!(records(rings), [(1, None, -72), (3, None, -4)]);
}

/// An island that crosses its holder without a node can be larger.
#[test]
fn below_zero() {
    let mut graph = ringed(&[&square([0, 0], 4), &[[1, 1], [41, 1], [41, 2]]]);
    let rings = graph.extract_rings().expect("stage 3");
    assert_eq!(records(rings), [(1, None, -32), (3, Some(0), -40)]);
    assert_eq!(compartments(rings), [(0, vec![3], -4.0), (2, vec![], 20.0)]);
}

/// At the coordinate bound areas are exact to the half.
#[test]
fn at_the_bound() {
    let far = 1_048_576;
    let island = [[0, 0], [1, 0], [0, 1]];
    let mut graph = ringed(&[&square([-far, -far], 2 * far), &island]);
    let rings = graph.extract_rings().expect("stage 3");
    let whole = 4.0 * f64::from(far) * f64::from(far);
    assert_eq!(
        compartments(rings),
        [(0, vec![3], whole - 0.5), (2, vec![], 0.5)]
    );
}

/// As many squares one in another as the edges allow.
#[test]
fn full_tables() {
    let count = EDGE_LIMIT / 4;
    let loops: Vec<_> = (0..count as i32)
        .map(|size| square([-size - 1, -size - 1], 2 * size + 2))
        .collect();
    let mut graph = ringed(&loops.iter().map(|corners| &corners[..]).collect::<Vec<_>>());
    let rings = graph.extract_rings().expect("stage 3");
    assert_eq!(rings.half_edge_count(), 2 * EDGE_LIMIT);
    assert_eq!(rings.holes().count(), count);
    for (number, hole) in rings.holes().enumerate() {
        let holder = hole.holder.map(|ring| ring.number());
        assert_eq!(hole.ring.number(), 2 * number + 1);
        assert_eq!(holder, (number + 1 < count).then_some(2 * number + 2));
    }
}

/// Extracting after a reset gives the same holes; what an earlier extraction wrote past them is not theirs.
#[test]
fn again() {
    let [outer, inner] = [square([0, 0], 6), square([2, 2], 2)];
    let mut graph = ringed(&[&outer, &inner]);
    let first = records(graph.extract_rings().expect("stage 3"));
    graph.reset().expect("any stage");
    graph.sort_edges().expect("stage 0");
    graph.prune_dangles().expect("stage 1");
    graph.delete_cut_edges().expect("stage 2");
    assert_eq!(records(graph.extract_rings().expect("stage 3")), first);
    graph.clear();
    graph.sort_edges().expect("stage 0");
    graph.prune_dangles().expect("stage 1");
    graph.delete_cut_edges().expect("stage 2");
    assert_eq!(records(graph.extract_rings().expect("stage 3")), []);
}

#[test]
fn the_refusal_in_words() {
    let few = Refusal::TooFewHoles;
    assert_eq!((few.number(), few.name()), (13, "too few holes"));
    assert_eq!(
        few.to_string(),
        "refused 13: The hole list has fewer records than there are open rings."
    );
}
