//! Maps that fill the tables, one of each kind, made from the limits: with all nodes or all edges that there
//! may be, or with both; where triangles do not come out even, with a few less.

use crate::inputs::{self, Point, Segment, BOUND};
use crate::islands;
use crate::random::Random;
use oracle::state::{EDGE_LIMIT, NODE_LIMIT};

/// So many segments, no two of which have an end in common.
pub fn separate(count: usize) -> Vec<Segment> {
    let segment = |x: i32| [[x, 0], [x, 1]];
    (0..count as i32).map(segment).collect()
}

/// So many segments between as few points of a parabola as have them: they cross without nodes.
pub fn dense(edges: usize) -> Vec<Segment> {
    let points = (1..).find(|&points| points * (points - 1) / 2 >= edges);
    let mut map = inputs::complete(points.expect("enough points") as i32);
    map.truncate(edges);
    map
}

/// A grid as wide as high, cut off at so many edges.
pub fn grid(edges: usize) -> Vec<Segment> {
    let across = (1..).find(|&across| 2 * across * (across + 1) >= edges);
    let across = across.expect("a wide grid") as i32;
    let mut map = inputs::grid(across, across, 1);
    map.truncate(edges);
    map
}

/// One ring through an even number of nodes: to the right, and back one further up.
pub fn ring(nodes: usize) -> Vec<Segment> {
    let far = nodes as i32 / 2;
    let there = (0..far).map(|x| [x, 0]);
    let back = (0..far).rev().map(|x| [x, 1]);
    let corners: Vec<Point> = there.chain(back).collect();
    inputs::loop_through(&corners)
}

/// One ring that goes round the corners of the coordinate bound again and again, each time a little further
/// in: nearly the largest area that so many nodes can have. It crosses itself without nodes.
pub fn winding(nodes: usize) -> Vec<Segment> {
    let corner = |number: usize| {
        let far = BOUND - (number / 4) as i32;
        [[far, -far], [far, far], [-far, far], [-far, -far]][number % 4]
    };
    let corners: Vec<Point> = (0..nodes).map(corner).collect();
    inputs::loop_through(&corners)
}

/// Different segments between random points, as many as there may be edges.
pub fn random_map(random: &mut Random) -> Vec<Segment> {
    let segments = inputs::random_map(2 * EDGE_LIMIT, NODE_LIMIT * 2 / 3, 1000, random);
    let mut map: Vec<Segment> = Vec::new();
    for [a, b] in segments {
        if a != b && !map.contains(&[a, b]) && !map.contains(&[b, a]) {
            map.push([a, b]);
        }
    }
    map.truncate(EDGE_LIMIT);
    map
}

/// One map of each kind, none of which is refused. Loops in one another are drawn from the inside out
/// and from the outside in.
pub fn maps(random: &mut Random) -> Vec<Vec<Segment>> {
    let most = NODE_LIMIT.min(EDGE_LIMIT);
    let squares = most as i32 / 4;
    let triangles = (most as i32 - 4) / 3;
    vec![
        separate(NODE_LIMIT / 2),
        dense(EDGE_LIMIT),
        grid(EDGE_LIMIT),
        inputs::star(most - 1),
        inputs::path(most as i32 - 1),
        ring(most),
        winding(most),
        inputs::nested_squares(squares),
        inputs::touching_squares(squares),
        islands::segments(&islands::nested(squares)),
        islands::segments(&islands::triangles_in_a_square(triangles)),
        islands::segments(&islands::slivers(most as i32 / 3)),
        random_map(random),
    ]
}
