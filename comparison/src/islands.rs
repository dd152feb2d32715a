//! Maps with islands: loops in one another, beside one another, that touch, cross, or lie on one another's
//! sides. A loop is its corners.

use crate::inputs::{
    self, loop_through, set, Point, Segment, DEGREES, HALF_MARKS, LINE_IDS, LINKS, LIST_PLACES,
    NODES_X, NODES_Y, NODES_Z, NODE_MARKS, PAIR_IDS, SEGMENTS, SOURCES, STARS, TARGETS,
};
use crate::random::Random;
use oracle::calls::Line;
use oracle::state::LIST_END;

pub type Loop = Vec<Point>;

pub fn segments(loops: &[Loop]) -> Vec<Segment> {
    let sides = loops.iter().flat_map(|corners| loop_through(corners));
    sides.collect()
}

pub fn square([x, y]: Point, side: i32) -> Loop {
    vec![[x, y], [x + side, y], [x + side, y + side], [x, y + side]]
}

// ---- loops that do not cross

/// Squares one in another, from the outside in.
pub fn nested(count: i32) -> Vec<Loop> {
    let sizes = (1..=count).rev();
    sizes.map(|size| square([-size, -size], 2 * size)).collect()
}

/// Triangles one in another, from the outside in, all with one least corner.
pub fn nested_at_a_corner(count: i32) -> Vec<Loop> {
    let triangle = |size: i32| {
        // The smaller, the nearer, and the narrower at the corner.
        let (far, wide) = (2 * count * size, size * size);
        vec![[0, 0], [far, far - wide], [far - wide, far]]
    };
    (1..=count).rev().map(triangle).collect()
}

/// A square with so many triangles in it, all from the corner that is the least node of each.
pub fn fan_in_a_square(count: i32) -> Vec<Loop> {
    let far = 2 * count;
    let triangle = |number: i32| vec![[0, 0], [far, 2 * number + 1], [far, 2 * number + 2]];
    let mut loops = vec![square([0, 0], 2 * far)];
    loops.extend((0..count).map(triangle));
    loops
}

/// A square with so many triangles in it, in rows of twenty.
pub fn triangles_in_a_square(count: i32) -> Vec<Loop> {
    let mut loops = vec![square([0, 0], 4 * count.max(20))];
    loops.extend((0..count).map(|number| {
        let [x, y] = [1 + 4 * (number % 20), 1 + 4 * (number / 20)];
        vec![[x, y], [x + 2, y + 1], [x, y + 2]]
    }));
    loops
}

/// Thin triangles along parallel diagonals. Their boxes overlap, and none lies in another.
pub fn slivers(count: i32) -> Vec<Loop> {
    let long = 2 * count;
    let sliver = |number: i32| {
        let [x, y] = [4 * number, 2 * number];
        vec![[x, y], [x + long + 1, y + long], [x + long, y + long]]
    };
    (0..count).map(sliver).collect()
}

/// The cells of a grid, so many across and so many up.
fn cells(across: i32, up: i32) -> impl Iterator<Item = Point> {
    (0..across).flat_map(move |x| (0..up).map(move |y| [10 * x, 10 * y]))
}

/// A grid with an island in each cell, and an island in that.
pub fn islands_in_cells(across: i32, up: i32) -> Vec<Segment> {
    let islands = cells(across, up).flat_map(|[x, y]| {
        [
            square([x + 2, y + 2], 6),
            vec![[x + 4, y + 4], [x + 6, y + 5], [x + 5, y + 6]],
        ]
    });
    let islands: Vec<Loop> = islands.collect();
    [inputs::grid(across, up, 10), segments(&islands)].concat()
}

/// A grid with a triangle in each cell that touches it in the triangle's least node.
pub fn touching_in_cells(across: i32, up: i32) -> Vec<Segment> {
    let triangles = cells(across, up).map(|[x, y]| vec![[x, y], [x + 6, y + 2], [x + 3, y + 7]]);
    let triangles: Vec<Loop> = triangles.collect();
    [inputs::grid(across, up, 10), segments(&triangles)].concat()
}

/// A square with triangles that have a corner on its sides, where it has no node: from the inside and from
/// the outside, on each side.
pub fn corners_on_sides() -> Vec<Loop> {
    let mut loops = vec![square([0, 0], 20)];
    for deep in [4, -4] {
        let far = 20 - deep;
        loops.extend([
            vec![[5, 0], [6, deep], [4, deep]],
            vec![[20, 5], [far, 6], [far, 4]],
            vec![[15, 20], [14, far], [16, far]],
            vec![[0, 15], [deep, 14], [deep, 16]],
        ]);
    }
    loops
}

// ---- loops that cross without nodes

/// A star that crosses itself, with a triangle in its middle, one in a point of it, and one beside it.
pub fn pentagram([x, y]: Point) -> Vec<Loop> {
    let at = |corners: &[Point]| -> Loop { corners.iter().map(|[a, b]| [x + a, y + b]).collect() };
    vec![
        at(&[[0, 8], [4, -6], [-8, 2], [8, 2], [-4, -6]]),
        at(&[[0, 1], [-1, 0], [1, 0]]),
        at(&[[0, 5], [0, 4], [1, 4]]),
        at(&[[6, 6], [7, 6], [7, 7]]),
    ]
}

/// Squares of one size, each moved a little from the one before, and a triangle that all of them have
/// inside.
pub fn crossing_squares(count: i32) -> Vec<Loop> {
    let side = 2 * count + 8;
    let mut loops: Vec<Loop> = (0..count)
        .map(|number| square([number, 2 * number], side))
        .collect();
    let [x, y] = [count + 2, 2 * count + 2];
    loops.push(vec![[x, y], [x + 2, y], [x, y + 1]]);
    loops
}

/// So many loops of three to six corners on a small square: they touch, cross and overlap.
pub fn any_loops(count: usize, size: usize, random: &mut Random) -> Vec<Loop> {
    let coordinate = |random: &mut Random| random.below(size) as i32;
    let corner = |random: &mut Random| [coordinate(random), coordinate(random)];
    let any_loop = |random: &mut Random| -> Loop {
        let corners = 3 + random.below(4);
        (0..corners).map(|_| corner(random)).collect()
    };
    (0..count).map(|_| any_loop(random)).collect()
}

/// So many squares and triangles on a square, few of which cross.
pub fn any_islands(count: usize, size: usize, random: &mut Random) -> Vec<Loop> {
    let any_island = |random: &mut Random| -> Loop {
        let [x, y] = [0; 2].map(|_| random.below(size) as i32);
        let longest = 1 + size / (1 + random.below(8));
        let side = 1 + random.below(longest) as i32;
        let mut corners = square([x, y], side);
        if random.once_in(2) {
            corners.remove(random.below(4));
        }
        if random.once_in(2) {
            corners.reverse();
        }
        corners
    };
    (0..count).map(|_| any_island(random)).collect()
}

// ---- tables that additions cannot make

/// Sound tables in stage 0 with these nodes and edges. Nodes may lie at one place.
pub fn tables(points: &[Point], edges: &[[usize; 2]]) -> Vec<Line> {
    let mut lines = vec![Line::Graph([points.len() as u16, edges.len() as u16, 0])];
    for (edge, &ends) in edges.iter().enumerate() {
        lines.extend(edge_entries(edge, ends));
        let [[x1, y1], [x2, y2]] = ends.map(|end| points[end]);
        let segment = [x1, y1, 0, x2, y2, 0].into_iter().zip(6 * edge..);
        lines.extend(segment.map(|(value, place)| Line::Set(SEGMENTS, place, value.into())));
    }
    for (node, &[x, y]) in points.iter().enumerate() {
        let tables = [(NODES_X, x), (NODES_Y, y), (NODES_Z, 0)];
        lines.extend(tables.map(|(table, value)| Line::Set(table, node, value.into())));
        let starts = edges.iter().flatten().filter(|&&end| end == node);
        lines.extend([set(DEGREES, node, starts.count()), set(NODE_MARKS, node, 0)]);
    }
    lines
}

/// An edge between two nodes: its half-edges, and a list of one line id.
fn edge_entries(edge: usize, [a, b]: [usize; 2]) -> Vec<Line> {
    let mut lines = Vec::new();
    for (half, start, end) in [(2 * edge, a, b), (2 * edge + 1, b, a)] {
        lines.extend([set(SOURCES, half, start), set(TARGETS, half, end)]);
        lines.extend([set(HALF_MARKS, half, 0), set(STARS, half, half)]);
    }
    lines.extend([set(LINE_IDS, edge, 1), set(LIST_PLACES, edge, edge)]);
    lines.extend([set(PAIR_IDS, edge, 1), set(LINKS, edge, LIST_END.into())]);
    lines
}

/// Loops as tables in which a corner is now and then a node of its own, though there is one at its place.
/// `once_in` is 1 for always.
pub fn apart(loops: &[Loop], once_in: usize, random: &mut Random) -> Vec<Line> {
    let mut points: Vec<Point> = Vec::new();
    let mut edges = Vec::new();
    for corners in loops {
        let mut node = |corner: &Point| {
            let known = points.iter().position(|point| point == corner);
            known
                .filter(|_| !random.once_in(once_in))
                .unwrap_or_else(|| {
                    points.push(*corner);
                    points.len() - 1
                })
        };
        let nodes: Vec<usize> = corners.iter().map(&mut node).collect();
        let next = nodes.iter().cycle().skip(1);
        edges.extend(nodes.iter().zip(next).map(|(&a, &b)| [a, b]));
    }
    edges.retain(|[a, b]| a != b);
    tables(&points, &edges)
}
