//! Request §2: the holder of each open ring, on maps worked by hand, and the even-odd rule beside a second
//! reading.

use oracle::holes::{is_inside, Point};
use oracle::original::{Coord3D, Line3D};
use oracle::state::{Call, Hole, Lent, Reply, Side, State, HOLES, LIST_END, OUTSIDE};
use oracle::Oracle;

type Corner = [i32; 2];

const STEPS: [Call; 4] = [Call::Sort, Call::Prune, Call::Cut, Call::Rings];

/// A hole that no extraction writes: what stands in every record before.
const OTHER: Hole = Hole {
    ring: 9,
    holder: 9,
    doubled: 9,
};

fn hole(ring: u16, holder: u16, doubled: i64) -> Hole {
    Hole {
        ring,
        holder,
        doubled,
    }
}

fn sides(corners: &[Corner]) -> impl Iterator<Item = [Corner; 2]> + '_ {
    let next = corners.iter().cycle().skip(1);
    corners.iter().zip(next).map(|(&a, &b)| [a, b])
}

fn addition([[x1, y1], [x2, y2]]: [Corner; 2]) -> Call {
    Call::Add(Line3D {
        start: Coord3D::new(x1.into(), y1.into(), 0.0),
        end: Coord3D::new(x2.into(), y2.into(), 0.0),
        line_id: 1,
    })
}

/// A graph with the sides of these loops, over hole records that hold other things.
fn drawn(loops: &[&[Corner]]) -> Oracle {
    let mut state = State::default();
    state.lists.holes.fill(OTHER);
    let mut oracle = Oracle::over(state);
    for side in loops.iter().flat_map(|corners| sides(corners)) {
        granted(&mut oracle, &addition(side));
    }
    oracle
}

fn granted(oracle: &mut Oracle, call: &Call) -> Reply {
    let reply = oracle.call(call, &Lent::FULL);
    assert!(!matches!(reply, Reply::Refused(_)), "{call:?} {reply:?}");
    reply
}

/// The records that the four steps come to. What lies past them has to stay, and each hole list that is
/// shorter is refused and left alone.
fn traced(mut oracle: Oracle) -> Vec<Hole> {
    for step in &STEPS[..3] {
        granted(&mut oracle, step);
    }
    let before = oracle.state().clone();
    let mut lent = Lent::FULL.with_holes(0);
    loop {
        match oracle.call(&Call::Rings, &lent) {
            Reply::Rings { holes, .. } => {
                let written = usize::from(holes);
                assert_eq!(lent, Lent::FULL.with_holes(written));
                let (records, rest) = oracle.state().lists.holes.split_at(written);
                assert!(rest.iter().all(|&record| record == OTHER));
                return records.to_vec();
            }
            reply => assert_eq!(reply, Reply::Refused(13)),
        }
        assert_eq!(oracle.state().difference(&before), None);
        lent = lent.with_holes(lent.lists[HOLES] + 1);
    }
}

fn holes(loops: &[&[Corner]]) -> Vec<Hole> {
    traced(drawn(loops))
}

fn square([x, y]: Corner, side: i32) -> [Corner; 4] {
    [[x, y], [x + side, y], [x + side, y + side], [x, y + side]]
}

// ---- maps worked by hand: rings 2 k and 2 k + 1 are the inside and the outside of loop k

#[test]
fn alone() {
    assert_eq!(holes(&[]), []);
    assert_eq!(holes(&[&[[0, 0], [4, 0], [0, 3]]]), [hole(1, OUTSIDE, -12)]);
    // The first side goes the other way round, so that the outside comes first.
    assert_eq!(holes(&[&[[0, 0], [0, 3], [4, 0]]]), [hole(0, OUTSIDE, -12)]);
}

#[test]
fn squares_in_squares() {
    let [outer, middle, inner] = [square([0, 0], 10), square([2, 2], 6), square([4, 4], 2)];
    let unheld = hole(1, OUTSIDE, -200);
    assert_eq!(holes(&[&outer, &inner]), [unheld, hole(3, 0, -8)]);
    let expected = [unheld, hole(3, 0, -72), hole(5, 2, -8)];
    assert_eq!(holes(&[&outer, &middle, &inner]), expected);
    let expected = [hole(1, 2, -8), hole(3, 4, -72), hole(5, OUTSIDE, -200)];
    assert_eq!(holes(&[&inner, &middle, &outer]), expected);
    // Beside one another nothing is held.
    let beside = [unheld, hole(3, OUTSIDE, -8)];
    assert_eq!(holes(&[&outer, &square([10, 11], 2)]), beside);
}

/// The test point is the pair's: the triangle's least corner is the square's, so the next one is taken.
#[test]
fn islands_that_touch() {
    let outer = square([0, 0], 6);
    let triangle = [[0, 0], [4, 1], [1, 4]];
    let expected = [hole(1, OUTSIDE, -72), hole(3, 0, -15)];
    assert_eq!(holes(&[&outer, &triangle]), expected);
    // The same outside the square.
    let triangle = [[6, 6], [9, 7], [7, 9]];
    let expected = [hole(1, OUTSIDE, -72), hole(3, OUTSIDE, -8)];
    assert_eq!(holes(&[&outer, &triangle]), expected);
}

/// On a side of the square, but at no node of it, is not strictly inside; nor is what lies behind.
#[test]
fn corners_on_a_side() {
    let outer = square([0, 0], 6);
    let expected = [hole(1, OUTSIDE, -72), hole(3, OUTSIDE, -4)];
    assert_eq!(holes(&[&outer, &[[0, 3], [2, 2], [2, 4]]]), expected);
    // On the upper side, with a least corner inside, it is held.
    let expected = [hole(1, OUTSIDE, -72), hole(3, 0, -4)];
    assert_eq!(holes(&[&outer, &[[2, 4], [4, 4], [3, 6]]]), expected);
}

/// A star that crosses itself has its middle outside.
#[test]
fn a_pentagram() {
    let star = [[0, 4], [2, -3], [-4, 1], [4, 1], [-2, -3]];
    let middle = [[0, 1], [-1, 0], [1, 0]];
    let point = [[0, 3], [0, 2], [1, 2]];
    let records = holes(&[&star, &middle]);
    assert_eq!(records, [hole(0, OUTSIDE, -44), hole(3, OUTSIDE, -2)]);
    let records = holes(&[&star, &point]);
    assert_eq!(records, [hole(0, OUTSIDE, -44), hole(3, 1, -1)]);
}

/// Two rings of one area hold the triangle, in either order: the lower face number decides, which the
/// square at (0, 0) has.
#[test]
fn equal_areas() {
    let [low, high] = [square([0, 0], 6), square([1, 1], 6)];
    let triangle = [[3, 3], [4, 3], [3, 4]];
    for (loops, holder) in [([&low, &high], 0), ([&high, &low], 2)] {
        let records = holes(&[loops[0], loops[1], &triangle]);
        assert_eq!(records[2], hole(5, holder, -1));
    }
}

/// The smallest area decides, also where it is smaller than the hole's own.
#[test]
fn a_holder_that_is_crossed() {
    let [large, small] = [square([-9, -9], 30), square([0, 0], 4)];
    let island = [[1, 1], [11, 1], [11, 2]];
    let records = holes(&[&large, &small, &island]);
    assert_eq!(records[2], hole(5, 2, -10));
    let island = [[1, 1], [21, 1], [21, 3]];
    let records = holes(&[&large, &small, &island]);
    assert_eq!(records[2], hole(5, 2, -40));
}

/// A piece within a compartment of a piece that touches itself: its outside ring is in two parts, each a
/// hole of its own.
#[test]
fn two_islands_at_one_point() {
    let outer = square([0, 0], 20);
    let [left, right] = [square([2, 2], 3), square([5, 5], 3)];
    let records = holes(&[&outer, &left, &right]);
    assert_eq!(records.len(), 3);
    assert_eq!(records[1..], [hole(3, 0, -18), hole(5, 0, -18)]);
}

/// Nodes at one place are not one node: by number the least corner is free, and it lies on the line.
#[test]
fn two_nodes_at_one_place() {
    let outer = square([0, 0], 6);
    let inner = [[0, 0], [4, 1], [1, 4]];
    let apart = [&outer[..], &inner[..]].concat();
    let loops = [[0, 1], [1, 2], [2, 3], [3, 0], [4, 5], [5, 6], [6, 4]];
    let records = traced(Oracle::over(tables(&apart, &loops)));
    assert_eq!(records, [hole(1, OUTSIDE, -72), hole(3, OUTSIDE, -15)]);
    // One of the outer ring's own corners twice: it goes through both and passes them.
    let doubled = [&outer[..1], &outer[..], &inner[1..]].concat();
    let loops = [
        [1, 2],
        [2, 3],
        [3, 4],
        [4, 0],
        [0, 1],
        [0, 5],
        [5, 6],
        [6, 0],
    ];
    let records = traced(Oracle::over(tables(&doubled, &loops)));
    assert_eq!(records, [hole(1, OUTSIDE, -72), hole(3, 0, -15)]);
}

/// A sound state in stage 0 with these points and edges.
fn tables(points: &[Corner], edges: &[[u16; 2]]) -> State {
    let mut state = State::default();
    state.lists.holes.fill(OTHER);
    (state.nodes, state.edges) = (points.len() as u16, edges.len() as u16);
    let tables = &mut state.tables;
    for (node, &[x, y]) in points.iter().enumerate() {
        (tables.nodes_x[node], tables.nodes_y[node]) = (x.into(), y.into());
    }
    let halves = edges.iter().flat_map(|&[a, b]| [[a, b], [b, a]]);
    for (half, ends) in halves.enumerate() {
        [tables.dir_edges_src[half], tables.dir_edges_dst[half]] = ends;
        tables.nodes_outgoing[half] = half as u16;
        tables.nodes_degree[usize::from(ends[0])] += 1;
    }
    for edge in 0..edges.len() {
        tables.edges_list_place[edge] = edge as u16;
        tables.pairs_next[edge] = LIST_END;
    }
    state
}

// ---- the even-odd rule

/// How often a ring turns around a point, in quarters from quadrant to quadrant; none where the point is
/// on the ring. A ring turns an odd number of times where its sides are crossed an odd number of times.
fn turns(ring: &[Point], [x, y]: Point) -> Option<i128> {
    let ways: Vec<Point> = ring.iter().map(|&[a, b]| [a - x, b - y]).collect();
    let next = ways.iter().cycle().skip(1);
    let mut quarters = 0;
    for (&a, &b) in ways.iter().zip(next) {
        quarters += quarters_between(a, b)?;
    }
    assert_eq!(quarters % 4, 0, "a ring closes");
    Some(quarters / 4)
}

/// From one way to the next, counterclockwise; none where the point is between their ends.
fn quarters_between([x1, y1]: Point, [x2, y2]: Point) -> Option<i128> {
    let cross = x1 * y2 - x2 * y1;
    match (quadrant([x2, y2])? - quadrant([x1, y1])?).rem_euclid(4) {
        0 => Some(0),
        1 => Some(1),
        3 => Some(-1),
        _ if cross == 0 => None,
        _ => Some(2 * cross.signum()),
    }
}

/// The quadrant of a way, each with the axis at which it begins; none of no way.
fn quadrant([x, y]: Point) -> Option<i128> {
    match (x.signum(), y.signum()) {
        (0, 0) => None,
        (1, 0 | 1) => Some(0),
        (0 | -1, 1) => Some(1),
        (-1, _) => Some(2),
        _ => Some(3),
    }
}

/// Random rings on a small square, with corners that meet, sides that cross and sides without length; every
/// point of the square and around it.
#[test]
fn inside_by_turns() {
    let mut seed: u64 = 1;
    let mut below = |limit: u64| {
        seed = seed.wrapping_mul(6_364_136_223_846_793_005);
        seed = seed.wrapping_add(1_442_695_040_888_963_407);
        i128::from((seed >> 33) % limit)
    };
    let mut counts = [0; 3];
    for number in 0..5000 {
        let length = 1 + number % 11;
        let ring: Vec<Point> = (0..length).map(|_| [below(8), below(8)]).collect();
        for x in -1..9 {
            for y in -1..9 {
                let turns = turns(&ring, [x, y]);
                let inside = turns.is_some_and(|turns| turns % 2 != 0);
                assert_eq!(is_inside(&ring, [x, y]), inside, "{ring:?} {x} {y}");
                counts[turns.map_or(2, |turns| turns.rem_euclid(2) as usize)] += 1;
            }
        }
    }
    assert!(counts.iter().all(|&count| count > 20_000), "{counts:?}");
}

/// At the coordinate bound.
#[test]
fn inside_at_the_bound() {
    let far: i128 = 1_048_576;
    let ring = [[-far, -far], [far, 1 - far], [far, far], [1 - far, far]];
    for ([x, y], inside) in [
        ([0, 0], true),
        ([far - 1, far - 1], true),
        ([1 - far, 1 - far], true),
        ([1 - far, 2 - far], true),
        ([0, 1 - far], true),
        ([0, -far], false),
        ([1, 1 - far], true),
        ([-far, 1 - far], false),
        ([far, 0], false),
        ([-far, far], false),
    ] {
        assert_eq!(is_inside(&ring, [x, y]), inside, "{x} {y}");
        let odd = turns(&ring, [x, y]).is_some_and(|turns| turns % 2 != 0);
        assert_eq!(odd, inside, "{x} {y}");
    }
}
