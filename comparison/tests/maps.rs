//! Maps from segments to rings: all small ones, and the families that a tracing can be of.

use comparison::full;
use comparison::inputs::{self, Segment};
use comparison::random::Random;
use comparison::Comparison;
use oracle::state::{EDGE_LIMIT, NODE_LIMIT};

/// Every set of segments between the six points x 0 to 2, y 0 to 1, in a random order and turned
/// at random.
#[test]
fn all_edge_sets_on_six_points() {
    let mut both = Comparison::default();
    let mut random = Random::new(1);
    let points: Vec<_> = (0..3).flat_map(|x| [[x, 0], [x, 1]]).collect();
    let segments = inputs::pairs(&points);
    assert_eq!(segments.len(), 15);
    for mask in 0..1u32 << 15 {
        let map = inputs::chosen(mask, &segments);
        both.run(&inputs::whole_run(&inputs::shuffled(map, &mut random)));
    }
    println!("{:?}", both.tally);
}

/// Small maps and middling ones, and maps that need more than there may be: their last additions are
/// refused.
fn families(random: &mut Random) -> Vec<Vec<Segment>> {
    let mut maps = vec![
        inputs::extremes(),
        inputs::complete(12),
        full::dense(EDGE_LIMIT + 10),
        inputs::overlaps(7),
        inputs::overlaps(40),
        inputs::grid(22, 22, 1),
        inputs::grid(5, 3, 131_072),
        inputs::nested_squares(1),
        inputs::touching_squares(3),
        inputs::path(1),
        inputs::path(NODE_LIMIT as i32),
    ];
    for count in [1, 2, 5, 60] {
        maps.push(inputs::touching_triangles(count, false));
        maps.push(inputs::touching_triangles(count, true));
    }
    for spokes in [1, 2, 3, 8, 33, 200, NODE_LIMIT] {
        maps.push(inputs::star(spokes));
    }
    let (more_edges, more_nodes) = (EDGE_LIMIT * 9 / 8, NODE_LIMIT * 9 / 8);
    for (edges, points, size) in [
        (20, 8, 3),
        (60, 12, 3),
        (64, 40, 1000),
        (256, 100, 12),
        (1200, 60, 8),
        (more_edges, more_nodes, 20),
        (more_edges, NODE_LIMIT * 7 / 8, inputs::BOUND),
        (more_nodes, 2 * more_nodes, inputs::BOUND),
    ] {
        maps.push(inputs::random_map(edges, points, size, random));
    }
    maps
}

/// Each family as it is, in another order and turned, and with everything twice.
#[test]
fn families_of_maps() {
    let mut both = Comparison::default();
    let mut random = Random::new(2);
    for map in families(&mut random) {
        both.run(&inputs::whole_run(&map));
        let shuffled = inputs::shuffled(map.clone(), &mut random);
        both.run(&inputs::whole_run(&shuffled));
        if map.len() < 300 {
            let turned = map.iter().map(|&[a, b]| [b, a]);
            let twice: Vec<_> = map.iter().copied().chain(turned).collect();
            both.run(&inputs::whole_run(&twice));
        }
    }
    println!("{:?}", both.tally);
}

/// Full tables of each kind, as drawn and in another order and turned, through all steps.
#[test]
fn full_maps() {
    let mut both = Comparison::default();
    let mut random = Random::new(60);
    for map in full::maps(&mut random) {
        both.run(&inputs::whole_run(&map));
        both.run(&inputs::whole_run(&inputs::shuffled(map, &mut random)));
    }
    println!("{:?}", both.tally);
    assert_eq!(both.tally.refused, 0);
}

/// The areas of a full ring around the coordinate bound are exact.
#[test]
fn large_areas() {
    let map = full::winding(NODE_LIMIT.min(EDGE_LIMIT));
    let mut both = Comparison::default();
    both.run(&inputs::whole_run(&map));
    let term = |&[a, b]: &Segment| {
        let [[x1, y1], [x2, y2]] = [a, b].map(|end| end.map(i128::from));
        x1 * y2 - x2 * y1
    };
    let doubled: i128 = map.iter().map(term).sum();
    assert!(doubled > map.len() as i128 * i128::from(inputs::BOUND).pow(2));
    let areas = &both.states()[0].lists.ring_area[..2];
    let listed: Vec<i128> = areas.iter().map(|area| (2.0 * area) as i128).collect();
    assert_eq!(listed, [doubled, -doubled]);
}

#[test]
fn random_maps() {
    let mut both = Comparison::default();
    let mut random = Random::new(3);
    for number in 0..2000 {
        let (points, size) = (2 + random.below(12), 1 + random.below(6) as i32);
        let edges = 1 + number % 40;
        let map = inputs::random_map(edges, points, size, &mut random);
        both.run(&inputs::whole_run(&map));
    }
    println!("{:?}", both.tally);
}
