//! Holes: the records of ring extraction beside the oracle's second reading of request §2, on maps with
//! islands of every kind, and number 13 at lengths that are too short. All entries are compared, those
//! past the written ones too.

use comparison::inputs::{self, traced, Segment, STEPS};
use comparison::islands::{self, segments, Loop};
use comparison::random::Random;
use comparison::Comparison;
use oracle::calls::Line;
use oracle::state::{Call, Hole, Lent, Reply, Side, State, EDGE_LIMIT, NODE_LIMIT, OUTSIDE};
use oracle::Oracle;

// ---- both sides

/// How many records a graph in stage 3 has, by the oracle.
fn open_rings(state: &State) -> usize {
    let mut ahead = Oracle::over(state.clone());
    match ahead.call(&Call::Rings, &Lent::FULL) {
        Reply::Rings { holes, .. } => holes.into(),
        reply => panic!("{reply:?}"),
    }
}

/// All lengths that are too short, or of very many a few.
fn short_lengths(open: usize) -> Vec<usize> {
    match open {
        0..=8 => (0..open).collect(),
        _ => vec![0, 1, open / 2, open - 1],
    }
}

/// Extracts the rings of a graph in stage 3, with lists that are too short first, and then with one that
/// has just enough records; the records.
fn extracted(both: &mut Comparison) -> Vec<Hole> {
    let open = open_rings(both.states()[1]);
    let [_, edges] = both.counts();
    for length in short_lengths(open) {
        let short = Lent::FULL.with_holes(length);
        let reply = both.lend_in_vain(&Call::Rings, &short);
        assert_eq!(reply, Reply::Refused(13), "{length} of {open}");
        let shorter = Lent::of_length(2 * edges - 1).with_holes(length);
        let reply = both.lend_in_vain(&Call::Rings, &shorter);
        assert_eq!(reply, Reply::Refused(8), "{length} of {open}");
    }
    let before = both.states()[0].lists.clone();
    let enough = Lent::of_length(2 * edges).with_holes(open);
    let reply = both.call(&Call::Rings, &enough).expect("no difference");
    let Reply::Rings {
        half_edges, holes, ..
    } = reply
    else {
        panic!("{reply:?}");
    };
    assert_eq!(usize::from(holes), open);
    let lists = &both.states()[0].lists;
    assert_eq!(before.difference(lists, reply.written()), None);
    let lengths = lists.ring_length[..reply.written()[2]].iter();
    assert_eq!(half_edges, lengths.sum::<u16>());
    lists.holes[..open].to_vec()
}

/// Builds a graph and takes it to stage 3.
fn cut(lines: &[Line], both: &mut Comparison) {
    both.run(lines);
    let [sort, prune, cut, _] = STEPS.map(Line::Call);
    both.run(&[sort, prune, cut]);
}

/// The records of what these lines build, and the same once more after a reset, with a whole list.
fn records(lines: &[Line], both: &mut Comparison) -> Vec<Hole> {
    cut(lines, both);
    let records = extracted(both);
    both.run(&[Line::Call(Call::Reset)]);
    both.run(&STEPS.map(Line::Call));
    assert_eq!(both.states()[0].lists.holes[..records.len()], records);
    records
}

fn of_map(map: &[Segment]) -> Vec<Hole> {
    records(&traced(map), &mut Comparison::default())
}

fn of_loops(loops: &[Loop]) -> Vec<Hole> {
    of_map(&segments(loops))
}

fn holders(records: &[Hole]) -> Vec<u16> {
    records.iter().map(|hole| hole.holder).collect()
}

fn held(records: &[Hole]) -> usize {
    let held = records.iter().filter(|hole| hole.holder != OUTSIDE);
    held.count()
}

// ---- built maps. Rings 2 k and 2 k + 1 are the inside and the outside of loop k, where none touch.

/// As many squares one in another as the edges allow.
#[test]
fn nested_squares() {
    let count = EDGE_LIMIT as u16 / 4;
    let inward: Vec<u16> = (0..count).map(|number| 2 * number).collect();
    let inward = [&[OUTSIDE], &inward[..inward.len() - 1]].concat();
    assert_eq!(holders(&of_loops(&islands::nested(count.into()))), inward);
    let outward: Vec<u16> = (1..count).map(|number| 2 * number).collect();
    let outward = [&outward[..], &[OUTSIDE]].concat();
    let map = inputs::nested_squares(count.into());
    assert_eq!(holders(&of_map(&map)), outward);
}

/// All triangles of a full map are the square's; none of the slivers is another's.
#[test]
fn full_maps() {
    let triangles = (NODE_LIMIT - 4) / 3;
    let loops = islands::triangles_in_a_square(triangles as i32);
    let expected = [vec![OUTSIDE], vec![0; triangles]].concat();
    assert_eq!(holders(&of_loops(&loops)), expected);
    let slivers = NODE_LIMIT / 3;
    let loops = islands::slivers(slivers as i32);
    assert_eq!(holders(&of_loops(&loops)), vec![OUTSIDE; slivers]);
}

/// A full map at each length that is too short, then at the first that is not.
#[test]
fn every_short_length() {
    let triangles = (NODE_LIMIT - 4) / 3;
    let map = segments(&islands::triangles_in_a_square(triangles as i32));
    let mut both = Comparison::default();
    cut(&traced(&map), &mut both);
    for length in 0..=triangles {
        let reply = both.lend_in_vain(&Call::Rings, &Lent::FULL.with_holes(length));
        assert_eq!(reply, Reply::Refused(13), "{length}");
    }
    assert_eq!(extracted(&mut both).len(), triangles + 1);
}

/// Each island is its cell's, and each triangle in an island that island's. The grid's outside is
/// nobody's.
#[test]
fn islands_in_cells() {
    for (across, up) in [(1, 1), (3, 2), (6, 7)] {
        let cells = (across * up) as usize;
        let records = of_map(&islands::islands_in_cells(across, up));
        assert_eq!((records.len(), held(&records)), (2 * cells + 1, 2 * cells));
        let mut holders = holders(&records);
        holders.sort_unstable();
        holders.dedup();
        assert_eq!(holders.len(), 2 * cells + 1);
        let records = of_map(&islands::touching_in_cells(across, up));
        assert_eq!((records.len(), held(&records)), (cells + 1, cells));
    }
}

/// All loops have one least node, so that the next one decides.
#[test]
fn touching_at_the_least_node() {
    for count in [2, 3, 9, 60] {
        let records = of_loops(&islands::nested_at_a_corner(count));
        let inward: Vec<u16> = (0..count as u16 - 1).map(|number| 2 * number).collect();
        assert_eq!(holders(&records), [&[OUTSIDE], &inward[..]].concat());
    }
    for count in [1, 2, 5, 60] {
        let inside = of_loops(&islands::fan_in_a_square(count));
        let expected = [vec![OUTSIDE], vec![0; count as usize]].concat();
        assert_eq!(holders(&inside), expected);
        let outside = of_map(&inputs::touching_triangles(count, false));
        assert_eq!(holders(&outside), vec![OUTSIDE; count as usize]);
    }
}

/// From the inside a triangle is held where its least node is not the one on the side: on the left side it
/// is. From the outside none is.
#[test]
fn corners_on_sides() {
    let loops = islands::corners_on_sides();
    let held = [0, 0, 0, OUTSIDE];
    let expected = [&[OUTSIDE; 1][..], &held, &[OUTSIDE; 4]].concat();
    assert_eq!(holders(&of_loops(&loops)), expected);
}

#[test]
fn crossings() {
    // The star is drawn clockwise: ring 0 is its outside.
    let stars = of_loops(&islands::pentagram([3, -4]));
    assert_eq!(holders(&stars), [OUTSIDE, OUTSIDE, 1, OUTSIDE]);
    for count in [1, 2, 5, 20] {
        let loops = islands::crossing_squares(count);
        let records = of_loops(&loops);
        // All have the same area: the one with the lowest face number comes first.
        assert_eq!(records.last().map(|hole| hole.holder), Some(0));
        let turned: Vec<Loop> = loops.into_iter().rev().collect();
        let records = of_loops(&turned);
        assert_eq!(records[0].holder, 2 * count as u16);
    }
}

/// A ring with more half-edges than there are nodes, which passes two of them twice and one not at all, holds
/// the ring through that one.
#[test]
fn long_but_not_everywhere() {
    let nodes = [[4, 0], [3, 4], [5, 4], [4, 5], [1, 6], [1, 3]];
    let lines = [
        (0, 4),
        (0, 5),
        (1, 2),
        (1, 4),
        (2, 4),
        (2, 5),
        (3, 4),
        (3, 5),
        (4, 5),
    ];
    let map: Vec<Segment> = lines.iter().map(|&(a, b)| [nodes[a], nodes[b]]).collect();
    assert_eq!(held(&of_map(&map)), 1);
}

/// Every family of a tracing, in another order and turned.
#[test]
fn in_any_order() {
    let mut random = Random::new(50);
    let mut both = Comparison::default();
    let mut found = [0; 2];
    for map in [
        segments(&islands::nested(20)),
        segments(&islands::nested_at_a_corner(12)),
        segments(&islands::fan_in_a_square(9)),
        segments(&islands::triangles_in_a_square(30)),
        segments(&islands::slivers(40)),
        islands::islands_in_cells(3, 3),
        islands::touching_in_cells(4, 3),
        segments(&islands::corners_on_sides()),
        segments(&islands::pentagram([0, 0])),
        segments(&islands::crossing_squares(6)),
        inputs::touching_squares(12),
        inputs::complete(12),
        inputs::overlaps(9),
        inputs::extremes(),
        inputs::grid(5, 4, 3),
    ] {
        for _ in 0..6 {
            let map = inputs::shuffled(map.clone(), &mut random);
            let records = records(&traced(&map), &mut both);
            found[0] += held(&records);
            found[1] += records.len() - held(&records);
        }
    }
    println!("{found:?} held and not, {:?}", both.tally);
    assert!(found.iter().all(|&count| count > 300));
}

// ---- random maps

/// Random loops that cross, touch and lie on one another's sides, and islands few of which do.
#[test]
fn random_loops() {
    let mut random = Random::new(51);
    let mut both = Comparison::default();
    let mut found = [0; 2];
    for number in 0..3000 {
        let count = 1 + number % 9;
        let loops = match number % 2 {
            0 => islands::any_loops(count, 3 + random.below(9), &mut random),
            _ => islands::any_islands(2 * count, 6 + random.below(20), &mut random),
        };
        let records = records(&traced(&segments(&loops)), &mut both);
        found[0] += held(&records);
        found[1] += records.len() - held(&records);
    }
    println!("{found:?} held and not, {:?}", both.tally);
    assert!(found.iter().all(|&count| count > 2000));
}

/// So many loops at once that they need nearly all edges, or a few more.
#[test]
fn random_full_maps() {
    let mut random = Random::new(52);
    let mut both = Comparison::default();
    for size in [12, 30, 100, 1000] {
        let loops = islands::any_islands(EDGE_LIMIT / 4, size, &mut random);
        records(&traced(&segments(&loops)), &mut both);
        let loops = islands::any_loops(EDGE_LIMIT / 5, size, &mut random);
        records(&traced(&segments(&loops)), &mut both);
    }
    println!("{:?}", both.tally);
}

// ---- tables that additions cannot make

/// Two nodes at one place are two nodes. With one node the square passes the triangle's least one, and the
/// next is inside; with two, the least is free and on the line.
#[test]
fn two_nodes_at_one_place() {
    let loops = [islands::square([0, 0], 6), vec![[0, 0], [4, 1], [1, 4]]];
    assert_eq!(holders(&of_loops(&loops)), [OUTSIDE, 0]);
    let mut both = Comparison::default();
    let apart = islands::apart(&loops, 1, &mut Random::new(53));
    assert_eq!(holders(&records(&apart, &mut both)), [OUTSIDE, OUTSIDE]);
    assert_eq!(both.counts(), [7, 7]);
}

/// Loops with nodes of their own, always or now and then, parallel edges and sides without length.
#[test]
fn random_tables() {
    let mut random = Random::new(54);
    let mut both = Comparison::default();
    let mut found = [0; 2];
    for number in 0..2000 {
        let (count, size) = (1 + number % 9, 3 + random.below(9));
        let loops = match number % 3 {
            0 => islands::any_loops(count, size, &mut random),
            _ => islands::any_islands(2 * count, 2 * size, &mut random),
        };
        let lines = islands::apart(&loops, 1 + number % 4, &mut random);
        let records = records(&lines, &mut both);
        found[0] += held(&records);
        found[1] += records.len() - held(&records);
    }
    println!("{found:?} held and not, {:?}", both.tally);
    assert!(found.iter().all(|&count| count > 2000));
}

/// Rings without area are neither open nor enclosed: no record is needed, and a list of none is enough.
#[test]
fn no_open_rings() {
    let mut both = Comparison::default();
    let parallel = islands::tables(&[[0, 0], [3, 1]], &[[0, 1], [1, 0], [0, 1]]);
    assert_eq!(records(&parallel, &mut both), []);
    let flat = inputs::loop_through(&[[0, 0], [1, 1], [2, 2]]);
    assert_eq!(records(&traced(&flat), &mut both), []);
    assert_eq!(records(&traced(&[]), &mut both), []);
}
