//! Whether the order of tracing decides which borders count as loose: a map traced in many orders
//! has the same dangling segments every time, and what is left of it is what two slow readings
//! leave. Each list of dangles is compared with the original's, entry by entry.

use comparison::inputs::{self, Segment};
use comparison::random::Random;
use comparison::Comparison;
use oracle::calls::Line;
use oracle::listing;
use oracle::original::{Coord3D, Line3D};
use oracle::state::{Call, Lent, Reply, State};
use std::collections::BTreeSet;
use std::path::Path;

/// Segments, each with its lower end first, so that it does not matter which way it was traced.
type Borders = BTreeSet<Segment>;

fn border([a, b]: Segment) -> Segment {
    [a.min(b), a.max(b)]
}

/// What a map has to be pruned: a segment that was traced twice is one border, a point is none.
fn borders(map: &[Segment]) -> Borders {
    let segments = map.iter().filter(|[a, b]| a != b);
    segments.map(|&segment| border(segment)).collect()
}

// ---- the two sides

/// The dangling segments of a map, in the order in which both sides list them.
fn dangles(map: &[Segment], both: &mut Comparison) -> Vec<Segment> {
    both.run(&inputs::traced(map));
    both.run(&[Line::Call(Call::Sort)]);
    match both.call(&Call::Prune, &Lent::FULL) {
        Ok(Reply::Dangles(count)) => {
            let [library, oracle] = both.states().map(|state| listed(count, state));
            assert_eq!(library, oracle);
            library
        }
        other => panic!("{other:?}"),
    }
}

fn listed(count: u16, state: &State) -> Vec<Segment> {
    let edges = state.lists.edges[..usize::from(count)].iter();
    let line = |&edge: &u16| {
        let first = 6 * usize::from(edge);
        let whole = |place: usize| state.tables.edges_line[first + place] as i32;
        border([[whole(0), whole(1)], [whole(3), whole(4)]])
    };
    edges.map(line).collect()
}

// ---- slow readings

/// Whether one of the segment's ends is touched by no other of these.
fn is_loose(segment: Segment, among: &[Segment]) -> bool {
    segment.iter().any(|end| {
        let touching = among.iter().filter(|other| other.contains(end));
        touching.count() == 1
    })
}

/// What is left where loose segments are taken away, any of them next, until there is none.
fn peeled(map: &Borders, random: &mut Random) -> Borders {
    let mut left: Vec<Segment> = map.iter().copied().collect();
    loop {
        let places = 0..left.len();
        let loose: Vec<usize> = places.filter(|&at| is_loose(left[at], &left)).collect();
        if loose.is_empty() {
            return left.into_iter().collect();
        }
        left.swap_remove(random.pick(&loose));
    }
}

/// The largest set of segments in which each touched node has two or more of the set, found among
/// all sets. It has all the others in it, so no other is as large.
fn largest(map: &Borders) -> Borders {
    let map: Vec<Segment> = map.iter().copied().collect();
    let sets = (0..1 << map.len()).map(|mask| inputs::chosen(mask, &map));
    let held = sets.filter(|set| !set.iter().any(|&segment| is_loose(segment, set)));
    let held: Vec<Borders> = held.map(|set| set.into_iter().collect()).collect();
    let largest = held.iter().max_by_key(|set| set.len());
    let largest = largest.expect("the empty set is one").clone();
    assert!(held.iter().all(|set| set.is_subset(&largest)));
    largest
}

// ---- one map in many orders

/// As given, reversed and sorted, each also with the ends of every segment swapped; then shuffled,
/// with the ends of some swapped.
fn orders(map: &[Segment], random: &mut Random) -> Vec<Vec<Segment>> {
    let given = map.to_vec();
    let reversed = map.iter().rev().copied().collect();
    let mut sorted = given.clone();
    sorted.sort_unstable();
    let mut orders = vec![given, reversed, sorted];
    let swapped = |order: &Vec<Segment>| order.iter().map(|&[a, b]| [b, a]).collect();
    orders.extend(orders.iter().map(swapped).collect::<Vec<_>>());
    orders.extend((0..12).map(|_| inputs::shuffled(map.to_vec(), random)));
    orders
}

/// The dangling segments of a map, which are the same set in every order, and how many different
/// lists of them the orders give.
fn in_any_order(map: &[Segment], both: &mut Comparison, random: &mut Random) -> (Borders, usize) {
    let all = borders(map);
    let left = peeled(&all, random);
    for _ in 0..5 {
        assert_eq!(peeled(&all, random), left, "{map:?}");
    }
    let loose = &all - &left;
    let mut lists = BTreeSet::new();
    for order in orders(map, random) {
        let list = dangles(&order, both);
        assert_eq!(list.len(), loose.len(), "each is listed once: {order:?}");
        assert_eq!(Borders::from_iter(list.clone()), loose, "{order:?}");
        lists.insert(list);
    }
    (loose, lists.len())
}

// ---- maps

/// The sample's segments with their line ids.
fn waist() -> Vec<Line3D> {
    let path = Path::new(env!("CARGO_MANIFEST_DIR")).join("../samples/waist.seg");
    let bytes = std::fs::read(path).expect("the sample");
    let lines = listing::segments(&bytes);
    lines
        .map(|line| line.expect("a good record").expect("a segment"))
        .collect()
}

fn segments<'a>(lines: impl IntoIterator<Item = &'a Line3D>) -> Vec<Segment> {
    let point = |end: Coord3D| [end.x as i32, end.y as i32];
    let lines = lines.into_iter();
    lines
        .map(|line| [point(line.start), point(line.end)])
        .collect()
}

/// Its one loose end, the segments of line 5, in every order.
#[test]
fn waist_in_any_order() {
    const LOOSE_END: u32 = 5;
    let lines = waist();
    assert_eq!(lines.len(), 26);
    let loose = segments(lines.iter().filter(|line| line.line_id == LOOSE_END));
    let mut both = Comparison::default();
    let found = in_any_order(&segments(&lines), &mut both, &mut Random::new(14));
    assert_eq!(found, (borders(&loose), 1));
}

/// The sample with two segments missed by the operator, which opens borders that were closed.
#[test]
fn waist_with_gaps() {
    let whole = segments(&waist());
    let mut both = Comparison::default();
    let mut random = Random::new(15);
    let mut most = 0;
    for missed in 0..whole.len() {
        let mut map = whole.clone();
        map.remove(missed);
        map.remove(random.below(map.len()));
        let (loose, _) = in_any_order(&map, &mut both, &mut random);
        most = most.max(loose.len());
    }
    println!("up to {most} loose, {:?}", both.tally);
    assert!(most > 3);
}

/// Maps of about as many segments as points: mostly trees, some on rings. The set is one, but the
/// orders list it differently.
#[test]
fn maps_of_loose_ends() {
    let mut both = Comparison::default();
    let mut random = Random::new(16);
    let (mut loose_in_all, mut lists_in_all) = (0, 0);
    for number in 0..120 {
        let points = 4 + number / 2;
        let edges = points - points / 8 + random.below(4);
        let map = inputs::random_map(edges, points, 30, &mut random);
        let (loose, lists) = in_any_order(&map, &mut both, &mut random);
        loose_in_all += loose.len();
        lists_in_all += lists;
    }
    println!(
        "{loose_in_all} loose, {lists_in_all} lists, {:?}",
        both.tally
    );
    assert!(loose_in_all > 1500 && lists_in_all > 1000);
}

/// Small maps, where all sets of segments can be looked at.
#[test]
fn the_largest_set_is_left() {
    let mut both = Comparison::default();
    let mut random = Random::new(17);
    let mut both_kinds = 0;
    for number in 0..200 {
        let map = inputs::random_map(3 + number % 8, 4 + random.below(5), 2, &mut random);
        let (loose, _) = in_any_order(&map, &mut both, &mut random);
        let left = largest(&borders(&map));
        assert_eq!(&borders(&map) - &loose, left, "{map:?}");
        both_kinds += usize::from(!loose.is_empty() && !left.is_empty());
    }
    println!("{both_kinds} maps with loose segments and others");
    assert!(both_kinds > 20);
}
