//! Request §1: the line ids of every addition behind an edge, and where they stand in the tables.

use oracle::original::{Coord3D, Line3D};
use oracle::state::{Call, Lent, Reply, Side, State, EDGE_LIMIT, LIST_END, NODE_LIMIT, PAIR_LIMIT};
use oracle::{line_ids, listing, records, Oracle};
use std::collections::{BTreeMap, BTreeSet};

type Point = [i32; 2];

fn line([x1, y1]: Point, [x2, y2]: Point, line_id: u32) -> Line3D {
    Line3D {
        start: Coord3D::new(x1.into(), y1.into(), 0.0),
        end: Coord3D::new(x2.into(), y2.into(), 0.0),
        line_id,
    }
}

/// An empty graph over tables of lists that hold other things.
fn over_other_things() -> Oracle {
    let mut state = State::default();
    state.tables.edges_list_place.fill(7);
    state.tables.pairs_id.fill(7);
    state.tables.pairs_next.fill(7);
    Oracle::over(state)
}

fn add(oracle: &mut Oracle, a: Point, b: Point, id: u32) -> Reply {
    oracle.call(&Call::Add(line(a, b, id)), &Lent::FULL)
}

/// The same, where it is refused or finds an edge that has the id: nothing changes.
fn add_in_vain(oracle: &mut Oracle, a: Point, b: Point, id: u32) -> Reply {
    let before = oracle.state().clone();
    let reply = add(oracle, a, b, id);
    assert_eq!(oracle.state().difference(&before), None, "{reply:?}");
    reply
}

fn old(edge: u16) -> Reply {
    Reply::Edge { edge, new: false }
}

fn new(edge: u16) -> Reply {
    Reply::Edge { edge, new: true }
}

/// The ids of an edge, which the set and the list have to agree on.
fn ids(oracle: &Oracle, edge: usize) -> Vec<u32> {
    let listed: Vec<u32> = line_ids::ids(edge, &oracle.state().tables).collect();
    assert!(oracle.line_ids()[edge].iter().eq(&listed));
    assert_eq!(oracle.state().tables.edges_line_id[edge], listed[0]);
    listed
}

/// Ids 5, 3 and 4 on one edge: each pair stays where it was put, a lower id becomes the first, and
/// the stored segment is the first one's.
#[test]
fn the_lowest_id_comes_first() {
    let mut oracle = over_other_things();
    let [a, b] = [[0, 0], [1, 0]];
    assert_eq!(add(&mut oracle, a, b, 5), new(0));
    assert_eq!(add(&mut oracle, b, a, 3), old(0));
    assert_eq!(add(&mut oracle, a, b, 4), old(0));
    assert_eq!(ids(&oracle, 0), [3, 4, 5]);
    let tables = &oracle.state().tables;
    assert!(line_ids::places(0, tables).eq([1, 2, 0]));
    assert_eq!(tables.edges_list_place[..2], [1, 7]);
    assert_eq!(tables.pairs_id[..4], [5, 3, 4, 7]);
    assert_eq!(tables.pairs_next[..4], [LIST_END, 2, 0, 7]);
    assert_eq!(tables.edges_line_id[..2], [3, 0]);
    assert_eq!(tables.edges_line[..6], [0.0, 0.0, 0.0, 1.0, 0.0, 0.0]);
}

#[test]
fn a_known_id_changes_nothing() {
    let mut oracle = over_other_things();
    let [a, b] = [[0, 0], [1, 0]];
    for id in [5, 0, u32::MAX] {
        add(&mut oracle, a, b, id);
    }
    for id in [0, 5, u32::MAX] {
        assert_eq!(add_in_vain(&mut oracle, a, b, id), old(0));
        assert_eq!(add_in_vain(&mut oracle, b, a, id), old(0));
    }
    assert_eq!(ids(&oracle, 0), [0, 5, u32::MAX]);
}

/// Two edges with the same ids by turns: the lists share the table and no place.
#[test]
fn edges_share_the_table() {
    let mut oracle = over_other_things();
    let [a, b, c] = [[0, 0], [1, 0], [2, 0]];
    for id in [2, 9, 4] {
        add(&mut oracle, a, b, id);
        add(&mut oracle, c, b, id);
    }
    let tables = &oracle.state().tables;
    for edge in 0..2 {
        assert_eq!(ids(&oracle, edge), [2, 4, 9]);
        assert!(line_ids::places(edge, tables).eq([0, 4, 2].map(|place| place + edge)));
    }
}

/// Lists somewhere in the table, as additions would not put them: what comes next takes the lowest
/// place that is free, and the contents of free places stay until then.
#[test]
fn the_lowest_free_place() {
    let mut oracle = over_other_things();
    let [a, b, c] = [[0, 0], [1, 0], [2, 0]];
    add(&mut oracle, a, b, 5);
    let tables = &mut oracle.state_mut().tables;
    let last = PAIR_LIMIT as u16 - 1;
    tables.edges_list_place[0] = last;
    tables.pairs_id[usize::from(last)] = 5;
    tables.pairs_next[usize::from(last)] = 1;
    (tables.pairs_id[1], tables.pairs_next[1]) = (8, LIST_END);
    let before = tables.clone();
    add(&mut oracle, b, c, 6);
    add(&mut oracle, b, a, 7);
    add(&mut oracle, c, b, 1);
    let tables = &oracle.state().tables;
    assert!(line_ids::places(0, tables).eq([usize::from(last), 2, 1]));
    assert!(line_ids::places(1, tables).eq([3, 0]));
    assert_eq!(ids(&oracle, 0), [5, 7, 8]);
    assert_eq!(ids(&oracle, 1), [1, 6]);
    let free = 4..usize::from(last);
    assert_eq!(tables.pairs_id[free.clone()], before.pairs_id[free.clone()]);
    assert_eq!(tables.pairs_next[free.clone()], before.pairs_next[free]);
}

/// Few points and few ids, beside a history of what was accepted, by the ends alone.
#[test]
fn random_additions() {
    let mut seed: u64 = 1;
    let mut below = |limit: u32| {
        seed = seed.wrapping_mul(6_364_136_223_846_793_005);
        seed = seed.wrapping_add(1_442_695_040_888_963_407);
        (seed >> 33) as u32 % limit
    };
    for run in 0..200 {
        let mut oracle = over_other_things();
        let mut history: BTreeMap<[Point; 2], BTreeSet<u32>> = BTreeMap::new();
        let mut order = Vec::new();
        let points = 2 + run % 4;
        for _ in 0..40 {
            let [a, b] = [0; 2].map(|_| [below(points) as i32, 0]);
            let id = below(8);
            let ends = [a.min(b), a.max(b)];
            match add(&mut oracle, a, b, id) {
                Reply::Edge { edge, new } => {
                    assert_eq!(new, !history.contains_key(&ends));
                    if new {
                        order.push(ends);
                    }
                    assert_eq!(order[usize::from(edge)], ends);
                    history.entry(ends).or_default().insert(id);
                }
                refused => assert_eq!((refused, a), (Reply::Refused(2), b)),
            }
            for (edge, ends) in order.iter().enumerate() {
                assert!(history[ends].iter().eq(&ids(&oracle, edge)));
            }
        }
        for call in [Call::Sort, Call::Prune, Call::Cut, Call::Rings, Call::Reset] {
            let lists = oracle.line_ids().to_vec();
            let reply = oracle.call(&call, &Lent::FULL);
            assert!(!matches!(reply, Reply::Refused(_)), "{call:?} {reply:?}");
            assert_eq!(oracle.line_ids(), lists);
        }
        let used: usize = history.values().map(BTreeSet::len).sum();
        assert_eq!(
            line_ids::lowest_free(order.len(), &oracle.state().tables),
            Some(used)
        );
    }
}

/// So many passes over a few edges by turns, each with an id of its own from a million down, so that
/// every one is put first.
fn pass_over(oracle: &mut Oracle, edges: &[[Point; 2]], passes: usize) {
    for (pass, &[a, b]) in edges.iter().cycle().take(passes).enumerate() {
        let id = 1_000_000 - pass as u32;
        let reply = add(oracle, a, b, id);
        assert!(matches!(reply, Reply::Edge { .. }), "{pass}: {reply:?}");
    }
}

/// Number 12 with as many pairs as the table has: an id that the edge lacks and a new edge, also one
/// whose ends are there. A known id costs nothing.
#[test]
fn full_of_pairs() {
    let mut oracle = over_other_things();
    let [a, b, c, d] = [[0, 0], [1, 0], [2, 0], [3, 0]];
    pass_over(&mut oracle, &[[a, b], [b, c], [c, d]], PAIR_LIMIT);
    assert_eq!(add_in_vain(&mut oracle, b, a, 5), Reply::Refused(12));
    assert_eq!(add_in_vain(&mut oracle, b, a, 1_000_000), old(0));
    assert_eq!(add_in_vain(&mut oracle, b, c, 999_999), old(1));
    assert_eq!(
        add_in_vain(&mut oracle, b, c, 1_000_000),
        Reply::Refused(12)
    );
    assert_eq!(add_in_vain(&mut oracle, a, d, 5), Reply::Refused(12));
    assert_eq!(
        add_in_vain(&mut oracle, [7, 7], [8, 8], 5),
        Reply::Refused(12)
    );
    assert_eq!(add_in_vain(&mut oracle, a, a, 5), Reply::Refused(2));
    for call in [Call::Sort, Call::Prune, Call::Cut, Call::Rings, Call::Reset] {
        let reply = oracle.call(&call, &Lent::FULL);
        assert!(!matches!(reply, Reply::Refused(_)), "{call:?} {reply:?}");
    }
    assert_eq!(add_in_vain(&mut oracle, b, a, 5), Reply::Refused(12));
    let lists = oracle.line_ids().iter().map(BTreeSet::len);
    assert_eq!(lists.sum::<usize>(), PAIR_LIMIT);
}

/// Numbers 3 and 4 come before 12, on a star with as many nodes as there may be.
#[test]
fn full_of_everything() {
    let mut oracle = over_other_things();
    let spoke = |end: usize| [[0, 0], [1, end as i32]];
    let spokes: Vec<_> = (1..NODE_LIMIT).map(spoke).collect();
    pass_over(&mut oracle, &spokes, PAIR_LIMIT - 1);
    let far = [9, 9];
    let [[_, first], [_, second], [_, third]] = [1, 2, 3].map(spoke);
    assert_eq!(add_in_vain(&mut oracle, first, far, 5), Reply::Refused(3));
    let edge = EDGE_LIMIT as u16 - 1;
    assert_eq!(add(&mut oracle, first, second, 5), new(edge));
    assert_eq!(
        add_in_vain(&mut oracle, first, second, 6),
        Reply::Refused(12)
    );
    assert_eq!(add_in_vain(&mut oracle, second, first, 5), old(edge));
    assert_eq!(add_in_vain(&mut oracle, first, third, 5), Reply::Refused(4));
    assert_eq!(add_in_vain(&mut oracle, first, far, 5), Reply::Refused(3));
}

/// A file of passes over one border: the record that finds no place is refused, one with a known id
/// is not.
#[test]
fn a_file_of_passes() {
    let record = |id: usize| records::segment(&line([0, 0], [1, 0], id as u32));
    let mut bytes: Vec<u8> = (0..PAIR_LIMIT).flat_map(record).collect();
    let listed = |bytes: &[u8]| listing::listing(bytes, &mut Oracle::default());
    let head = "nodes 2 edges 1 dangles 1 cuts 0 rings 0 euler yes\n";
    assert_eq!(listed(&bytes), head);
    bytes.extend(record(77));
    assert_eq!(listed(&bytes), head);
    bytes.extend(record(PAIR_LIMIT));
    let refused = format!("refused 12 record {}\n", PAIR_LIMIT + 1);
    assert_eq!(listed(&bytes), refused);
}
