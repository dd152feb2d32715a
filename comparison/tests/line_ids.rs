//! The line ids behind each edge: additions that find their edge, a pair table that fills up, and files
//! with repeats. After each call both sides have the same in every entry, and the lists are the sets of
//! ids that the oracle keeps beside them.

use comparison::files::{self, compare, empty};
use comparison::inputs::{
    self, addition, any_passes, from_new, set, Point, Segment, DEGREES, HALF_MARKS, LINE_IDS,
    LINKS, LIST_PLACES, PAIR_IDS, SOURCES, STARS, STEPS, TARGETS,
};
use comparison::random::Random;
use comparison::Comparison;
use oracle::calls::Line;
use oracle::state::{Call, Lent, Reply, Side, State, EDGE_LIMIT, LIST_END, NODE_LIMIT, PAIR_LIMIT};
use oracle::{line_ids, Oracle};
use std::collections::BTreeSet;
use tukmiheb::{Coord3D, EdgeId, Graph};

const TRIANGLE: [Point; 3] = [[0, 0], [4, 0], [0, 3]];

fn old(edge: u16) -> Reply {
    Reply::Edge { edge, new: false }
}

// ---- additions

/// Few points and few ids, in graphs that go through all steps now and then.
#[test]
fn few_ids() {
    let mut both = Comparison::default();
    let mut random = Random::new(30);
    for number in 0..400 {
        let points = [[0, 0], [1, 0], [0, 1], [1, 1], [2, 1]];
        let map = inputs::pairs(&points[..2 + number % 4]);
        let ids = 2 + random.below(9);
        let mut calls = Vec::new();
        for _ in 0..3 {
            let passes = any_passes(random.below(20), &map, ids, &mut random);
            calls.extend(passes.into_iter().map(Call::Add));
            if random.once_in(2) {
                calls.extend(STEPS);
                calls.push(Call::Reset);
            }
        }
        both.run(&from_new(calls));
    }
    println!("{:?}", both.tally);
}

/// Rising ids, falling ones, and by turns higher and lower than all others; the highest and the lowest
/// that there are.
#[test]
fn orders_of_ids() {
    let mut both = Comparison::default();
    let turn = |pass: u32| match pass % 2 {
        0 => 100 + pass,
        _ => 100 - pass,
    };
    let orders: [Vec<u32>; 4] = [
        (0..60).collect(),
        (0..60).rev().collect(),
        (0..60).map(turn).collect(),
        vec![u32::MAX, 0, u32::MAX - 1, 1, 1, u32::MAX, 0],
    ];
    for order in orders {
        let ids: BTreeSet<u32> = order.iter().copied().collect();
        let pass = |id: u32| addition([[0, 0], [4, 3]], id);
        both.run(&from_new(order.into_iter().map(pass)));
        for state in both.states() {
            assert!(line_ids::ids(0, &state.tables).eq(ids.iter().copied()));
        }
    }
}

/// Many passes over three borders.
#[test]
fn many_passes() {
    let mut both = Comparison::default();
    let map = inputs::loop_through(&TRIANGLE);
    let passes = any_passes(1200, &map, 300, &mut Random::new(31));
    both.run(&from_new(passes.into_iter().map(Call::Add)));
    assert_eq!(both.counts(), [3, 3]);
    assert_eq!(both.tally.refused, 0);
}

/// The wrapper hands out the ids that each edge must have.
#[test]
fn through_the_wrapper() {
    let map = inputs::grid(3, 2, 5);
    let mut graph = Graph::new();
    let mut oracle = Oracle::default();
    for line in any_passes(400, &map, 12, &mut Random::new(32)) {
        let [start, end] = [line.start, line.end].map(|end| Coord3D::new(end.x, end.y, end.z));
        let added = graph.add_line(&tukmiheb::Line3D::new(start, end, line.line_id));
        assert!(added.is_ok());
        oracle.call(&Call::Add(line), &Lent::FULL);
        for (edge, must) in (0..).zip(oracle.line_ids()) {
            assert!(graph.line_ids(EdgeId(edge)).eq(must.iter().copied()));
        }
    }
    assert_eq!(graph.edge_count(), map.len());
    assert_eq!(graph.line_ids(EdgeId(map.len() as u16)).next(), None);
}

// ---- a full table

/// So many passes over a map's segments by turns, made by the oracle alone. Each has an id of its own,
/// a multiple of ten, in a random order.
fn passed(map: &[Segment], passes: usize, random: &mut Random) -> (State, Vec<u32>) {
    let mut oracle = Oracle::over(empty());
    let mut ids: Vec<u32> = (1..=passes as u32).map(|id| 10 * id).collect();
    random.shuffle(&mut ids);
    for (&segment, &id) in map.iter().cycle().zip(&ids) {
        let reply = oracle.call(&addition(segment, id), &Lent::FULL);
        assert!(matches!(reply, Reply::Edge { .. }), "{reply:?}");
    }
    (oracle.state().clone(), ids)
}

/// The last pairs of the table on both sides, and then number 12: for an id that an edge lacks, lower
/// or higher than its others or another edge's, and for a new edge, between old nodes or not. A known
/// id is never too many.
#[test]
fn a_full_table() {
    let map = inputs::loop_through(&[[0, 0], [4, 0], [4, 3], [0, 3]]);
    let (state, ids) = passed(&map, PAIR_LIMIT - 20, &mut Random::new(33));
    let mut both = Comparison::over(state);
    for pass in 0..20 {
        let call = addition(map[pass % 4], 5 + 500 * pass as u32);
        let added = both.call(&call, &Lent::FULL);
        assert_eq!(added, Ok(old(pass as u16 % 4)));
    }
    for (segment, id) in [
        (map[0], 0),
        (map[0], 12_345),
        (map[0], u32::MAX),
        (map[0], ids[1]),
        (map[1], ids[0]),
        ([[0, 0], [4, 3]], ids[0]),
        ([[0, 0], [9, 9]], 3),
        ([[7, 7], [8, 8]], 3),
    ] {
        let reply = both.call_in_vain(&addition(segment, id));
        assert_eq!(reply, Reply::Refused(12), "{segment:?} {id}");
    }
    for (number, &id) in ids.iter().enumerate().step_by(37) {
        let [a, b] = map[number % 4];
        let reply = both.call_in_vain(&addition([b, a], id));
        assert_eq!(reply, old(number as u16 % 4));
    }
}

/// The steps and resetting free no place; a new graph has all of them.
#[test]
fn a_full_table_through_all_steps() {
    let map = inputs::loop_through(&TRIANGLE);
    let (state, ids) = passed(&map, PAIR_LIMIT, &mut Random::new(40));
    let mut both = Comparison::over(state);
    both.run(&STEPS.map(Line::Call));
    both.run(&[Line::Call(Call::Reset)]);
    assert_eq!(both.tally.refused, 0);
    let refused = both.call_in_vain(&addition(map[1], 2));
    assert_eq!(refused, Reply::Refused(12));
    assert_eq!(both.call_in_vain(&addition(map[1], ids[1])), old(1));
    both.run(&from_new([3, 2].map(|id| addition(map[0], id))));
    let tables = &both.states()[0].tables;
    assert!(line_ids::places(0, tables).eq([1, 0]));
}

/// From the first pass to the one that is refused, in calls of the library: one list falls and the
/// other rises.
#[test]
fn filling_the_table() {
    let mut both = Comparison::default();
    let [a, b, _] = inputs::loop_through(&TRIANGLE)[..] else {
        panic!("three sides");
    };
    let count = PAIR_LIMIT as u32;
    let passes = (0..count / 2).flat_map(|pass| [addition(a, count - pass), addition(b, pass)]);
    both.run(&from_new(passes));
    assert_eq!(both.tally.refused, 0);
    let reply = both.call_in_vain(&addition(b, count));
    assert_eq!(reply, Reply::Refused(12));
}

/// Numbers 3 and 4 come before 12: a star with as many nodes as there may be, and then as many edges.
#[test]
fn full_of_everything() {
    let spoke = |end: usize| [[0, 0], [1, end as i32]];
    let spokes: Vec<_> = (1..NODE_LIMIT).map(spoke).collect();
    let (state, _) = passed(&spokes, PAIR_LIMIT - 1, &mut Random::new(34));
    let mut both = Comparison::over(state);
    let [[_, a], [_, b], [_, c]] = [spokes[0], spokes[1], spokes[2]];
    let far = [9, 9];
    let in_vain = |both: &mut Comparison, segment: Segment, id: u32| {
        let reply = both.call_in_vain(&addition(segment, id));
        assert!(matches!(reply, Reply::Refused(_)), "{reply:?}");
        reply
    };
    assert_eq!(in_vain(&mut both, [a, far], 5), Reply::Refused(3));
    assert_eq!(in_vain(&mut both, [far, [8, 8]], 5), Reply::Refused(3));
    let (edge, new) = (EDGE_LIMIT as u16 - 1, true);
    let last = both.call(&addition([a, b], 5), &Lent::FULL);
    assert_eq!(last, Ok(Reply::Edge { edge, new }));
    assert_eq!(in_vain(&mut both, [b, a], 6), Reply::Refused(12));
    assert_eq!(in_vain(&mut both, [a, c], 5), Reply::Refused(4));
    assert_eq!(in_vain(&mut both, [a, far], 5), Reply::Refused(3));
    assert_eq!(in_vain(&mut both, [a, a], 5), Reply::Refused(2));
    assert_eq!(both.call_in_vain(&addition([b, a], 5)), old(edge));
}

/// A longer table that is lent has no more pairs: number 12 comes at the same pass, and what lies past
/// the limit stays.
#[test]
fn a_longer_table() {
    let side = [[0, 0], [4, 0]];
    let (mut state, _) = passed(&[side], PAIR_LIMIT - 1, &mut Random::new(35));
    state.tables.pairs_id.extend([7; 9]);
    state.tables.pairs_next.extend([LIST_END; 9]);
    let mut both = Comparison::over(state);
    assert_eq!(both.call(&addition(side, 1), &Lent::FULL), Ok(old(0)));
    for id in [0, 2, 7] {
        let reply = both.call_in_vain(&addition(side, id));
        assert_eq!(reply, Reply::Refused(12));
    }
}

/// Two edges between two nodes, (0, 0) and (1, 0), the second first in the star of node 0 and last in
/// that of node 1. The first has the id 5 at place 0, and the second all other places.
fn parallel_edges() -> Vec<Line> {
    let mut lines = from_new([addition([[0, 0], [1, 0]], 5)]);
    lines.push(Line::Graph([2, 2, 0]));
    for (half, start, end) in [(2, 0, 1), (3, 1, 0)] {
        lines.extend([set(SOURCES, half, start), set(TARGETS, half, end)]);
        lines.extend([set(HALF_MARKS, half, 0), set(DEGREES, start, 2)]);
    }
    let stars = [2, 0, 1, 3].into_iter().enumerate();
    lines.extend(stars.map(|(place, half)| set(STARS, place, half)));
    lines.extend([set(LINE_IDS, 1, 10), set(LIST_PLACES, 1, 1)]);
    for place in 1..PAIR_LIMIT {
        lines.extend([
            set(PAIR_IDS, place, 10 * place),
            set(LINKS, place, place + 1),
        ]);
    }
    lines.push(set(LINKS, PAIR_LIMIT - 1, LIST_END.into()));
    lines
}

/// Either way round the first in the start's star is found, and known means known to that one.
#[test]
fn known_to_a_parallel_edge() {
    let [there, back] = [[[0, 0], [1, 0]], [[1, 0], [0, 0]]];
    let mut both = Comparison::default();
    both.run(&parallel_edges());
    let mut reply = |segment: Segment, id: u32| both.call_in_vain(&addition(segment, id));
    assert_eq!(reply(there, 10), old(1));
    assert_eq!(reply(there, 5), Reply::Refused(12));
    assert_eq!(reply(back, 5), old(0));
    assert_eq!(reply(back, 10), Reply::Refused(12));
    // With the last place free, an id goes to the one that is found.
    for (segment, edge) in [(there, 1), (back, 0)] {
        both.run(&parallel_edges());
        both.run(&[set(LINKS, PAIR_LIMIT - 2, LIST_END.into())]);
        let added = both.call(&addition(segment, 7), &Lent::FULL);
        assert_eq!(added, Ok(old(edge)));
    }
}

// ---- files

/// Repeats and new ids, file after file on one graph; the same file once more brings nothing new.
#[test]
fn files_of_passes() {
    let mut random = Random::new(37);
    for number in 0..300 {
        let mut state = empty();
        let map = inputs::grid(1 + number as i32 % 4, 1, 3);
        for _ in 0..3 {
            let passes = any_passes(random.below(60), &map, 2 + number % 30, &mut random);
            let count = passes.len() as u64;
            let bytes = files::records(passes);
            let (answer, after) = compare(&state, &bytes, &Lent::FULL);
            assert_eq!(answer, Ok([count, 0]));
            let (again, same) = compare(&after, &bytes, &Lent::FULL);
            assert_eq!(again, answer);
            assert_eq!(same.difference(&after), None);
            state = after;
        }
    }
}

/// A file that fills the table: it ends at the first record that needs one pair more. The records with
/// known ids before that one are taken, those behind it are not looked at.
#[test]
fn a_file_that_fills_the_table() {
    let mut random = Random::new(38);
    let map = inputs::loop_through(&TRIANGLE);
    let sides = map.iter().cycle().zip((0..PAIR_LIMIT as u32).rev());
    let falling: Vec<_> = sides
        .map(|(&side, id)| inputs::segment_line(side, id))
        .collect();
    let mut shuffled = falling.clone();
    random.shuffle(&mut shuffled);
    let new_id = inputs::segment_line(map[0], PAIR_LIMIT as u32);
    let new_edge = inputs::segment_line([[7, 7], [8, 8]], 0);
    for (passes, stop) in [(falling, new_id), (shuffled, new_edge)] {
        let repeats: Vec<_> = (0..50).map(|_| random.pick(&passes)).collect();
        let taken = [&passes[..], &repeats].concat();
        let lines = [&taken[..], &[stop], &repeats].concat();
        let (answer, state) = compare(&empty(), &files::records(lines), &Lent::FULL);
        assert_eq!(answer, Ok([taken.len() as u64, 12]));
        assert_eq!(line_ids::lowest_free(map.len(), &state.tables), None);
    }
}

/// Files behind sound tables that additions cannot make, with lists anywhere and edges that are
/// parallel.
#[test]
fn files_behind_sound_tables() {
    let mut random = Random::new(39);
    let points: Vec<Point> = (0..9).map(|place| [place % 3, place / 3]).collect();
    let map = inputs::pairs(&points);
    for number in 0..400 {
        let (nodes, edges) = match number % 100 {
            0 => (NODE_LIMIT, EDGE_LIMIT),
            _ => (2 + random.below(8), random.below(16)),
        };
        let mut both = Comparison::default();
        both.run(&inputs::sound_tables(nodes, edges, &mut random));
        both.run(&[Line::Call(Call::Reset)]);
        let bytes = files::records(any_passes(20, &map, 20, &mut random));
        let (answer, _) = compare(both.states()[0], &bytes, &Lent::FULL);
        assert!(answer.is_ok(), "{answer:?}");
    }
}
