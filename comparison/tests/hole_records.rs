//! The hole list as the library writes it: its records byte by byte, and through the wrapper.

use comparison::inputs::{self, traced, Segment, STEPS};
use comparison::islands::{self, segments};
use comparison::random::Random;
use comparison::{lend_lists, Packed};
use oracle::calls::Line;
use oracle::state::{Call, Hole, Lent, Reply, Side, State, HOLE_LIST_LENGTH, OUTSIDE};
use oracle::Oracle;
use std::mem::{align_of, offset_of, size_of};
use tukmiheb::entries::{self, HoleRecord, RINGS_LENGTH};
use tukmiheb::{Coord3D, Graph, Line3D, Refusal};

/// The state of a map in stage 3, over tables that hold other things.
fn cut(map: &[Segment]) -> State {
    let mut oracle = Oracle::over(comparison::filled());
    for line in traced(map) {
        if let Line::Call(call) = line {
            oracle.call(&call, &Lent::FULL);
        }
    }
    for step in &STEPS[..3] {
        oracle.call(step, &Lent::FULL);
    }
    oracle.state().clone()
}

/// The oracle's records of a state in stage 3.
fn records(state: State) -> Vec<Hole> {
    let mut oracle = Oracle::over(state);
    match oracle.call(&Call::Rings, &Lent::FULL) {
        Reply::Rings { holes, .. } => oracle.state().lists.holes[..usize::from(holes)].to_vec(),
        reply => panic!("{reply:?}"),
    }
}

// ---- records as bytes

/// What stands in every word of a hole list before.
const OTHER: [u64; 2] = [0xa1a2_a3a4_a5a6_a7a8, 0xb1b2_b3b4_b5b6_b7b8];

/// Ring extraction on a hole list that lies within these words, the first and the last left out.
fn extract_into(words: &mut [[u64; 2]], state: &State) -> Result<usize, Refusal> {
    let mut small = [state.nodes, state.edges, state.stage];
    let mut packed = Packed::of(&state.tables);
    let mut lists = state.lists.clone();
    let mut reply = [0; RINGS_LENGTH];
    let length = words.len() - 2;
    // SAFETY: a record has the size and the alignment of two words, and all bits make one.
    let holes = unsafe {
        let first = words.as_mut_ptr().add(1).cast::<HoleRecord>();
        std::slice::from_raw_parts_mut(first, length)
    };
    lend_lists(&mut lists, &Lent::FULL, |mut lists| {
        let slices = &mut packed.lend(&Lent::FULL);
        entries::extract_rings(holes, &mut small, slices, &mut lists.rings, &mut reply)
    })?;
    Ok(reply[8].into())
}

/// A record by the bytes of its words.
fn record_of([head, doubled]: [u64; 2]) -> Hole {
    let bytes = head.to_ne_bytes();
    Hole {
        ring: u16::from_ne_bytes([bytes[0], bytes[1]]),
        holder: u16::from_ne_bytes([bytes[2], bytes[3]]),
        doubled: doubled as i64,
    }
}

/// As C lays them out: ring and holder in the first four bytes, the doubled area in the last eight.
#[test]
fn layout_of_a_record() {
    assert_eq!(size_of::<HoleRecord>(), size_of_val(&OTHER));
    assert_eq!(align_of::<HoleRecord>(), align_of_val(&OTHER));
    let fields = [
        offset_of!(HoleRecord, ring),
        offset_of!(HoleRecord, holder),
        offset_of!(HoleRecord, doubled),
    ];
    assert_eq!(fields, [0, 2, 8]);
}

/// Past the written records every byte stays, those that belong to no field too; and where the list is too
/// short, all bytes do.
#[test]
fn bytes_of_records() {
    let mut random = Random::new(55);
    for number in 0..60 {
        let loops = islands::any_islands(1 + number % 12, 14, &mut random);
        let state = cut(&segments(&loops));
        let expected = records(state.clone());
        let open = expected.len();
        for length in [open, open + 1, open + 7, HOLE_LIST_LENGTH] {
            let mut words = vec![OTHER; length + 2];
            assert_eq!(extract_into(&mut words, &state), Ok(open));
            let (written, rest) = words[1..].split_at(open);
            let written: Vec<Hole> = written.iter().map(|&words| record_of(words)).collect();
            assert_eq!(written, expected);
            assert!(words[0] == OTHER && rest.iter().all(|&word| word == OTHER));
        }
        for length in 0..open {
            let mut words = vec![OTHER; length + 2];
            let refused = extract_into(&mut words, &state);
            assert_eq!(refused, Err(Refusal::TooFewHoles));
            assert!(words.iter().all(|&word| word == OTHER));
        }
    }
}

// ---- the wrapper

fn graph_of(map: &[Segment]) -> Graph {
    let mut graph = Graph::new();
    for &segment in map {
        let [start, end] = segment.map(|[x, y]| Coord3D::new(x.into(), y.into(), 0.0));
        // A segment without length is refused on both sides.
        let _ = graph.add_line(&Line3D::new(start, end, 1));
    }
    graph.sort_edges().expect("stage 0");
    graph.prune_dangles().expect("stage 1");
    graph.delete_cut_edges().expect("stage 2");
    graph
}

/// What the wrapper hands out is the oracle's records; and the compartments of maps without crossings, each
/// without its islands, cover what lies within the outlines that nobody holds.
#[test]
fn through_the_wrapper() {
    let mut random = Random::new(56);
    for (number, map) in [
        segments(&islands::nested(9)),
        segments(&islands::nested_at_a_corner(9)),
        segments(&islands::triangles_in_a_square(25)),
        islands::islands_in_cells(3, 2),
        islands::touching_in_cells(3, 2),
        inputs::grid(4, 4, 2),
        segments(&islands::any_islands(12, 20, &mut random)),
        segments(&islands::any_loops(9, 8, &mut random)),
    ]
    .into_iter()
    .enumerate()
    {
        let expected = records(cut(&map));
        let mut graph = graph_of(&map);
        let rings = graph.extract_rings().expect("stage 3");
        let handed_out = rings.holes().map(|hole| Hole {
            ring: hole.ring.number() as u16,
            holder: hole.holder.map_or(OUTSIDE, |ring| ring.number() as u16),
            doubled: hole.doubled,
        });
        assert!(handed_out.eq(expected.iter().copied()));
        let net: Vec<f64> = rings
            .compartments()
            .map(|compartment| compartment.net_area())
            .collect();
        let unheld = expected.iter().filter(|hole| hole.holder == OUTSIDE);
        let outlines: i64 = unheld.map(|hole| hole.doubled).sum();
        assert_eq!(2.0 * net.iter().sum::<f64>(), -outlines as f64);
        assert!(number > 5 || net.iter().all(|&area| area > 0.0));
    }
}
