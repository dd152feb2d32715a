//! The line ids behind each edge.

use tukmiheb::layout::PAIR_LIMIT;
use tukmiheb::{Coord3D, DirEdgeId, EdgeId, Graph, Line3D, Records, Refusal};

type Point = [i32; 2];

/// A triangle.
const CORNERS: [Point; 3] = [[0, 0], [4, 0], [0, 3]];
const SIDES: [[Point; 2]; 3] = [
    [CORNERS[0], CORNERS[1]],
    [CORNERS[1], CORNERS[2]],
    [CORNERS[2], CORNERS[0]],
];

fn line([a, b]: [Point; 2], line_id: u32) -> Line3D {
    let point = |[x, y]: Point| Coord3D::new(x.into(), y.into(), 0.0);
    Line3D::new(point(a), point(b), line_id)
}

fn turned([a, b]: [Point; 2]) -> [Point; 2] {
    [b, a]
}

/// A graph with one pass after another along the sides by turns.
fn traced(ids: impl IntoIterator<Item = u32>) -> Graph {
    let mut graph = Graph::new();
    for (&side, id) in SIDES.iter().cycle().zip(ids) {
        graph.add_line(&line(side, id)).expect("a pass");
    }
    graph
}

fn ids(graph: &Graph, edge: u16) -> Vec<u32> {
    graph.line_ids(EdgeId(edge)).collect()
}

#[test]
fn rising_and_without_repeats() {
    let [side, other, _] = SIDES;
    let mut graph = Graph::new();
    for (id, new) in [(5, true), (3, false), (4, false), (5, false), (3, false)] {
        let added = graph.add_line(&line(side, id)).expect("a pass");
        assert_eq!((added.edge, added.new), (EdgeId(0), new));
        graph.add_line(&line(turned(side), id)).expect("a pass");
    }
    assert_eq!(ids(&graph, 0), [3, 4, 5]);
    // The segment stays the first one's.
    assert_eq!(graph.line(EdgeId(0)), Some(line(side, 3)));
    assert_eq!(ids(&graph, 1), []);
    graph.add_line(&line(other, 4)).expect("a segment");
    assert_eq!(ids(&graph, 1), [4]);
    assert_eq!(ids(&graph, 0), [3, 4, 5]);
    assert_eq!(ids(&graph, 2), []);
    assert_eq!(ids(&graph, u16::MAX), []);
}

/// All numbers of 32 bits are ids.
#[test]
fn lowest_and_highest_ids() {
    let highest = u32::MAX;
    let graph = traced([highest, 7, 0, 0, 7, highest, 1]);
    let lists = [0, 1, 2].map(|edge| ids(&graph, edge));
    assert_eq!(lists, [vec![0, 1, highest], vec![7], vec![0, highest]]);
}

/// The steps and resetting leave the lists as they are; an empty graph has none.
#[test]
fn in_every_stage() {
    let mut graph = traced([9, 8, 7, 3, 2, 1]);
    let expected = [[3, 9], [2, 8], [1, 7]];
    let check = |graph: &Graph| assert_eq!([0, 1, 2].map(|edge| ids(graph, edge)), expected);
    graph.sort_edges().expect("stage 0");
    check(&graph);
    graph.prune_dangles().expect("stage 1");
    check(&graph);
    graph.delete_cut_edges().expect("stage 2");
    check(&graph);
    let rings = graph.extract_rings().expect("stage 3");
    let inner = rings.enclosed().next().expect("a ring");
    let edges = inner.half_edges().map(DirEdgeId::edge);
    assert!(edges.eq([0, 1, 2].map(EdgeId)));
    let borders = inner.half_edges().map(DirEdgeId::edge);
    let passes: Vec<u32> = borders
        .flat_map(|edge| rings.graph().line_ids(edge))
        .collect();
    assert_eq!(passes, [3, 9, 2, 8, 1, 7]);
    check(&graph);
    graph.reset().expect("any stage");
    check(&graph);
    graph.clear();
    assert_eq!(ids(&graph, 0), []);
}

/// As many passes as the table has pairs. Then an id that an edge lacks, or a new edge, is refused and
/// changes nothing; a known id is none too many.
#[test]
fn full_pair_table() {
    let count = PAIR_LIMIT as u32;
    let mut graph = traced((0..count).rev());
    let before = format!("{graph:?}");
    let [side, other, _] = SIDES;
    let full = Err(Refusal::TooManyPairs);
    assert_eq!(graph.add_line(&line(side, count)), full);
    assert_eq!(graph.add_line(&line(turned(other), count - 1)), full);
    assert_eq!(graph.add_line(&line([[7, 7], [8, 8]], 0)), full);
    let known = graph.add_line(&line(turned(side), count - 1));
    assert_eq!(
        known.map(|added| (added.edge, added.new)),
        Ok((EdgeId(0), false))
    );
    assert_eq!(format!("{graph:?}"), before);
    for edge in 0..3 {
        let passes = (0..count).filter(|id| (count - 1 - id) % 3 == edge);
        assert!(graph.line_ids(EdgeId(edge as u16)).eq(passes));
    }
}

fn record([[x1, y1], [x2, y2]]: [Point; 2], line_id: u32) -> Vec<u8> {
    let mut bytes = Vec::from(54u32.to_le_bytes());
    bytes.extend([1, 0]);
    bytes.extend(line_id.to_le_bytes());
    for value in [x1, y1, 0, x2, y2, 0] {
        bytes.extend(f64::from(value).to_le_bytes());
    }
    bytes
}

/// A file of passes leaves what the passes leave one by one, up to the one that finds no space.
#[test]
fn files_of_passes() {
    let passes = |ids: std::ops::Range<u32>| -> Vec<u8> {
        let passes = SIDES.iter().cycle().zip(ids);
        passes.flat_map(|(&side, id)| record(side, id)).collect()
    };
    let mut graph = Graph::new();
    let added = graph
        .add_records(&passes(0..600).repeat(2))
        .expect("stage 0");
    assert_eq!(added.whole(), Ok(1200));
    assert_eq!(format!("{graph:?}"), format!("{:?}", traced(0..600)));

    let count = PAIR_LIMIT as u32;
    let added = graph.add_records(&passes(0..count + 1)).expect("stage 0");
    let (taken, stopped) = (PAIR_LIMIT, Some(Refusal::TooManyPairs));
    assert_eq!(added, Records { taken, stopped });
    assert_eq!(format!("{graph:?}"), format!("{:?}", traced(0..count)));
}

#[test]
fn the_refusal_in_words() {
    let full = Refusal::TooManyPairs;
    assert_eq!((full.number(), full.name()), (12, "too many pairs"));
    assert_eq!(
        full.to_string(),
        "refused 12: The table of line ids has no space for one more."
    );
}
