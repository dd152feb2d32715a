//! The wrapper: what it hands out is what the library answered.

use tukmiheb::layout::{EDGE_LIMIT, NODE_LIMIT};
use tukmiheb::{
    least_rotation, segments, Coord3D, DirEdgeId, EdgeId, FaceId, Graph, Line3D, NodeId, Records,
    Refusal, RingSide, Rotation, Stage,
};

fn line(x1: i32, y1: i32, x2: i32, y2: i32, line_id: u32) -> Line3D {
    let point = |x: i32, y: i32| Coord3D::new(x.into(), y.into(), 0.0);
    Line3D::new(point(x1, y1), point(x2, y2), line_id)
}

/// The trace that document 01 lists: a triangle and a dangle.
fn traced() -> Graph {
    let mut graph = Graph::new();
    for (number, ends) in [[0, 0, 4, 0], [4, 0, 0, 3], [0, 3, 0, 0], [4, 0, 6, 0]]
        .into_iter()
        .enumerate()
    {
        let [x1, y1, x2, y2] = ends;
        let added = graph.add_line(&line(x1, y1, x2, y2, number as u32 + 1));
        let added = added.expect("a segment");
        assert_eq!((added.edge, added.new), (EdgeId(number as u16), true));
    }
    graph
}

#[test]
fn from_segments_to_rings() {
    let mut graph = traced();
    assert_eq!((graph.node_count(), graph.edge_count()), (4, 4));
    assert_eq!(graph.sort_edges(), Ok(()));
    assert_eq!(graph.prune_dangles(), Ok(vec![EdgeId(3)]));
    assert_eq!(graph.is_marked(EdgeId(3)), Some(true));
    assert_eq!(graph.is_marked(EdgeId(0)), Some(false));
    let cuts = graph.delete_cut_edges().expect("stage 2");
    assert!(cuts.edges.is_empty());
    assert_eq!(cuts.census.cycles, 2);
    assert_eq!(graph.stage(), Stage::Cut);

    let rings = graph.extract_rings().expect("stage 3");
    assert_eq!(rings.len(), 2);
    assert!(rings.census().verdict);
    // Two for each: the least corner is compared with the two others.
    assert_eq!(rings.comparisons(), 4);
    assert_eq!(rings.graph().stage(), Stage::Ringed);
    let [inner, outer] = [0, 1].map(|number| rings.get(number).expect("a ring"));
    assert!(rings.get(2).is_none());
    assert_eq!((inner.number(), outer.number()), (0, 1));
    assert_eq!(inner.side(), RingSide::Enclosed(6.0));
    assert_eq!(outer.side(), RingSide::Open(-6.0));
    assert_eq!((inner.face(), outer.face()), (FaceId(1), FaceId(0)));
    let halves: Vec<_> = outer.half_edges().collect();
    assert_eq!(halves, [1, 5, 3].map(DirEdgeId));
    assert!(inner.nodes().eq([0, 1, 2].map(NodeId)));
    assert!(inner.points().map(|point| (point.x, point.y)).eq([
        (0.0, 0.0),
        (4.0, 0.0),
        (0.0, 3.0)
    ]));
    let enclosed: Vec<_> = rings.enclosed().map(|ring| ring.area()).collect();
    assert_eq!(enclosed, [6.0]);
}

#[test]
fn an_old_edge() {
    let mut graph = traced();
    let added = graph.add_line(&line(4, 0, 0, 0, 9)).expect("a segment");
    assert_eq!((added.edge, added.new), (EdgeId(0), false));
    assert_eq!(graph.line(EdgeId(0)), Some(line(0, 0, 4, 0, 1)));
    assert_eq!(graph.line(EdgeId(4)), None);
    assert_eq!(graph.node(NodeId(3)), Some(Coord3D::new(6.0, 0.0, 0.0)));
    assert_eq!(graph.node(NodeId(4)), None);
    assert_eq!(graph.ends(DirEdgeId(7)), Some((NodeId(3), NodeId(1))));
    assert_eq!(graph.ends(DirEdgeId(8)), None);
}

#[test]
fn refusals_change_nothing() {
    let mut graph = traced();
    let before = format!("{graph:?}");
    assert_eq!(graph.prune_dangles(), Err(Refusal::WrongStage));
    assert_eq!(graph.add_line(&line(1, 1, 1, 1, 1)), Err(Refusal::SameNode));
    let far = line(1_048_577, 0, 0, 0, 1);
    assert_eq!(graph.add_line(&far), Err(Refusal::NotWhole));
    assert_eq!(format!("{graph:?}"), before);
}

#[test]
fn reset_and_clear() {
    let mut graph = traced();
    graph.sort_edges().expect("stage 0");
    graph.prune_dangles().expect("stage 1");
    assert_eq!(graph.reset(), Ok(()));
    assert_eq!(graph.stage(), Stage::Building);
    assert_eq!(graph.is_marked(EdgeId(3)), Some(false));
    graph.clear();
    assert_eq!((graph.node_count(), graph.edge_count()), (0, 0));
}

/// One ring of as many nodes and edges as a graph may have: the last entries of its tables.
#[test]
fn full_tables() {
    const { assert!(NODE_LIMIT == EDGE_LIMIT) };
    let count = NODE_LIMIT as u16;
    let corner = |number: u16| {
        let number = i32::from(number % count);
        let far = i32::from(count / 2);
        [number.min(2 * far - 1 - number), number / far]
    };
    let joined = |a: u16, b: u16| {
        let ([x1, y1], [x2, y2]) = (corner(a), corner(b));
        line(x1, y1, x2, y2, a.into())
    };
    let mut graph = Graph::new();
    for number in 0..count {
        let added = graph.add_line(&joined(number, number + 1));
        assert_eq!(added.map(|added| added.edge), Ok(EdgeId(number)));
    }
    let last = count - 1;
    assert_eq!(graph.node(NodeId(last)), Some(joined(last, 0).start));
    assert_eq!(graph.line(EdgeId(last)), Some(joined(last, 0)));
    let twin = DirEdgeId(2 * last + 1);
    assert_eq!(graph.ends(twin), Some((NodeId(0), NodeId(last))));
    assert_eq!(graph.is_marked(EdgeId(last)), Some(false));
    let chord = graph.add_line(&joined(0, 2));
    assert_eq!(chord, Err(Refusal::TooManyEdges));
    let new_node = graph.add_line(&line(0, 0, 0, -1, 9));
    assert_eq!(new_node, Err(Refusal::TooManyNodes));
}

/// Document 01's least rotations, with their comparisons worked by hand.
#[test]
fn least_rotations() {
    let found = |place: usize, comparisons: usize| Ok(Rotation { place, comparisons });
    assert_eq!(least_rotation(&[2, 1, 2, 1], &[0; 4]), found(1, 6));
    assert_eq!(least_rotation(&[5, 5], &[0; 2]), found(0, 2));
    assert_eq!(least_rotation(&[], &[]), found(0, 0));
    assert_eq!(least_rotation(&[5], &[]), Err(Refusal::ListTooShort));
}

fn record(values: [f64; 6], line_id: u32) -> Vec<u8> {
    let mut bytes = Vec::from(54u32.to_le_bytes());
    bytes.extend([1, 0]);
    bytes.extend(line_id.to_le_bytes());
    for value in values {
        bytes.extend(value.to_le_bytes());
    }
    bytes
}

#[test]
fn segment_files() {
    let mut bytes = record([0.0, -0.0, 1.5, 4.0, 3.0, f64::INFINITY], 7);
    let read: Vec<_> = segments(&bytes).collect();
    let start = Coord3D::new(0.0, -0.0, 1.5);
    let end = Coord3D::new(4.0, 3.0, f64::INFINITY);
    assert_eq!(read, [Ok(Line3D::new(start, end, 7))]);
    assert_eq!(segments(&[]).next(), None);
    let refused = |bytes: &[u8]| segments(bytes).last().expect("a record").unwrap_err();
    assert_eq!(refused(&bytes[..57]), Refusal::RecordShort);
    bytes[4] = 16;
    assert_eq!(refused(&bytes), Refusal::RecordKind);
    bytes[4] = 1;
    bytes[0] = 53;
    assert_eq!(refused(&bytes), Refusal::RecordLength);
    // Rings and kinds 3 to 15 are passed over.
    for kind in 2..16 {
        bytes[0] = 54;
        bytes[4] = kind;
        assert_eq!(segments(&bytes).next(), None);
        let good = record([0.0, 0.0, 0.0, 4.0, 3.0, 0.0], 9);
        let mixed = [&bytes[..], &good, &bytes].concat();
        assert!(segments(&mixed).eq(segments(&good)));
    }
}

#[test]
fn records_of_a_file() {
    let traced_lines = [[0, 0, 4, 0], [4, 0, 0, 3], [0, 3, 0, 0], [4, 0, 6, 0]];
    let records = traced_lines.into_iter().zip(1..).map(|(ends, id)| {
        let [x1, y1, x2, y2] = ends.map(f64::from);
        record([x1, y1, 0.0, x2, y2, 0.0], id)
    });
    let bytes: Vec<u8> = records.flatten().collect();
    let mut graph = Graph::new();
    let added = graph.add_records(&bytes).expect("stage 0");
    let (taken, stopped) = (4, None);
    assert_eq!(added, Records { taken, stopped });
    assert_eq!(added.whole(), Ok(4));
    assert_eq!(format!("{graph:?}"), format!("{:?}", traced()));

    // The records before a bad one stay added.
    let mut graph = Graph::new();
    let added = graph.add_records(&bytes[..200]).expect("stage 0");
    let (taken, stopped) = (3, Some(Refusal::RecordShort));
    assert_eq!(added, Records { taken, stopped });
    assert_eq!(added.whole(), Err(Refusal::RecordShort));
    assert_eq!((graph.node_count(), graph.edge_count()), (3, 3));

    // A refusal of the call adds nothing.
    graph.sort_edges().expect("stage 0");
    let before = format!("{graph:?}");
    assert_eq!(graph.add_records(&bytes), Err(Refusal::WrongStage));
    assert_eq!(format!("{graph:?}"), before);
}

#[test]
fn refusals_have_numbers_names_and_sentences() {
    for (number, &refusal) in (1..).zip(Refusal::ALL) {
        assert_eq!(refusal.number(), number);
        assert_eq!(Refusal::from_number(number), Some(refusal));
        assert!(!refusal.name().is_empty());
        assert!(refusal
            .to_string()
            .starts_with(&format!("refused {number}: ")));
    }
    assert_eq!(Refusal::from_number(0), None);
    assert_eq!(Refusal::from_number(16), None);
}
