//! From a whole tracing to its map in one call: the same as step by step, and the first bad record.

use std::error::Error;
use tukmiheb::layout::{NODE_LIMIT, PAIR_LIMIT};
use tukmiheb::{
    segments, Coord3D, EdgeId, Graph, Line3D, Refusal, RefusedRecord, RingSide, Stage, TissueMap,
};

const WAIST: &[u8] = include_bytes!("../../samples/waist.seg");

/// The bytes of a record.
const RECORD: usize = 58;

fn line([x1, y1, x2, y2]: [i32; 4], line_id: u32) -> Line3D {
    let point = |x: i32, y: i32| Coord3D::new(x.into(), y.into(), 0.0);
    Line3D::new(point(x1, y1), point(x2, y2), line_id)
}

fn waist() -> TissueMap {
    Graph::polygonize(WAIST).expect("a sound file")
}

fn waist_lines() -> Vec<Line3D> {
    let lines = segments(WAIST).collect::<Result<_, Refusal>>();
    lines.expect("a sound file")
}

/// As samples/README.md has it, worked by hand.
#[test]
fn the_waist_sample() {
    let map = waist();
    let graph = map.graph();
    assert_eq!((graph.node_count(), graph.edge_count()), (21, 26));
    assert_eq!(graph.stage(), Stage::Ringed);
    // The loose end and the line from the wall to the vertebra were drawn by passes 5 and 6.
    let passes = |edges: &[EdgeId]| -> Vec<u32> {
        let ids = edges.iter().flat_map(|&edge| graph.line_ids(edge));
        ids.collect()
    };
    assert_eq!(passes(map.dangles()), [5]);
    assert_eq!(passes(&map.cuts().edges), [6]);
    let areas = map.rings().into_iter().map(|ring| 2.0 * ring.area());
    assert!(areas.eq([12650, -104000, 12650, 12650, 12650, 53400, 1500, -1500].map(f64::from)));
    let census = map.rings().census();
    // Without the dangle's end there are 20 nodes, in two pieces once the edge between them is cut.
    let counts = [census.vertices, census.edges, census.cycles, census.pieces];
    assert_eq!((counts, census.verdict), ([20, 24, 8, 2], true));
}

/// What one call makes of a file is what the calls make one by one.
#[test]
fn as_step_by_step() {
    let map = waist();
    let mut graph = Graph::new();
    assert_eq!(
        graph.add_records(WAIST).map(|records| records.taken),
        Ok(26)
    );
    assert_eq!(graph.sort_edges(), Ok(()));
    assert_eq!(graph.prune_dangles().as_deref(), Ok(map.dangles()));
    assert_eq!(graph.delete_cut_edges().as_ref(), Ok(map.cuts()));
    let rings = graph.extract_rings().expect("stage 3");
    assert_eq!(format!("{rings:?}"), format!("{:?}", map.rings()));
    // Added line by line it is the same graph.
    let by_lines = Graph::polygonize_lines(waist_lines()).expect("sound lines");
    assert_eq!(format!("{by_lines:?}"), format!("{map:?}"));
}

/// What a map says of each ring and its holes by coordinates alone, by face number.
fn by_face(map: &TissueMap) -> Vec<String> {
    let key = |point: &Coord3D| (point.x as i64, point.y as i64);
    let faces = map.rings().into_iter().map(|ring| {
        let mut corners: Vec<_> = ring.points().map(|point| key(&point)).collect();
        let least = (0..corners.len()).min_by_key(|&place| corners[place]);
        corners.rotate_left(least.expect("a ring has corners"));
        (ring.face().0, format!("{:?} {corners:?}", ring.side()))
    });
    let mut faces: Vec<(u16, String)> = faces.collect();
    let holes = map.rings().holes();
    faces.extend(holes.map(|hole| {
        let holder = hole.holder.map(|ring| ring.face());
        (hole.ring.face().0, format!("hole of {holder:?}"))
    }));
    let loose = map.dangles().iter().chain(&map.cuts().edges);
    let loose = loose.map(|&edge| map.graph().line(edge).expect("an edge").line_id);
    faces.extend(loose.map(|pass| (u16::MAX, format!("loose {pass}"))));
    faces.sort();
    faces.into_iter().map(|(_, said)| said).collect()
}

/// The order of the segments and their direction decide nothing but numbers of nodes, edges and rings.
#[test]
fn traced_in_any_order() {
    let lines = waist_lines();
    let expected = by_face(&waist());
    let turned = |line: &Line3D| Line3D::new(line.end, line.start, line.line_id);
    // A step that has no factor in common with the count visits each line once.
    for step in [1, 3, 5, 7, 9, 11, 15, 17, 19, 21, 23, 25] {
        for first in 0..lines.len() {
            let order = (0..lines.len()).map(|turn| (first + step * turn) % lines.len());
            let traced = order.map(|place| match (place + step) % 3 {
                0 => turned(&lines[place]),
                _ => lines[place],
            });
            let map = Graph::polygonize_lines(traced).expect("sound lines");
            assert_eq!(by_face(&map), expected, "step {step}, first {first}");
        }
    }
}

/// Lines may be owned or borrowed.
#[test]
fn lines_of_any_kind() {
    let lines = waist_lines();
    let borrowed = Graph::polygonize_lines(&lines).map(|map| map.rings().len());
    let owned = Graph::polygonize_lines(lines).map(|map| map.rings().len());
    assert_eq!((borrowed, owned), (Ok(8), Ok(8)));
    let nothing = Graph::polygonize_lines::<Line3D>([]).expect("an empty tracing");
    assert!(nothing.rings().is_empty() && nothing.rings().census().verdict);
    assert!(Graph::polygonize(&[]).is_ok_and(|map| map.rings().is_empty()));
}

fn refused<T>(record: usize, refusal: Refusal) -> Result<T, RefusedRecord> {
    Err(RefusedRecord { record, refusal })
}

#[test]
fn the_first_bad_record() {
    let refusal_of = |bytes: &[u8]| Graph::polygonize(bytes).map(|_| ());
    assert_eq!(refusal_of(&WAIST[..3]), refused(0, Refusal::RecordShort));
    let short = &WAIST[..5 * RECORD + 57];
    assert_eq!(refusal_of(short), refused(5, Refusal::RecordShort));
    let mut bytes = WAIST.to_vec();
    bytes[7 * RECORD + 4] = 99;
    assert_eq!(refusal_of(&bytes), refused(7, Refusal::RecordKind));
    // An earlier one decides: half a millimetre in record 3.
    bytes[3 * RECORD + 10..][..8].copy_from_slice(&0.5f64.to_le_bytes());
    assert_eq!(refusal_of(&bytes), refused(3, Refusal::NotWhole));
}

#[test]
fn the_first_bad_line() {
    let refusal_of = |lines: Vec<Line3D>| Graph::polygonize_lines(lines).map(|_| ());
    let sound = line([0, 0, 1, 0], 1);
    let point = line([1, 1, 1, 1], 1);
    let lines = vec![sound, sound, point, line([0, 1 << 21, 0, 0], 1)];
    assert_eq!(refusal_of(lines), refused(2, Refusal::SameNode));
    let apart = |number: i32| line([2 * number, 0, 2 * number + 1, 0], 1);
    let lines = (0..NODE_LIMIT as i32).map(apart).collect();
    assert_eq!(
        refusal_of(lines),
        refused(NODE_LIMIT / 2, Refusal::TooManyNodes)
    );
    let passes = (0..).map(|id| line([0, 0, 1, 0], id));
    let lines = passes.take(PAIR_LIMIT + 1).collect();
    assert_eq!(
        refusal_of(lines),
        refused(PAIR_LIMIT, Refusal::TooManyPairs)
    );
}

#[test]
fn a_refusal_as_an_error() {
    let refused = Graph::polygonize(&WAIST[..100]).map(|_| ()).unwrap_err();
    assert_eq!(
        refused.to_string(),
        "refused 9 record 1: The file ends within a record."
    );
    let why = refused.source().expect("the refusal behind it");
    assert_eq!(why.to_string(), Refusal::RecordShort.to_string());
    assert_eq!(Refusal::from(refused), Refusal::RecordShort);
}

/// A map may be traced on: its graph is reset, and a line across the vertebra makes one ring more.
#[test]
fn tracing_on() {
    let map = waist();
    let corners: Vec<Coord3D> = map.rings().get(6).expect("the vertebra").points().collect();
    let mut graph = map.into_graph();
    assert_eq!(graph.reset(), Ok(()));
    let across = graph.add_line(&Line3D::new(corners[0], corners[2], 9));
    assert!(across.is_ok_and(|added| added.new));
    graph.sort_edges().expect("stage 0");
    graph.prune_dangles().expect("stage 1");
    graph.delete_cut_edges().expect("stage 2");
    assert_eq!(graph.extract_rings().map(|rings| rings.len()), Ok(9));
}

/// The ways to go through the rings: all of them, from either end, and by number.
#[test]
fn rings_one_after_another() {
    let map = waist();
    let rings = map.rings();
    let mut enclosed = 0;
    for ring in &rings {
        enclosed += usize::from(matches!(ring.side(), RingSide::Enclosed(_)));
    }
    assert_eq!(enclosed, rings.enclosed().count());
    let numbers: Vec<usize> = rings.into_iter().map(|ring| ring.number()).collect();
    assert_eq!(numbers, [0, 1, 2, 3, 4, 5, 6, 7]);
    let backwards = rings.iter().rev().map(|ring| ring.number());
    assert!(backwards.eq(numbers.into_iter().rev()));
    let mut both_ends = rings.iter();
    assert_eq!(both_ends.len(), 8);
    let ends = [both_ends.next(), both_ends.next_back()];
    assert_eq!(
        ends.map(|ring| ring.map(|ring| ring.number())),
        [Some(0), Some(7)]
    );
    assert_eq!(both_ends.len(), 6);
}
