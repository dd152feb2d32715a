//! Graphs in several threads, and the stack that a thread needs.

use std::fmt::Write;
use std::thread;
use tukmiheb::layout::{EDGE_LIMIT, NODE_LIMIT, STACK};
use tukmiheb::{
    segments, Compartment, Coord3D, Graph, Hole, Line3D, LineIds, Refusal, RefusedRecord, Ring,
    RingIter, Rings, Segments, TissueMap,
};

const WAIST: &[u8] = include_bytes!("../../samples/waist.seg");

/// This does not compile for a type that is not.
fn can_be_moved_and_shared<T: Send + Sync>() {}

#[test]
fn send_and_sync() {
    can_be_moved_and_shared::<Graph>();
    can_be_moved_and_shared::<TissueMap>();
    can_be_moved_and_shared::<Rings>();
    can_be_moved_and_shared::<RingIter>();
    can_be_moved_and_shared::<Ring>();
    can_be_moved_and_shared::<Hole>();
    can_be_moved_and_shared::<Compartment>();
    can_be_moved_and_shared::<LineIds>();
    can_be_moved_and_shared::<Segments>();
    can_be_moved_and_shared::<Refusal>();
    can_be_moved_and_shared::<RefusedRecord>();
}

/// All that a tracing's map says, as text.
fn told(map: &TissueMap) -> String {
    let mut text = format!("{:?} {:?}", map.dangles(), map.cuts());
    for ring in map.rings() {
        let nodes: Vec<u16> = ring.nodes().map(|node| node.0).collect();
        let _ = write!(text, "\n{:?} {:?} {nodes:?}", ring.face(), ring.side());
    }
    text
}

/// Many maps at once are what each is alone; a map is read from several threads at once.
#[test]
fn several_at_once() {
    let turned = |line: Line3D| {
        let turn = |point: Coord3D| Coord3D::new(-point.y, point.x, point.z);
        Line3D::new(turn(line.start), turn(line.end), line.line_id)
    };
    let lines: Vec<Line3D> = segments(WAIST)
        .map(|line| line.expect("a segment"))
        .collect();
    let turned_lines: Vec<Line3D> = lines.iter().copied().map(turned).collect();
    let alone = [&lines, &turned_lines].map(|lines| Graph::polygonize_lines(lines).expect("a map"));
    thread::scope(|scope| {
        for number in 0..8 {
            let (alone, lines) = (&alone[number % 2], [&lines, &turned_lines][number % 2]);
            scope.spawn(move || {
                for _ in 0..20 {
                    let map = Graph::polygonize_lines(lines).expect("a map");
                    assert_eq!(told(&map), told(alone));
                }
            });
        }
    });
}

/// One ring through as many nodes, by as many edges, as a graph may have.
fn full_ring() -> Vec<Line3D> {
    let far = NODE_LIMIT.min(EDGE_LIMIT) as i32 / 2;
    let along = |number: i32| (number, 0);
    let back = |number: i32| (far - 1 - number, 1);
    let corners: Vec<_> = (0..far).map(along).chain((0..far).map(back)).collect();
    let next = corners.iter().cycle().skip(1);
    let point = |&(x, y): &(i32, i32)| Coord3D::new(x.into(), y.into(), 0.0);
    let sides = corners.iter().zip(next);
    sides
        .map(|(a, b)| Line3D::new(point(a), point(b), 1))
        .collect()
}

/// As many squares one in another as there are edges for.
fn nested_squares() -> Vec<Line3D> {
    let square = |size: i32| {
        let corners = [(-size, -size), (size, -size), (size, size), (-size, size)];
        let corners = corners.map(|(x, y)| Coord3D::new(x.into(), y.into(), 0.0));
        [0, 1, 2, 3].map(|side| Line3D::new(corners[side], corners[(side + 1) % 4], 1))
    };
    (1..=EDGE_LIMIT as i32 / 4).flat_map(square).collect()
}

/// Every call, on full tables too, in a thread that has just the stack that is asked for.
#[test]
fn enough_stack() {
    let calls = || {
        for lines in [full_ring(), nested_squares()] {
            let map = Graph::polygonize_lines(&lines).expect("a map");
            assert!(map.rings().len() >= 2);
            let mut graph = map.into_graph();
            assert_eq!(graph.reset(), Ok(()));
            graph.clear();
        }
        assert!(Graph::polygonize(WAIST).is_ok());
        assert!(tukmiheb::least_rotation(&[2, 1], &[0, 0]).is_ok());
    };
    let thread = thread::Builder::new().stack_size(STACK).spawn(calls);
    thread.expect("a thread").join().expect("no call fails");
}
