//! Where document 01's rules and the original part: each difference that docs/DIFFERENCES.md names
//! and that can be run, on its smallest input. Run them in release: in debug builds the original
//! checks more, and the tests that say so end in its panic.

use oracle::original::{steps, Coord3D, Line3D, PlanarGraph};
use oracle::state::{Call, Lent, Reply, Side, State, EDGE_LIMIT, LIST_END, NODE_LIMIT, PAIR_LIMIT};
use oracle::{calls, listing, records, rules, Oracle};

fn line(x1: f64, y1: f64, x2: f64, y2: f64, line_id: u32) -> Line3D {
    Line3D {
        start: Coord3D::new(x1, y1, 0.0),
        end: Coord3D::new(x2, y2, 0.0),
        line_id,
    }
}

/// A state in stage 0 that has these points and edges, whatever additions could make.
fn state(points: &[[f64; 2]], edges: &[[u16; 2]]) -> State {
    let mut state = State::default();
    (state.nodes, state.edges) = (points.len() as u16, edges.len() as u16);
    let tables = &mut state.tables;
    for (node, &[x, y]) in points.iter().enumerate() {
        (tables.nodes_x[node], tables.nodes_y[node]) = (x, y);
    }
    for (half, ends) in edges
        .iter()
        .flat_map(|&[a, b]| [[a, b], [b, a]])
        .enumerate()
    {
        [tables.dir_edges_src[half], tables.dir_edges_dst[half]] = ends;
        tables.nodes_outgoing[half] = half as u16;
        tables.nodes_degree[usize::from(ends[0])] += 1;
    }
    for edge in 0..edges.len() {
        tables.edges_list_place[edge] = edge as u16;
        tables.pairs_next[edge] = LIST_END;
    }
    state
}

fn extracted(state: State) -> Oracle {
    let mut oracle = Oracle::over(state);
    for call in [Call::Sort, Call::Prune, Call::Cut, Call::Rings] {
        let reply = oracle.call(&call, &Lent::FULL);
        assert!(!matches!(reply, Reply::Refused(_)), "{call:?} {reply:?}");
    }
    oracle
}

/// Refusal 2: the original's `add_line` makes a loop, an edge that is a ring of its own on either
/// side.
#[test]
#[cfg_attr(
    debug_assertions,
    should_panic(expected = "angular order is not strict")
)]
fn a_loop() {
    let point = line(0.0, 0.0, 0.0, 0.0, 1);
    let mut graph = PlanarGraph::new();
    assert_eq!(graph.add_line(point), 0);
    graph.sort_edges();
    assert!(graph.prune_dangles().is_empty());
    let (rings, census) = steps::rings(&mut graph);
    assert_eq!((census.vertices, census.edges), (1, 1));
    let half_edges: Vec<_> = rings.iter().map(|ring| &ring.half_edges[..]).collect();
    assert_eq!(half_edges, [[0], [1]]);
    assert_eq!(
        Oracle::default().call(&Call::Add(point), &Lent::FULL),
        Reply::Refused(2)
    );
}

/// Refusal 4: the original grows past the limit of edges. Points that are joined to all before them have
/// many edges and few nodes.
#[test]
fn no_limit_of_edges() {
    let mut graph = PlanarGraph::new();
    let mut oracle = Oracle::default();
    let at = |place: u32| (f64::from(place), f64::from(place * place));
    let pairs = (1..).flat_map(|b| (0..b).map(move |a| [at(a), at(b)]));
    for (edge, [(x1, y1), (x2, y2)]) in pairs.take(EDGE_LIMIT + 2).enumerate() {
        let segment = line(x1, y1, x2, y2, 1);
        assert_eq!(graph.add_line(segment), edge);
        let reply = oracle.call(&Call::Add(segment), &Lent::FULL);
        assert_eq!(reply == Reply::Refused(4), edge >= EDGE_LIMIT);
    }
}

/// Refusal 3: the original grows past the limit of nodes. A star has one node more than spokes.
#[test]
fn no_limit_of_nodes() {
    let mut graph = PlanarGraph::new();
    let mut oracle = Oracle::default();
    for edge in 0..=NODE_LIMIT {
        let spoke = line(0.0, 0.0, 1.0, edge as f64, 1);
        assert_eq!(graph.add_line(spoke), edge);
        let reply = oracle.call(&Call::Add(spoke), &Lent::FULL);
        assert_eq!(reply == Reply::Refused(3), edge >= NODE_LIMIT - 1);
    }
}

/// Refusal 1: the original takes fractions.
#[test]
fn a_fraction() {
    let half = line(0.5, 0.0, 1.0, 0.0, 1);
    assert_eq!(PlanarGraph::new().add_line(half), 0);
    assert_eq!(
        Oracle::default().call(&Call::Add(half), &Lent::FULL),
        Reply::Refused(1)
    );
}

/// Ties in face naming: rings of equal key and area, which no graph made by additions has. The
/// original sorts them unstably, which shows with 34 rings; document 01 goes by the lower starting
/// half-edge.
#[test]
#[cfg_attr(
    debug_assertions,
    should_panic(expected = "angular order is not strict")
)]
fn ties() {
    let two = |x: f64| vec![[x, 0.0], [x, 1.0]];
    let joined = |pair: u16| [[2 * pair, 2 * pair + 1]; 2];
    let named = |xs: &[f64]| {
        let points: Vec<_> = xs.iter().flat_map(|&x| two(x)).collect();
        let edges: Vec<_> = (0..xs.len() as u16).flat_map(joined).collect();
        let oracle = extracted(state(&points, &edges));
        assert!(rules::has_ties(oracle.named()));
        let own: Vec<_> = oracle.named().iter().map(|ring| ring.face).collect();
        (own, rules::break_ties(oracle.named()))
    };
    let (own, by_rule) = named(&[0.0]);
    assert_eq!(own, by_rule);
    let (own, by_rule) = named(&[
        0.0, 2.0, 2.0, 2.0, 1.0, 1.0, 2.0, 0.0, 2.0, 1.0, 0.0, 1.0, 1.0, 2.0, 1.0, 0.0, 0.0,
    ]);
    assert_eq!(by_rule[..4], [0, 1, 22, 23]);
    assert_ne!(own, by_rule);
}

/// Equal angles, by two edges between the same nodes: release builds keep their old order, debug
/// builds refuse to sort.
#[test]
#[cfg_attr(
    debug_assertions,
    should_panic(expected = "angular order is not strict")
)]
fn equal_angles() {
    let points = [[0.0, 0.0], [1.0, 0.0]];
    let oracle = extracted(state(&points, &[[0, 1], [0, 1]]));
    assert_eq!(oracle.stars(), [[0, 2], [1, 3]]);
}

/// Merged line ids: the original takes the first of its list for the edge's, and by its own check the
/// list rises strictly. The stand-in's does, so the lowest id is the edge's, as request §1 has it.
#[test]
fn merged_ids() {
    let list = "create\nadd 0 0 0 1 0 0 2\nadd 1 0 5 0 0 5 1\nshow\n";
    let printed = calls::run(list, &mut Oracle::default()).unwrap();
    assert!(printed.contains("edge 0 line 0 0 0 1 0 0 id 1 "));
}

/// Refusal 12: the original has no limit of ids.
#[test]
fn no_limit_of_ids() {
    let mut graph = PlanarGraph::new();
    let mut oracle = Oracle::default();
    for id in 0..=PAIR_LIMIT as u32 {
        let pass = line(0.0, 0.0, 1.0, 0.0, id);
        assert_eq!(graph.add_line(pass), 0);
        let reply = oracle.call(&Call::Add(pass), &Lent::FULL);
        assert_eq!(reply == Reply::Refused(12), id as usize == PAIR_LIMIT);
    }
}

/// A NaN as z keeps its bits in the original, from a call and from a file.
#[test]
fn nan_z() {
    let bits = 0xfff0_dead_beef_0001;
    let mut segment = line(0.0, 0.0, 1.0, 0.0, 1);
    segment.start.z = f64::from_bits(bits);
    let mut called = Oracle::default();
    called.call(&Call::Add(segment), &Lent::FULL);
    let mut read = Oracle::default();
    listing::listing(&records::segment(&segment), &mut read);
    for oracle in [called, read] {
        let tables = &oracle.state().tables;
        assert_eq!(tables.nodes_z[0].to_bits(), bits);
        assert_eq!(tables.edges_line[2].to_bits(), bits);
    }
}
