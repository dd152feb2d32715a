//! The documents' own rules, which the original has not: the refusals of calls in their order, the stages,
//! room, the soundness list, and ties in face naming. Number 12, and the lists of line ids in the
//! soundness list, are request §1's, number 13 is request §2's; all else is document 01's. Numbers 9 to
//! 11, 14 and 15 are the files' ([`records`](crate::records), [`ring_file`](crate::ring_file)).

use crate::line_ids;
use crate::original::{canonical_coordinate_bits, compare_angular, Coord3D, Line3D};
use crate::stand_ins::Coord;
use crate::state::{Call, Lent, State, EDGE_LIMIT, HOLES, LEAST_LENGTHS, NODE_LIMIT};
use std::cmp::Ordering;

/// How far from zero an x or a y may lie.
const COORDINATE_BOUND: f64 = 1_048_576.0;

/// Why a call is refused, by the documents' numbers.
#[derive(Clone, Copy, Debug, PartialEq, Eq)]
pub enum Refusal {
    NotWhole = 1,
    SameNode = 2,
    TooManyNodes = 3,
    TooManyEdges = 4,
    WrongStage = 5,
    TableTooShort = 6,
    Unsound = 7,
    ListTooShort = 8,
    RecordShort = 9,
    RecordLength = 10,
    RecordKind = 11,
    TooManyPairs = 12,
    TooFewHoles = 13,
    OutputTooShort = 14,
    BadRing = 15,
}

impl Refusal {
    pub fn number(self) -> u32 {
        self as u32
    }
}

pub type Checked = Result<(), Refusal>;

pub fn demand(holds: bool, refusal: Refusal) -> Checked {
    if holds {
        Ok(())
    } else {
        Err(refusal)
    }
}

/// The first refusal that is due, if any, but for number 13, which needs the rings.
pub fn check(call: &Call, state: &State, lent: &Lent) -> Checked {
    demand(has_room(state, lent), Refusal::TableTooShort)?;
    if matches!(call, Call::Create) {
        return Ok(());
    }
    demand(is_sound(state), Refusal::Unsound)?;
    if let Some(stage) = stage_before(call) {
        demand(state.stage == stage, Refusal::WrongStage)?;
    }
    match call {
        Call::Add(line) => check_line(line, state),
        Call::Prune | Call::Cut => check_lists(state.edges, &lent.lists[..1]),
        Call::Rings => check_lists(2 * state.edges, &lent.lists[1..HOLES]),
        Call::Create | Call::Sort | Call::Reset => Ok(()),
    }
}

/// The stage that a call needs.
fn stage_before(call: &Call) -> Option<u16> {
    match call {
        Call::Create | Call::Reset => None,
        Call::Add(_) | Call::Sort => Some(0),
        Call::Prune => Some(1),
        Call::Cut => Some(2),
        Call::Rings => Some(3),
    }
}

fn check_lists(least: u16, lengths: &[usize]) -> Checked {
    let long = lengths.iter().all(|&length| length >= usize::from(least));
    demand(long, Refusal::ListTooShort)
}

/// Number 13, tested after all others: the hole list has a record for each open ring.
pub fn check_holes(open_rings: usize, length: usize) -> Checked {
    demand(open_rings <= length, Refusal::TooFewHoles)
}

/// Numbers 1 and 2; an edge that is there already, which needs a pair for an id that it lacks; numbers
/// 3 and 4 of a new one, which needs a pair too. Number 12 comes last either way.
fn check_line(line: &Line3D, state: &State) -> Checked {
    let planar = is_planar(line.start) && is_planar(line.end);
    demand(planar, Refusal::NotWhole)?;
    demand(key(line.start) != key(line.end), Refusal::SameNode)?;
    let ends = [find_node(line.start, state), find_node(line.end, state)];
    if let [Some(start), Some(end)] = ends {
        if let Some(edge) = joining(start, end, state) {
            let known = line_ids::ids(edge, &state.tables).any(|id| id == line.line_id);
            return if known { Ok(()) } else { check_pair(state) };
        }
    }
    let missing = ends.iter().filter(|end| end.is_none()).count();
    let nodes = usize::from(state.nodes) + missing;
    demand(nodes <= NODE_LIMIT, Refusal::TooManyNodes)?;
    demand(usize::from(state.edges) < EDGE_LIMIT, Refusal::TooManyEdges)?;
    check_pair(state)
}

/// Number 12: the pair table has a free place.
fn check_pair(state: &State) -> Checked {
    let free = line_ids::lowest_free(state.edges.into(), &state.tables);
    demand(free.is_some(), Refusal::TooManyPairs)
}

fn is_planar(point: Coord3D) -> bool {
    is_coordinate(point.x) && is_coordinate(point.y)
}

/// A whole number within the bound. -0.0 is one; NaN and the infinities are none.
pub fn is_coordinate(value: f64) -> bool {
    value.abs() <= COORDINATE_BOUND && value.trunc() == value
}

/// The canonical bits of a point's x and y: equal exactly where points are one node.
pub fn key(point: Coord3D) -> [u64; 2] {
    [
        canonical_coordinate_bits(point.x),
        canonical_coordinate_bits(point.y),
    ]
}

/// The lowest node with the point's key.
fn find_node(point: Coord3D, state: &State) -> Option<usize> {
    let tables = &state.tables;
    (0..usize::from(state.nodes)).find(|&node| {
        let stored = Coord3D::new(tables.nodes_x[node], tables.nodes_y[node], 0.0);
        key(stored) == key(point)
    })
}

/// The edge that joins two nodes, either way round: of several the first in the start's star.
fn joining(start: usize, end: usize, state: &State) -> Option<usize> {
    let tables = &state.tables;
    let used = &tables.nodes_outgoing[..2 * usize::from(state.edges)];
    let mut half_edges = used.iter().map(|&half_edge| usize::from(half_edge));
    let joining = half_edges.find(|&half_edge| {
        usize::from(tables.dir_edges_src[half_edge]) == start
            && usize::from(tables.dir_edges_dst[half_edge]) == end
    });
    joining.map(|half_edge| half_edge / 2)
}

/// Number 6.
fn has_room(state: &State, lent: &Lent) -> bool {
    let lengths = state.tables.lengths();
    (0..lengths.len()).all(|table| lent.table(table, lengths[table]) >= LEAST_LENGTHS[table])
}

/// Number 7: the soundness list.
pub fn is_sound(state: &State) -> bool {
    let (nodes, edges) = (usize::from(state.nodes), usize::from(state.edges));
    nodes <= NODE_LIMIT
        && edges <= EDGE_LIMIT
        && state.stage <= 4
        && (0..edges).all(|edge| sound_edge(edge, state))
        && sound_stars(edges, state)
        && (0..nodes).all(|node| sound_point(node, state))
        && (state.stage > 1 || is_fresh(nodes, edges, state))
        && line_ids::are_sound(edges, &state.tables)
}

/// Its half-edges swap two different nodes below the node count and are marked alike.
fn sound_edge(edge: usize, state: &State) -> bool {
    let (half, twin, tables) = (2 * edge, 2 * edge + 1, &state.tables);
    let (src, dst) = (tables.dir_edges_src[half], tables.dir_edges_dst[half]);
    src < state.nodes
        && dst < state.nodes
        && src != dst
        && tables.dir_edges_src[twin] == dst
        && tables.dir_edges_dst[twin] == src
        && tables.dir_edges_marked[half] == tables.dir_edges_marked[twin]
}

/// Each half-edge stands once among the used entries of the star table.
fn sound_stars(edges: usize, state: &State) -> bool {
    let mut seen = vec![false; 2 * edges];
    state.tables.nodes_outgoing[..2 * edges]
        .iter()
        .all(|&half_edge| match seen.get_mut(usize::from(half_edge)) {
            Some(seen) => !std::mem::replace(seen, true),
            None => false,
        })
}

fn sound_point(node: usize, state: &State) -> bool {
    is_coordinate(state.tables.nodes_x[node]) && is_coordinate(state.tables.nodes_y[node])
}

/// Nothing is marked and degrees are star lengths.
fn is_fresh(nodes: usize, edges: usize, state: &State) -> bool {
    let tables = &state.tables;
    let mut degrees = vec![0u16; nodes];
    for &src in &tables.dir_edges_src[..2 * edges] {
        degrees[usize::from(src)] += 1;
    }
    degrees == tables.nodes_degree[..nodes]
        && !tables.nodes_marked[..nodes].contains(&true)
        && !tables.dir_edges_marked[..2 * edges].contains(&true)
}

/// The angle comparison, which puts its three points to number 1.
pub fn compare_points(
    centre: Coord<f64>,
    a: Coord<f64>,
    b: Coord<f64>,
) -> Result<Ordering, Refusal> {
    let whole = |point: Coord<f64>| is_coordinate(point.x) && is_coordinate(point.y);
    demand(whole(centre) && whole(a) && whole(b), Refusal::NotWhole)?;
    Ok(compare_angular(centre, a, b))
}

/// How the original names a ring: by its key and area, with this number. Rings come in the order of
/// their starting half-edges.
pub struct Named {
    pub key: Vec<[u64; 2]>,
    pub area: f64,
    pub face: usize,
}

impl Named {
    fn ties_with(&self, other: &Named) -> bool {
        self.key == other.key && self.area == other.area
    }
}

/// Rings by the original's number, those of equal key and area together.
fn tied(rings: &[Named]) -> Vec<Vec<usize>> {
    let mut order: Vec<usize> = (0..rings.len()).collect();
    order.sort_by_key(|&ring| rings[ring].face);
    let groups = order.chunk_by(|&a, &b| rings[a].ties_with(&rings[b]));
    groups.map(<[usize]>::to_vec).collect()
}

/// Whether two rings have equal keys and areas. No graph made by additions has such rings.
pub fn has_ties(rings: &[Named]) -> bool {
    tied(rings).len() < rings.len()
}

/// Face numbers where rings of equal key and area go by their lower starting half-edge. The
/// original sorts these unstably. Without such rings its own numbers come back.
pub fn break_ties(rings: &[Named]) -> Vec<usize> {
    let mut faces = vec![0; rings.len()];
    let mut face = 0;
    for mut group in tied(rings) {
        group.sort_unstable();
        for ring in group {
            faces[ring] = face;
            face += 1;
        }
    }
    faces
}
