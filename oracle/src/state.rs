//! The state as the rules have it: the fourteen tables, the result lists, the counts and the stage; the
//! calls and what they answer. The library is lent the tables as regions of five slices.

use crate::original::Line3D;

/// The most nodes and edges that a graph may have.
pub const NODE_LIMIT: usize = 2048;
pub const EDGE_LIMIT: usize = 2048;

/// The most pairs of a line id and a next place, for the lists of all edges together.
pub const PAIR_LIMIT: usize = 4096;

/// No place: it ends a list of line ids.
pub const LIST_END: u16 = 65_535;

/// The holder of an open ring that no ring holds.
pub const OUTSIDE: u16 = 65_535;

/// The entries of the longest result list: one for each half-edge.
pub const LIST_LENGTH: usize = 2 * EDGE_LIMIT;

/// The records of the hole list. A ring that has an area has two half-edges or more, so there are never
/// more open rings than edges.
pub const HOLE_LIST_LENGTH: usize = EDGE_LIMIT;

/// How many result lists there are, and the place of the hole list among them.
pub const LISTS: usize = 8;
pub const HOLES: usize = 7;

/// How many tables there are.
pub const TABLES: usize = 14;

/// How many entries each table needs, in the tables' order.
pub const LEAST_LENGTHS: [usize; TABLES] = [
    NODE_LIMIT,
    NODE_LIMIT,
    NODE_LIMIT,
    NODE_LIMIT,
    NODE_LIMIT,
    6 * EDGE_LIMIT,
    EDGE_LIMIT,
    2 * EDGE_LIMIT,
    2 * EDGE_LIMIT,
    2 * EDGE_LIMIT,
    2 * EDGE_LIMIT,
    EDGE_LIMIT,
    PAIR_LIMIT,
    PAIR_LIMIT,
];

/// The fourteen state tables.
#[derive(Clone)]
pub struct Tables {
    pub nodes_x: Vec<f64>,
    pub nodes_y: Vec<f64>,
    pub nodes_z: Vec<f64>,
    pub nodes_degree: Vec<u16>,
    pub nodes_marked: Vec<bool>,
    /// Start x, y, z and end x, y, z of edge k from 6 k on.
    pub edges_line: Vec<f64>,
    /// The lowest id of the edge's list.
    pub edges_line_id: Vec<u32>,
    pub dir_edges_src: Vec<u16>,
    pub dir_edges_dst: Vec<u16>,
    pub dir_edges_marked: Vec<bool>,
    /// Every half-edge once. A node's star is what of it starts at the node, in this order.
    pub nodes_outgoing: Vec<u16>,
    /// Where the first pair of the edge's list of line ids stands.
    pub edges_list_place: Vec<u16>,
    /// The line id of each pair.
    pub pairs_id: Vec<u32>,
    /// Where the pair after it stands, or [`LIST_END`].
    pub pairs_next: Vec<u16>,
}

/// A record of the hole list: an open ring by its number, its holder's number or [`OUTSIDE`], and its own
/// doubled area.
#[derive(Clone, Copy, Debug, PartialEq, Eq)]
pub struct Hole {
    pub ring: u16,
    pub holder: u16,
    pub doubled: i64,
}

/// The lent result lists: one for the edges that pruning and cutting list, six for rings, one for holes.
#[derive(Clone)]
pub struct Lists {
    pub edges: Vec<u16>,
    pub half_edges: Vec<u16>,
    pub ring_first: Vec<u16>,
    pub ring_length: Vec<u16>,
    pub ring_face: Vec<u16>,
    /// 0 flat, 1 enclosed, 2 open.
    pub ring_side: Vec<u8>,
    pub ring_area: Vec<f64>,
    pub holes: Vec<Hole>,
}

/// All that a call can change.
#[derive(Clone)]
pub struct State {
    pub nodes: u16,
    pub edges: u16,
    pub stage: u16,
    pub tables: Tables,
    pub lists: Lists,
}

/// A call of the library.
#[derive(Clone, Copy, Debug)]
pub enum Call {
    Create,
    Add(Line3D),
    Sort,
    Prune,
    Cut,
    Rings,
    Reset,
}

/// How tables and lists are lent to one call.
#[derive(Clone, Copy, Debug, PartialEq, Eq)]
pub struct Lent {
    /// The table that is one entry short of its least length. For the library it is the slice that
    /// holds this table.
    pub short: Option<usize>,
    /// The entries of each list, in the order of [`Lists`].
    pub lists: [usize; LISTS],
}

impl Lent {
    /// Everything at its full length.
    pub const FULL: Lent = Lent::of_length(LIST_LENGTH);

    /// Every list with this many entries, but the hole list at its full length.
    pub const fn of_length(length: usize) -> Self {
        let mut lists = [length; LISTS];
        lists[HOLES] = HOLE_LIST_LENGTH;
        Lent { short: None, lists }
    }

    /// The same with this many records for holes.
    pub const fn with_holes(mut self, length: usize) -> Self {
        self.lists[HOLES] = length;
        self
    }

    /// How many entries of a table are lent, which has `length`.
    pub fn table(&self, table: usize, length: usize) -> usize {
        if self.short == Some(table) {
            LEAST_LENGTHS[table] - 1
        } else {
            length
        }
    }
}

/// V, E, cycles, C and the Euler verdict.
#[derive(Clone, Copy, Debug, PartialEq, Eq)]
pub struct Census {
    pub vertices: u16,
    pub edges: u16,
    pub cycles: u16,
    pub pieces: u16,
    pub verdict: bool,
}

/// What a call answers. Edges and rings that it lists are in the result lists.
#[derive(Clone, Copy, Debug, PartialEq, Eq)]
pub enum Reply {
    /// The number of the refusal.
    Refused(u32),
    Created,
    Edge {
        edge: u16,
        new: bool,
    },
    /// Sorting and resetting.
    Done,
    Dangles(u16),
    Cuts(u16, Census),
    Rings {
        count: u16,
        census: Census,
        /// How often the least-rotation searches of all rings compared two entries.
        comparisons: u16,
        /// How many half-edges and holes were written; of each other ring list `count`.
        half_edges: u16,
        holes: u16,
    },
}

impl Reply {
    /// How many entries of each list it says were written, in the order of [`Lists`].
    pub fn written(&self) -> [usize; LISTS] {
        let written = match *self {
            Reply::Dangles(count) | Reply::Cuts(count, _) => [count, 0, 0, 0, 0, 0, 0, 0],
            Reply::Rings {
                count,
                half_edges,
                holes,
                ..
            } => [0, half_edges, count, count, count, count, count, holes],
            _ => [0; LISTS],
        };
        written.map(usize::from)
    }
}

/// One side of a comparison.
pub trait Side {
    fn state(&self) -> &State;

    /// The state, to be damaged.
    fn state_mut(&mut self) -> &mut State;

    fn call(&mut self, call: &Call, lent: &Lent) -> Reply;
}

/// Zero in every field.
const NO_HOLE: Hole = Hole {
    ring: 0,
    holder: 0,
    doubled: 0,
};

impl Default for State {
    /// No graph yet, and zero everywhere.
    fn default() -> Self {
        let [x, y, z, degree, marked, line, line_id, src, dst, half, star, place, id, next] =
            LEAST_LENGTHS;
        State {
            nodes: 0,
            edges: 0,
            stage: 0,
            tables: Tables {
                nodes_x: vec![0.0; x],
                nodes_y: vec![0.0; y],
                nodes_z: vec![0.0; z],
                nodes_degree: vec![0; degree],
                nodes_marked: vec![false; marked],
                edges_line: vec![0.0; line],
                edges_line_id: vec![0; line_id],
                dir_edges_src: vec![0; src],
                dir_edges_dst: vec![0; dst],
                dir_edges_marked: vec![false; half],
                nodes_outgoing: vec![0; star],
                edges_list_place: vec![0; place],
                pairs_id: vec![0; id],
                pairs_next: vec![0; next],
            },
            lists: Lists {
                edges: vec![0; LIST_LENGTH],
                half_edges: vec![0; LIST_LENGTH],
                ring_first: vec![0; LIST_LENGTH],
                ring_length: vec![0; LIST_LENGTH],
                ring_face: vec![0; LIST_LENGTH],
                ring_side: vec![0; LIST_LENGTH],
                ring_area: vec![0.0; LIST_LENGTH],
                holes: vec![NO_HOLE; HOLE_LIST_LENGTH],
            },
        }
    }
}

impl State {
    /// The star of each node, by the star table. Entries out of range belong to no star.
    pub fn stars(&self) -> Vec<Vec<u16>> {
        let mut stars = vec![Vec::new(); usize::from(self.nodes).min(NODE_LIMIT)];
        let used = (2 * usize::from(self.edges)).min(self.tables.nodes_outgoing.len());
        for &half_edge in &self.tables.nodes_outgoing[..used] {
            let src = self.tables.dir_edges_src.get(usize::from(half_edge));
            if let Some(star) = src.and_then(|&src| stars.get_mut(usize::from(src))) {
                star.push(half_edge);
            }
        }
        stars
    }

    /// The first entry in which two states differ, floats by their bits.
    pub fn difference(&self, other: &State) -> Option<String> {
        let small = |state: &State| [state.nodes, state.edges, state.stage];
        differ("counts and stage", &small(self), &small(other))
            .or_else(|| self.tables.difference(&other.tables))
            .or_else(|| self.lists.difference(&other.lists, [0; LISTS]))
    }
}

impl Tables {
    pub fn lengths(&self) -> [usize; TABLES] {
        [
            self.nodes_x.len(),
            self.nodes_y.len(),
            self.nodes_z.len(),
            self.nodes_degree.len(),
            self.nodes_marked.len(),
            self.edges_line.len(),
            self.edges_line_id.len(),
            self.dir_edges_src.len(),
            self.dir_edges_dst.len(),
            self.dir_edges_marked.len(),
            self.nodes_outgoing.len(),
            self.edges_list_place.len(),
            self.pairs_id.len(),
            self.pairs_next.len(),
        ]
    }

    pub fn difference(&self, other: &Tables) -> Option<String> {
        let (a, b) = (self, other);
        differ("nodes_x", &a.nodes_x, &b.nodes_x)
            .or_else(|| differ("nodes_y", &a.nodes_y, &b.nodes_y))
            .or_else(|| differ("nodes_z", &a.nodes_z, &b.nodes_z))
            .or_else(|| differ("nodes_degree", &a.nodes_degree, &b.nodes_degree))
            .or_else(|| differ("nodes_marked", &a.nodes_marked, &b.nodes_marked))
            .or_else(|| differ("edges_line", &a.edges_line, &b.edges_line))
            .or_else(|| differ("edges_line_id", &a.edges_line_id, &b.edges_line_id))
            .or_else(|| differ("dir_edges_src", &a.dir_edges_src, &b.dir_edges_src))
            .or_else(|| differ("dir_edges_dst", &a.dir_edges_dst, &b.dir_edges_dst))
            .or_else(|| differ("dir_edges_marked", &a.dir_edges_marked, &b.dir_edges_marked))
            .or_else(|| differ("nodes_outgoing", &a.nodes_outgoing, &b.nodes_outgoing))
            .or_else(|| differ("edges_list_place", &a.edges_list_place, &b.edges_list_place))
            .or_else(|| differ("pairs_id", &a.pairs_id, &b.pairs_id))
            .or_else(|| differ("pairs_next", &a.pairs_next, &b.pairs_next))
    }
}

impl Lists {
    /// The first difference at or past the given place of each list.
    pub fn difference(&self, other: &Lists, from: [usize; LISTS]) -> Option<String> {
        let (a, b, [edges, half, first, length, face, side, area, holes]) = (self, other, from);
        differ("edges", &a.edges[edges..], &b.edges[edges..])
            .or_else(|| differ("half_edges", &a.half_edges[half..], &b.half_edges[half..]))
            .or_else(|| differ("ring_first", &a.ring_first[first..], &b.ring_first[first..]))
            .or_else(|| {
                differ(
                    "ring_length",
                    &a.ring_length[length..],
                    &b.ring_length[length..],
                )
            })
            .or_else(|| differ("ring_face", &a.ring_face[face..], &b.ring_face[face..]))
            .or_else(|| differ("ring_side", &a.ring_side[side..], &b.ring_side[side..]))
            .or_else(|| differ("ring_area", &a.ring_area[area..], &b.ring_area[area..]))
            .or_else(|| differ("holes", &a.holes[holes..], &b.holes[holes..]))
    }
}

/// An entry as bits, so that floats are compared by theirs.
trait Bits: Copy {
    fn bits(self) -> u128;
}

impl Bits for f64 {
    fn bits(self) -> u128 {
        self.to_bits().into()
    }
}

impl Bits for u32 {
    fn bits(self) -> u128 {
        self.into()
    }
}

impl Bits for u16 {
    fn bits(self) -> u128 {
        self.into()
    }
}

impl Bits for u8 {
    fn bits(self) -> u128 {
        self.into()
    }
}

impl Bits for bool {
    fn bits(self) -> u128 {
        self.into()
    }
}

impl Bits for Hole {
    fn bits(self) -> u128 {
        let [ring, holder, doubled] = [
            self.ring.into(),
            self.holder.into(),
            u128::from(self.doubled as u64),
        ];
        ring << 80 | holder << 64 | doubled
    }
}

/// Where two tables differ first. All entries are folded before any is looked for, which is much
/// faster where they agree.
fn differ<T: Bits>(name: &str, a: &[T], b: &[T]) -> Option<String> {
    let pairs = || a.iter().zip(b);
    let same = pairs().fold(true, |all, (x, y)| all & (x.bits() == y.bits()));
    if same && a.len() == b.len() {
        return None;
    }
    let place = pairs().position(|(x, y)| x.bits() != y.bits());
    Some(match place {
        Some(place) => format!(
            "{name}[{place}]: bits {:x} and {:x}",
            a[place].bits(),
            b[place].bits()
        ),
        None => format!("{name}: {} and {} entries", a.len(), b.len()),
    })
}
