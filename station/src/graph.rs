//! A graph that owns its tables.

use crate::entries::{
    self, HoleRecord, RingLists, Slices, ADDED_LENGTH, CENSUS_LENGTH, COUNT_LENGTH, FILE_LENGTH,
    RINGS_LENGTH, STATE_LENGTH,
};
use crate::layout::{
    EDGE_LIMIT, FLOATS, HALF_EDGE_LIMIT, HALF_EDGE_MARKS, IDS, LINE_IDS, MARKS, NODES_X, NODES_Y,
    NODES_Z, NUMBERS, SEGMENTS, SEGMENT_FLOATS, SOURCES, STARS, TARGETS,
};
use crate::{LineIds, Refusal, Rings};

/// The number of a node.
#[derive(Clone, Copy, Debug, PartialEq, Eq, PartialOrd, Ord, Hash)]
pub struct NodeId(pub u16);

/// The number of an edge. Edge k owns half-edges 2 k, as given, and 2 k + 1, its twin.
#[derive(Clone, Copy, Debug, PartialEq, Eq, PartialOrd, Ord, Hash)]
pub struct EdgeId(pub u16);

/// The number of a half-edge.
#[derive(Clone, Copy, Debug, PartialEq, Eq, PartialOrd, Ord, Hash)]
pub struct DirEdgeId(pub u16);

impl DirEdgeId {
    /// The edge that owns it.
    pub fn edge(self) -> EdgeId {
        EdgeId(self.0 / 2)
    }
}

/// The number of a face.
#[derive(Clone, Copy, Debug, PartialEq, Eq, PartialOrd, Ord, Hash)]
pub struct FaceId(pub u16);

/// A point. x and y are whole numbers from -1,048,576 to 1,048,576; z may be anything.
#[derive(Clone, Copy, Debug, PartialEq)]
pub struct Coord3D {
    /// To the right.
    pub x: f64,
    /// Upwards. Where it counts downwards, as on a screen, left and right change places in what is said
    /// here, and no reply changes.
    pub y: f64,
    /// Carried along and never computed with.
    pub z: f64,
}

impl Coord3D {
    /// The point (x, y, z).
    pub fn new(x: f64, y: f64, z: f64) -> Self {
        Coord3D { x, y, z }
    }
}

/// A segment of a trace.
#[derive(Clone, Copy, Debug, PartialEq)]
pub struct Line3D {
    /// Where it starts.
    pub start: Coord3D,
    /// Where it ends.
    pub end: Coord3D,
    /// Which pass of the tracing drew it.
    pub line_id: u32,
}

impl Line3D {
    /// The segment from `start` to `end`.
    pub fn new(start: Coord3D, end: Coord3D, line_id: u32) -> Self {
        Line3D {
            start,
            end,
            line_id,
        }
    }

    pub(crate) fn from_values(values: [f64; SEGMENT_FLOATS], line_id: u32) -> Self {
        let [x1, y1, z1, x2, y2, z2] = values;
        Line3D::new(Coord3D::new(x1, y1, z1), Coord3D::new(x2, y2, z2), line_id)
    }

    fn values(&self) -> [f64; SEGMENT_FLOATS] {
        let (a, b) = (self.start, self.end);
        [a.x, a.y, a.z, b.x, b.y, b.z]
    }
}

/// Where a graph is on its way from segments to rings.
#[derive(Clone, Copy, Debug, PartialEq, Eq)]
pub enum Stage {
    /// Segments are added.
    Building,
    /// The half-edges around each node are in angular order.
    Sorted,
    /// Dangles are marked.
    Pruned,
    /// Cut edges are marked.
    Cut,
    /// The rings are listed.
    Ringed,
}

/// The edge of a segment that was added, and whether it is a new one.
#[derive(Clone, Copy, Debug, PartialEq, Eq)]
pub struct Added {
    /// The edge between the segment's ends.
    pub edge: EdgeId,
    /// Whether the segment made it.
    pub new: bool,
}

/// What adding a segment file came to: how many records were taken, and the refusal of the one after
/// them, if that ended it.
#[derive(Clone, Copy, Debug, PartialEq, Eq)]
pub struct Records {
    /// How many records were taken, those passed over among them.
    pub taken: usize,
    /// Why the next one was refused; none at the file's end.
    pub stopped: Option<Refusal>,
}

impl Records {
    /// How many records the file has.
    ///
    /// # Errors
    ///
    /// Why the first bad record is refused, where there is one.
    pub fn whole(self) -> Result<usize, Refusal> {
        match self.stopped {
            None => Ok(self.taken),
            Some(refusal) => Err(refusal),
        }
    }
}

/// The counts that Euler's formula is about, over what is unmarked, and its verdict.
#[derive(Clone, Copy, Debug, PartialEq, Eq)]
pub struct Census {
    /// V, the nodes with an unmarked half-edge.
    pub vertices: u16,
    /// E, the unmarked edges.
    pub edges: u16,
    /// The maximal rings.
    pub cycles: u16,
    /// C, the pieces that the nodes form.
    pub pieces: u16,
    /// Whether V - E + cycles = 2 x C. It is no proof that no segments cross: crossings without a node can
    /// pass it.
    pub verdict: bool,
}

impl Census {
    pub(crate) fn of([vertices, edges, cycles, pieces, verdict]: [u16; 5]) -> Self {
        Census {
            vertices,
            edges,
            cycles,
            pieces,
            verdict: verdict == 1,
        }
    }
}

/// The edges that were cut, and the counts before.
#[derive(Clone, Debug, PartialEq, Eq)]
pub struct Cuts {
    /// By rising number.
    pub edges: Vec<EdgeId>,
    /// Taken before they were marked.
    pub census: Census,
}

/// A graph: segments are added, then the four steps run in their order. [`Graph::polygonize`] does all of
/// that for a whole tracing.
///
/// A refused call changes nothing. A graph may be moved to another thread, and graphs may be worked on in
/// several threads at once: the library keeps nothing between calls, so all that a call reads and writes is
/// in its own graph.
#[derive(Clone, Debug)]
pub struct Graph {
    /// Node count, edge count, stage.
    state: [u16; STATE_LENGTH],
    slices: OwnedSlices,
    listed: Vec<u16>,
    pub(crate) rings: OwnedRings,
    pub(crate) holes: Vec<HoleRecord>,
}

#[derive(Clone, Debug)]
struct OwnedSlices {
    floats: Vec<f64>,
    numbers: Vec<u16>,
    stars: Vec<u16>,
    marks: Vec<u8>,
    ids: Vec<u32>,
}

#[derive(Clone, Debug)]
pub(crate) struct OwnedRings {
    pub half_edges: Vec<u16>,
    pub first: Vec<u16>,
    pub length: Vec<u16>,
    pub face: Vec<u16>,
    pub side: Vec<u8>,
    pub area: Vec<f64>,
}

impl OwnedSlices {
    fn new() -> Self {
        OwnedSlices {
            floats: vec![0.0; FLOATS],
            numbers: vec![0; NUMBERS],
            stars: vec![0; STARS],
            marks: vec![0; MARKS],
            ids: vec![0; IDS],
        }
    }

    fn lend(&mut self) -> Slices<'_> {
        Slices {
            floats: &mut self.floats,
            numbers: &mut self.numbers,
            stars: &mut self.stars,
            marks: &mut self.marks,
            ids: &mut self.ids,
        }
    }
}

impl OwnedRings {
    fn new(length: usize) -> Self {
        OwnedRings {
            half_edges: vec![0; length],
            first: vec![0; length],
            length: vec![0; length],
            face: vec![0; length],
            side: vec![0; length],
            area: vec![0.0; length],
        }
    }

    fn lend(&mut self) -> RingLists<'_> {
        RingLists {
            half_edges: &mut self.half_edges,
            first: &mut self.first,
            length: &mut self.length,
            face: &mut self.face,
            side: &mut self.side,
            area: &mut self.area,
        }
    }
}

impl Default for Graph {
    fn default() -> Self {
        Graph::new()
    }
}

impl Graph {
    /// An empty graph, with room for [`NODE_LIMIT`](crate::layout::NODE_LIMIT) nodes,
    /// [`EDGE_LIMIT`] edges and [`PAIR_LIMIT`](crate::layout::PAIR_LIMIT) line ids behind them.
    pub fn new() -> Self {
        let mut graph = Graph {
            state: [0; STATE_LENGTH],
            slices: OwnedSlices::new(),
            listed: vec![0; EDGE_LIMIT],
            rings: OwnedRings::new(HALF_EDGE_LIMIT),
            // There are never more open rings than edges.
            holes: vec![HoleRecord::default(); EDGE_LIMIT],
        };
        graph.clear();
        graph
    }

    /// Makes the graph empty again.
    pub fn clear(&mut self) {
        entries::create(&mut self.state, &mut self.slices.lend())
            .expect("the slices are as long as the limits need");
    }

    /// Adds a segment (stage `Building`). A segment between two nodes that are joined already
    /// answers the old edge. Its id comes to the edge's [`line_ids`](Graph::line_ids), and nothing
    /// else changes.
    ///
    /// # Errors
    ///
    /// 5 in another stage; 1 and 2 for the segment's points; 3, 4 and 12 where the tables are full.
    pub fn add_line(&mut self, line: &Line3D) -> Result<Added, Refusal> {
        let mut reply = [0; ADDED_LENGTH];
        entries::add_line(
            &mut self.state,
            &line.values(),
            line.line_id,
            &mut self.slices.lend(),
            &mut reply,
        )?;
        Ok(Added {
            edge: EdgeId(reply[0]),
            new: reply[1] == 1,
        })
    }

    /// Adds the segments of a file (stage `Building`), up to its end or to the first record that is
    /// refused. Rings and records of kinds 3 to 15 are passed over. The segments before that record stay added: [`Records`] says how many, and why it
    /// is refused. This tests the tables once, where a call of `add_line` for each segment tests
    /// them for each.
    ///
    /// # Errors
    ///
    /// 5 in another stage. The refusal of a record is no error of the call: [`Records::whole`] makes it one.
    pub fn add_records(&mut self, bytes: &[u8]) -> Result<Records, Refusal> {
        let mut reply = [0; FILE_LENGTH];
        entries::add_records(&mut self.state, bytes, &mut self.slices.lend(), &mut reply)?;
        let [taken, number] = reply;
        Ok(Records {
            taken: taken as usize,
            stopped: Refusal::from_number(number as u32),
        })
    }

    /// Puts the half-edges around every node in angular order (`Building` to `Sorted`).
    ///
    /// # Errors
    ///
    /// 5 in another stage.
    pub fn sort_edges(&mut self) -> Result<(), Refusal> {
        entries::sort_edges(&mut self.state, &mut self.slices.lend())
    }

    /// Marks dangles and answers their edges in the order found (`Sorted` to `Pruned`).
    ///
    /// # Errors
    ///
    /// 5 in another stage.
    pub fn prune_dangles(&mut self) -> Result<Vec<EdgeId>, Refusal> {
        let mut reply = [0; COUNT_LENGTH];
        entries::prune_dangles(
            &mut self.state,
            &mut self.slices.lend(),
            &mut self.listed,
            &mut reply,
        )?;
        Ok(self.listed_edges(reply[0]))
    }

    /// Marks edges with the same maximal ring on both sides (`Pruned` to `Cut`).
    ///
    /// # Errors
    ///
    /// 5 in another stage.
    pub fn delete_cut_edges(&mut self) -> Result<Cuts, Refusal> {
        let mut reply = [0; CENSUS_LENGTH];
        entries::delete_cut_edges(
            &mut self.state,
            &mut self.slices.lend(),
            &mut self.listed,
            &mut reply,
        )?;
        let [count, census @ ..] = reply;
        Ok(Cuts {
            edges: self.listed_edges(count),
            census: Census::of(census),
        })
    }

    /// Extracts the rings of what is unmarked, and which of them are holes of others (`Cut` to
    /// `Ringed`).
    ///
    /// # Errors
    ///
    /// 5 in another stage.
    pub fn extract_rings(&mut self) -> Result<Rings<'_>, Refusal> {
        let reply = self.list_rings()?;
        Ok(Rings::new(self, reply))
    }

    /// The rings in their lists, and what the library replied.
    pub(crate) fn list_rings(&mut self) -> Result<[u16; RINGS_LENGTH], Refusal> {
        let mut reply = [0; RINGS_LENGTH];
        entries::extract_rings(
            &mut self.holes,
            &mut self.state,
            &mut self.slices.lend(),
            &mut self.rings.lend(),
            &mut reply,
        )?;
        Ok(reply)
    }

    /// Unmarks everything, in any stage, so that segments can be added again (to `Building`).
    ///
    /// # Errors
    ///
    /// None that this graph's own calls can cause.
    pub fn reset(&mut self) -> Result<(), Refusal> {
        entries::reset(&mut self.state, &mut self.slices.lend())
    }

    /// How many nodes it has.
    pub fn node_count(&self) -> usize {
        self.state[0].into()
    }

    /// How many edges it has, marked ones included.
    pub fn edge_count(&self) -> usize {
        self.state[1].into()
    }

    /// How far it has come.
    pub fn stage(&self) -> Stage {
        match self.state[2] {
            0 => Stage::Building,
            1 => Stage::Sorted,
            2 => Stage::Pruned,
            3 => Stage::Cut,
            _ => Stage::Ringed,
        }
    }

    /// Where a node lies, if the graph has it: the first point that was given for it.
    pub fn node(&self, node: NodeId) -> Option<Coord3D> {
        let place = within(node.0, self.node_count())?;
        let [x, y, z] = [NODES_X, NODES_Y, NODES_Z].map(|table| self.slices.floats[table + place]);
        Some(Coord3D::new(x, y, z))
    }

    /// The first segment that was given for an edge, with the lowest of its line ids.
    pub fn line(&self, edge: EdgeId) -> Option<Line3D> {
        let place = within(edge.0, self.edge_count())?;
        let values = &self.slices.floats[SEGMENTS + SEGMENT_FLOATS * place..][..SEGMENT_FLOATS];
        let values = values.try_into().expect("the values of a segment");
        let line_id = self.slices.ids[LINE_IDS + place];
        Some(Line3D::from_values(values, line_id))
    }

    /// The line ids of all segments that were added along an edge, rising and without repeats: which
    /// passes drew this border. Of an edge that the graph does not have there are none.
    ///
    /// ```
    /// use tukmiheb::{Coord3D, EdgeId, Graph, Line3D, Refusal};
    ///
    /// let [a, b] = [0.0, 4.0].map(|x| Coord3D::new(x, 0.0, 0.0));
    /// let mut graph = Graph::new();
    /// graph.add_line(&Line3D::new(a, b, 5))?;
    /// graph.add_line(&Line3D::new(b, a, 3))?;
    /// graph.add_line(&Line3D::new(a, b, 5))?;
    /// assert!(graph.line_ids(EdgeId(0)).eq([3, 5]));
    /// assert_eq!(graph.line_ids(EdgeId(1)).next(), None);
    /// # Ok::<(), Refusal>(())
    /// ```
    pub fn line_ids(&self, edge: EdgeId) -> LineIds<'_> {
        let place = within(edge.0, self.edge_count());
        LineIds::new(&self.slices.numbers, &self.slices.ids, place)
    }

    /// Where a half-edge starts and where it ends.
    pub fn ends(&self, half_edge: DirEdgeId) -> Option<(NodeId, NodeId)> {
        let place = within(half_edge.0, 2 * self.edge_count())?;
        let [source, target] = [SOURCES, TARGETS].map(|table| self.slices.numbers[table + place]);
        Some((NodeId(source), NodeId(target)))
    }

    /// Whether an edge is marked, as a dangle or as a cut edge.
    pub fn is_marked(&self, edge: EdgeId) -> Option<bool> {
        let place = within(edge.0, self.edge_count())?;
        // Both half-edges of an edge are marked alike.
        Some(self.slices.marks[HALF_EDGE_MARKS + 2 * place] == 1)
    }

    fn listed_edges(&self, count: u16) -> Vec<EdgeId> {
        let listed = &self.listed[..usize::from(count)];
        listed.iter().map(|&edge| EdgeId(edge)).collect()
    }
}

fn within(number: u16, count: usize) -> Option<usize> {
    let place = usize::from(number);
    (place < count).then_some(place)
}
