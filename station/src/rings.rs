//! The rings of a graph.

use crate::entries::{ENCLOSED, OPEN, RINGS_LENGTH};
use crate::graph::{Census, Coord3D, DirEdgeId, FaceId, Graph, NodeId};
use crate::holes::{Compartment, Hole};
use std::iter::FusedIterator;
use std::ops::Range;

/// The side of a ring: what lies to the left of its half-edges.
#[derive(Clone, Copy, Debug, PartialEq)]
pub enum RingSide {
    /// The outline of a compartment, with its area.
    Enclosed(f64),
    /// What lies around a piece of the map, with its area, which is below 0. It is a hole of its holder, or
    /// the one outside where there is none ([`Rings::holes`]).
    Open(f64),
    /// A ring without area.
    Flat,
}

/// The rings of a graph, in the order of their lowest half-edges.
#[derive(Clone, Copy, Debug)]
pub struct Rings<'a> {
    graph: &'a Graph,
    count: usize,
    census: Census,
    comparisons: usize,
    half_edges: usize,
    holes: usize,
}

/// The rings one after another. See [`Rings::iter`].
#[derive(Clone, Debug)]
pub struct RingIter<'a> {
    graph: &'a Graph,
    numbers: Range<usize>,
}

/// A ring. It begins with its lowest half-edge.
#[derive(Clone, Copy, Debug)]
pub struct Ring<'a> {
    graph: &'a Graph,
    number: usize,
}

impl<'a> Rings<'a> {
    pub(crate) fn new(graph: &'a Graph, reply: [u16; RINGS_LENGTH]) -> Self {
        let [count, census @ .., comparisons, half_edges, holes] = reply;
        Rings {
            graph,
            count: count.into(),
            census: Census::of(census),
            comparisons: comparisons.into(),
            half_edges: half_edges.into(),
            holes: holes.into(),
        }
    }

    /// The graph that they were extracted from.
    pub fn graph(&self) -> &'a Graph {
        self.graph
    }

    /// The counts before maximal rings were split.
    pub fn census(&self) -> Census {
        self.census
    }

    /// How long naming took: for each ring the least rotation of its corners is searched once, from
    /// its lowest half-edge, and this is how often two corners were compared, over all rings. A
    /// ring of n corners takes at most 3 n - 3.
    pub fn comparisons(&self) -> usize {
        self.comparisons
    }

    /// How many half-edges all rings have together.
    pub fn half_edge_count(&self) -> usize {
        self.half_edges
    }

    /// How many rings there are.
    pub fn len(&self) -> usize {
        self.count
    }

    /// Whether there is none, as in an empty graph or a tracing without a closed line.
    pub fn is_empty(&self) -> bool {
        self.count == 0
    }

    /// The ring with this number, if there is one.
    pub fn get(&self, number: usize) -> Option<Ring<'a>> {
        (number < self.count).then_some(Ring::new(self.graph, number))
    }

    /// The rings by their numbers.
    pub fn iter(&self) -> RingIter<'a> {
        RingIter {
            graph: self.graph,
            numbers: 0..self.count,
        }
    }

    /// The enclosed rings, which are the outlines of compartments.
    pub fn enclosed(&self) -> impl Iterator<Item = Ring<'a>> {
        self.iter()
            .filter(|ring| matches!(ring.side(), RingSide::Enclosed(_)))
    }

    /// The open rings, each with the ring that holds it.
    pub fn holes(&self) -> impl Iterator<Item = Hole<'a>> {
        let graph = self.graph;
        let records = graph.holes[..self.holes].iter();
        records.map(move |record| Hole::new(graph, record))
    }

    /// The compartments of the map, in ring order: each enclosed ring without the islands in it.
    pub fn compartments(&self) -> impl Iterator<Item = Compartment<'a>> {
        let rings = *self;
        self.enclosed()
            .map(move |ring| Compartment::new(ring, rings))
    }
}

impl<'a> IntoIterator for Rings<'a> {
    type Item = Ring<'a>;
    type IntoIter = RingIter<'a>;

    fn into_iter(self) -> RingIter<'a> {
        self.iter()
    }
}

impl<'a> IntoIterator for &Rings<'a> {
    type Item = Ring<'a>;
    type IntoIter = RingIter<'a>;

    fn into_iter(self) -> RingIter<'a> {
        self.iter()
    }
}

impl<'a> Iterator for RingIter<'a> {
    type Item = Ring<'a>;

    fn next(&mut self) -> Option<Ring<'a>> {
        let number = self.numbers.next()?;
        Some(Ring::new(self.graph, number))
    }

    fn size_hint(&self) -> (usize, Option<usize>) {
        self.numbers.size_hint()
    }
}

impl DoubleEndedIterator for RingIter<'_> {
    fn next_back(&mut self) -> Option<Self::Item> {
        let number = self.numbers.next_back()?;
        Some(Ring::new(self.graph, number))
    }
}

impl ExactSizeIterator for RingIter<'_> {}

impl FusedIterator for RingIter<'_> {}

impl<'a> Ring<'a> {
    pub(crate) fn new(graph: &'a Graph, number: usize) -> Self {
        Ring { graph, number }
    }

    /// Its place among the rings.
    pub fn number(&self) -> usize {
        self.number
    }

    /// The number of its face: it depends on the coordinates alone, not on the order of additions.
    pub fn face(&self) -> FaceId {
        FaceId(self.graph.rings.face[self.number])
    }

    /// What lies to its left, with its area.
    pub fn side(&self) -> RingSide {
        let area = self.graph.rings.area[self.number];
        match self.graph.rings.side[self.number] {
            ENCLOSED => RingSide::Enclosed(area),
            OPEN => RingSide::Open(area),
            _ => RingSide::Flat,
        }
    }

    /// Its area: above 0 where enclosed, below 0 where open, 0 where flat.
    pub fn area(&self) -> f64 {
        self.graph.rings.area[self.number]
    }

    /// Its area, doubled, which is a whole number.
    pub fn doubled(&self) -> i64 {
        (2.0 * self.area()) as i64
    }

    /// Its half-edges in their order, from the lowest.
    pub fn half_edges(&self) -> impl Iterator<Item = DirEdgeId> + 'a {
        let rings = &self.graph.rings;
        let first = usize::from(rings.first[self.number]);
        let length = usize::from(rings.length[self.number]);
        let half_edges = &rings.half_edges[first..first + length];
        half_edges.iter().map(|&half_edge| DirEdgeId(half_edge))
    }

    /// The nodes at which its half-edges start.
    pub fn nodes(&self) -> impl Iterator<Item = NodeId> + 'a {
        let graph = self.graph;
        self.half_edges()
            .map(|half_edge| graph.ends(half_edge).expect("a half-edge of the graph").0)
    }

    /// Where these nodes lie: the corners of the ring. The first is not repeated at the end.
    pub fn points(&self) -> impl Iterator<Item = Coord3D> + 'a {
        let graph = self.graph;
        self.nodes()
            .map(|node| graph.node(node).expect("a node of the graph"))
    }
}
