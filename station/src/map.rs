//! From a whole tracing to its map, in one call.

use crate::entries::RINGS_LENGTH;
use crate::graph::{Cuts, EdgeId, Graph, Line3D};
use crate::{Compartment, Refusal, Rings};
use std::borrow::Borrow;
use std::error::Error;
use std::fmt::{self, Display, Formatter};

/// The map of a tracing: what the four steps made of it.
#[derive(Clone, Debug)]
pub struct TissueMap {
    graph: Graph,
    dangles: Vec<EdgeId>,
    cuts: Cuts,
    /// What ring extraction replied.
    reply: [u16; RINGS_LENGTH],
}

impl TissueMap {
    /// Its rings, in the order of their lowest half-edges.
    pub fn rings(&self) -> Rings<'_> {
        Rings::new(&self.graph, self.reply)
    }

    /// Its compartments, in ring order: each enclosed ring without the islands in it.
    pub fn compartments(&self) -> impl Iterator<Item = Compartment<'_>> {
        self.rings().compartments()
    }

    /// The edges that lead nowhere, in the order found.
    pub fn dangles(&self) -> &[EdgeId] {
        &self.dangles
    }

    /// The edges that had the same maximal ring on both sides, and the counts before they were cut.
    pub fn cuts(&self) -> &Cuts {
        &self.cuts
    }

    /// The graph with its nodes and edges, in stage `Ringed`.
    pub fn graph(&self) -> &Graph {
        &self.graph
    }

    /// The graph, to be [`reset`](Graph::reset) and traced on.
    pub fn into_graph(self) -> Graph {
        self.graph
    }
}

/// The first segment of a tracing that was refused, and why.
///
/// It is written as the listing program has it, with the refusal's sentence behind:
///
/// ```
/// let short = tukmiheb::Graph::polygonize(&[54, 0, 0]).unwrap_err();
/// assert_eq!(short.to_string(), "refused 9 record 0: The file ends within a record.");
/// ```
#[derive(Clone, Copy, Debug, PartialEq, Eq)]
pub struct RefusedRecord {
    /// Its place among the records of the file or among the lines, from 0.
    pub record: usize,
    /// Why it was refused.
    pub refusal: Refusal,
}

impl Display for RefusedRecord {
    fn fmt(&self, out: &mut Formatter<'_>) -> fmt::Result {
        let (number, sentence) = (self.refusal.number(), self.refusal.sentence());
        write!(out, "refused {number} record {}: {sentence}", self.record)
    }
}

impl Error for RefusedRecord {
    fn source(&self) -> Option<&(dyn Error + 'static)> {
        Some(&self.refusal)
    }
}

impl From<RefusedRecord> for Refusal {
    fn from(refused: RefusedRecord) -> Self {
        refused.refusal
    }
}

impl Graph {
    /// The map of a segment file: all its records added to a new graph, and the four steps.
    ///
    /// ```
    /// # let waist = concat!(env!("CARGO_MANIFEST_DIR"), "/../samples/waist.seg");
    /// let bytes = std::fs::read(waist)?;
    /// let map = tukmiheb::Graph::polygonize(&bytes)?;
    /// let areas = map.compartments().map(|compartment| compartment.net_area());
    /// assert!(areas.eq([6325.0, 6325.0, 6325.0, 6325.0, 25950.0, 750.0]));
    /// # Ok::<(), Box<dyn std::error::Error>>(())
    /// ```
    ///
    /// # Errors
    ///
    /// The first record that is refused: by 9, 10 or 11 for its bytes, by 1 or 2 for its segment, by 3, 4
    /// or 12 where the tables are full. The steps refuse no tracing.
    pub fn polygonize(bytes: &[u8]) -> Result<TissueMap, RefusedRecord> {
        let mut graph = Graph::new();
        let records = graph.add_records(bytes);
        let records = records.expect("a new graph is sound and in stage `Building`");
        match records.stopped {
            None => Ok(graph.into_map()),
            Some(refusal) => Err(RefusedRecord {
                record: records.taken,
                refusal,
            }),
        }
    }

    /// The map of some lines: all added to a new graph, and the four steps. [`Graph::add_line`] tests the
    /// tables for each of them; a file of many segments is faster by [`Graph::polygonize`].
    ///
    /// ```
    /// use tukmiheb::{Coord3D, Graph, Line3D, RefusedRecord};
    ///
    /// let corners = [(0.0, 0.0), (4.0, 0.0), (0.0, 3.0)].map(|(x, y)| Coord3D::new(x, y, 0.0));
    /// let sides = [0, 1, 2].map(|k| Line3D::new(corners[k], corners[(k + 1) % 3], 1));
    /// let map = Graph::polygonize_lines(sides)?;
    /// for ring in map.rings() {
    ///     println!("face {}: {:?}", ring.face().0, ring.side());
    /// }
    /// # assert!(map.rings().into_iter().map(|ring| ring.area()).eq([6.0, -6.0]));
    /// # Ok::<(), RefusedRecord>(())
    /// ```
    ///
    /// # Errors
    ///
    /// The first line that is refused, by 1, 2, 3, 4 or 12. The steps refuse no tracing.
    pub fn polygonize_lines<L: Borrow<Line3D>>(
        lines: impl IntoIterator<Item = L>,
    ) -> Result<TissueMap, RefusedRecord> {
        let mut graph = Graph::new();
        for (record, line) in lines.into_iter().enumerate() {
            let added = graph.add_line(line.borrow());
            added.map_err(|refusal| RefusedRecord { record, refusal })?;
        }
        Ok(graph.into_map())
    }

    /// The four steps on a graph that is being built. They are proved to refuse none.
    fn into_map(mut self) -> TissueMap {
        const NO_TRACING_STOPS: &str = "no tracing stops the steps";
        self.sort_edges().expect(NO_TRACING_STOPS);
        let dangles = self.prune_dangles().expect(NO_TRACING_STOPS);
        let cuts = self.delete_cut_edges().expect(NO_TRACING_STOPS);
        let reply = self.list_rings().expect(NO_TRACING_STOPS);
        TissueMap {
            graph: self,
            dangles,
            cuts,
            reply,
        }
    }
}
