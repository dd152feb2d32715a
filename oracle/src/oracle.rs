//! The oracle: it answers a call by document 01's refusals, and else by the original's methods.

use crate::line_ids;
use crate::original::steps;
use crate::original::{Coord3D, DirectedEdge, Edge, Line3D, NodeKey, PlanarGraph};
use crate::rings::Extracted;
use crate::rules::{self, Named, Refusal};
use crate::stand_ins::{Coord, EdgeSources};
use crate::state::{Call, Lent, Lists, Reply, Side, State, Tables, HOLES};
use std::collections::BTreeSet;

/// The original's graph, and the state in the library's tables.
///
/// The graph is built by the original's own methods. Only where the state was written from outside
/// is it filled from the tables, at the next call that is not refused.
pub struct Oracle {
    graph: PlanarGraph,
    state: State,
    written: bool,
    named: Vec<Named>,
    line_ids: Vec<BTreeSet<u32>>,
}

impl Default for Oracle {
    fn default() -> Self {
        Oracle::over(State::default())
    }
}

impl Oracle {
    /// An oracle that starts from this state.
    pub fn over(state: State) -> Self {
        Oracle {
            graph: PlanarGraph::new(),
            state,
            written: true,
            named: Vec::new(),
            line_ids: Vec::new(),
        }
    }

    /// The star of each node as the original holds it. It has no table of all of them.
    pub fn stars(&self) -> &[Vec<usize>] {
        &self.graph.nodes_outgoing
    }

    /// The rings of the last extraction with the face numbers that the original gave them. The
    /// lists have document 01's, which differ only among rings of equal key and area.
    pub fn named(&self) -> &[Named] {
        &self.named
    }

    /// The ids that each edge must have: those of the accepted additions that made or found it. It
    /// knows of no places.
    pub fn line_ids(&self) -> &[BTreeSet<u32>] {
        &self.line_ids
    }

    /// Makes a call that no test of the state refuses.
    fn step(&mut self, call: &Call, lent: &Lent) -> Result<Reply, Refusal> {
        let lists = &mut self.state.lists;
        Ok(match *call {
            Call::Create => {
                self.graph = PlanarGraph::new();
                self.line_ids.clear();
                Reply::Created
            }
            Call::Add(line) => add(&mut self.graph, line),
            Call::Sort => {
                self.graph.sort_edges();
                Reply::Done
            }
            Call::Prune => {
                let dangles = steps::prune(&mut self.graph);
                Reply::Dangles(put_edges(&dangles, lists))
            }
            Call::Cut => {
                let (cuts, census) = steps::cut(&mut self.graph);
                Reply::Cuts(put_edges(&cuts, lists), census)
            }
            Call::Rings => self.extract_rings(lent)?,
            Call::Reset => {
                self.graph.reset_traversal_state();
                Reply::Done
            }
        })
    }

    /// Extracts the rings from a copy of the graph: how many are open, and so number 13, is known only
    /// behind it.
    fn extract_rings(&mut self, lent: &Lent) -> Result<Reply, Refusal> {
        let mut graph = self.graph.clone();
        let extracted = Extracted::of(&mut graph);
        rules::check_holes(extracted.holes.len(), lent.lists[HOLES])?;
        let reply = extracted.put(&mut self.state.lists);
        self.graph = graph;
        self.named = extracted.named;
        Ok(reply)
    }

    /// Puts an addition's id behind its edge: into the set, and where it is new there into the tables.
    /// Then the original's list has to be the same.
    fn put_line_id(&mut self, edge: usize, id: u32, old_edges: usize) {
        let tables = &mut self.state.tables;
        self.line_ids
            .resize_with(self.graph.edges.len(), BTreeSet::new);
        let behind = &mut self.line_ids[edge];
        if behind.insert(id) {
            line_ids::enter(edge, id, old_edges, tables);
        }
        let listed: Vec<u32> = line_ids::ids(edge, tables).collect();
        assert!(behind.iter().eq(&listed), "{behind:?} as {listed:?}");
        let original = &self.graph.edges[edge];
        assert_eq!(original.sources.line_ids, listed, "another list");
        assert_eq!(original.line.line_id, listed[0], "not the lowest id");
    }
}

impl Side for Oracle {
    fn state(&self) -> &State {
        &self.state
    }

    fn state_mut(&mut self) -> &mut State {
        self.written = true;
        &mut self.state
    }

    fn call(&mut self, call: &Call, lent: &Lent) -> Reply {
        if let Err(refusal) = rules::check(call, &self.state, lent) {
            return Reply::Refused(refusal.number());
        }
        let written = std::mem::take(&mut self.written);
        if written && !matches!(call, Call::Create) {
            self.graph = filled(&self.state);
            let listed = |edge: &Edge| edge.sources.line_ids.iter().copied().collect();
            self.line_ids = self.graph.edges.iter().map(listed).collect();
        }
        let old_edges = self.graph.edges.len();
        let reply = match self.step(call, lent) {
            Ok(reply) => reply,
            Err(refusal) => return Reply::Refused(refusal.number()),
        };
        store(&self.graph, &mut self.state);
        match call {
            Call::Create | Call::Reset => self.state.stage = 0,
            Call::Add(line) => {
                put_new_stars(old_edges, &mut self.state);
                if let Reply::Edge { edge, .. } = reply {
                    self.put_line_id(edge.into(), line.line_id, old_edges);
                }
            }
            Call::Sort => put_sorted_stars(&self.graph, &mut self.state),
            Call::Prune | Call::Cut | Call::Rings => self.state.stage += 1,
        }
        reply
    }
}

fn add(graph: &mut PlanarGraph, line: Line3D) -> Reply {
    let edges = graph.edges.len();
    let edge = graph.add_line(line);
    Reply::Edge {
        edge: edge as u16,
        new: edge == edges,
    }
}

fn put_edges(edges: &[usize], lists: &mut Lists) -> u16 {
    for (entry, &edge) in lists.edges.iter_mut().zip(edges) {
        *entry = edge as u16;
    }
    edges.len() as u16
}

/// The original's graph as the tables have it.
fn filled(state: &State) -> PlanarGraph {
    let (nodes, tables) = (usize::from(state.nodes), &state.tables);
    let halves = 2 * usize::from(state.edges);
    let mut graph = PlanarGraph::new();
    graph.nodes_x = tables.nodes_x[..nodes].to_vec();
    graph.nodes_y = tables.nodes_y[..nodes].to_vec();
    graph.nodes_z = tables.nodes_z[..nodes].to_vec();
    graph.nodes_degree = tables.nodes_degree[..nodes]
        .iter()
        .map(|&n| n.into())
        .collect();
    graph.nodes_marked = tables.nodes_marked[..nodes].to_vec();
    let wide = |star: Vec<u16>| star.into_iter().map(usize::from).collect();
    graph.nodes_outgoing = state.stars().into_iter().map(wide).collect();
    graph.directed_edges = (0..halves).map(|half| filled_half(half, tables)).collect();
    graph.edges = (0..halves / 2)
        .map(|edge| filled_edge(edge, tables))
        .collect();
    for node in 0..nodes {
        let key = NodeKey::from(Coord {
            x: graph.nodes_x[node],
            y: graph.nodes_y[node],
        });
        // A search takes the lowest node.
        graph.node_map.entry(key).or_insert(node);
    }
    graph
}

fn filled_half(half: usize, tables: &Tables) -> DirectedEdge {
    DirectedEdge {
        src: tables.dir_edges_src[half].into(),
        dst: tables.dir_edges_dst[half].into(),
        edge_idx: half / 2,
        sym_idx: half ^ 1,
        next_idx: None,
        face_id: None,
        is_visited: false,
        is_marked: tables.dir_edges_marked[half],
    }
}

fn filled_edge(edge: usize, tables: &Tables) -> Edge {
    let line_id = tables.edges_line_id[edge];
    let at = |place: usize| tables.edges_line[6 * edge + place];
    Edge {
        line: Line3D {
            start: Coord3D::new(at(0), at(1), at(2)),
            end: Coord3D::new(at(3), at(4), at(5)),
            line_id,
        },
        sources: EdgeSources {
            line_ids: line_ids::ids(edge, tables).collect(),
        },
        dir_edges: [2 * edge, 2 * edge + 1],
        is_marked: false,
        deleted: false,
    }
}

/// Writes the graph into the tables, all but the stars and the lists of line ids. Entries past its own
/// keep their contents.
fn store(graph: &PlanarGraph, state: &mut State) {
    let tables = &mut state.tables;
    state.nodes = graph.nodes_x.len() as u16;
    state.edges = graph.edges.len() as u16;
    let nodes = graph.nodes_x.len();
    tables.nodes_x[..nodes].copy_from_slice(&graph.nodes_x);
    tables.nodes_y[..nodes].copy_from_slice(&graph.nodes_y);
    tables.nodes_z[..nodes].copy_from_slice(&graph.nodes_z);
    tables.nodes_marked[..nodes].copy_from_slice(&graph.nodes_marked);
    for (entry, &degree) in tables.nodes_degree.iter_mut().zip(&graph.nodes_degree) {
        *entry = degree as u16;
    }
    for (number, edge) in graph.edges.iter().enumerate() {
        let (start, end) = (edge.line.start, edge.line.end);
        let line = [start.x, start.y, start.z, end.x, end.y, end.z];
        tables.edges_line[6 * number..6 * number + 6].copy_from_slice(&line);
        tables.edges_line_id[number] = edge.line.line_id;
    }
    for (number, half) in graph.directed_edges.iter().enumerate() {
        tables.dir_edges_src[number] = half.src as u16;
        tables.dir_edges_dst[number] = half.dst as u16;
        tables.dir_edges_marked[number] = half.is_marked;
    }
}

/// The library's star table grows at its end.
fn put_new_stars(old_edges: usize, state: &mut State) {
    for half in 2 * old_edges..2 * usize::from(state.edges) {
        state.tables.nodes_outgoing[half] = half as u16;
    }
}

/// Sorted, it is the stars by node.
fn put_sorted_stars(graph: &PlanarGraph, state: &mut State) {
    let halves = graph.nodes_outgoing.iter().flatten();
    for (entry, &half) in state.tables.nodes_outgoing.iter_mut().zip(halves) {
        *entry = half as u16;
    }
    state.stage = 1;
}
