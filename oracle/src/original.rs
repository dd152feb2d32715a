// Copyright (c) 2024 Graydon Pleasants
// Licensed under the MIT licence or the Apache License, Version 2.0, at your choice.
// Both texts stand in NOTICE at the root of the repository.
//
// From graydonpleasants/geo-polygonize, commit 9d6ac79d8f, crates/geo-polygonize-core/src:
// types.rs, utils/mod.rs and graph/planar_graph.rs. Every function below is the original's text,
// unchanged. Only the imports are other ones, and what the library has no counterpart of is left
// out: bulk loading, partitions, tracing and payload checks. NOTICE lists the functions.

//! The original methods, carried over. They are the reference of the comparison.
//!
//! The `execution_policy` of every method is `None` here: the path without a policy is compared.

// Fields and methods that only the left-out parts read stay as they stand in the original.
#![allow(dead_code)]

use crate::stand_ins::{orient2d, Coord, EdgeSources, ExecutionPolicy, LocalFaceRef, RobustCoord};
use std::cmp::Ordering;
use std::collections::HashMap;

pub mod steps;

// ---- types.rs
// `Coord3D` has lost `serde::Serialize` from its derived traits: serde is a foreign crate.

#[derive(Clone, Copy, Debug, PartialEq)]
pub struct Coord3D {
    pub x: f64,
    pub y: f64,
    pub z: f64,
}

impl Coord3D {
    pub fn new(x: f64, y: f64, z: f64) -> Self {
        Self { x, y, z }
    }

    pub fn to_coord_2d(self) -> Coord<f64> {
        Coord {
            x: self.x,
            y: self.y,
        }
    }
}

#[derive(Clone, Copy, Debug)]
pub struct Line3D {
    pub start: Coord3D,
    pub end: Coord3D,
    pub line_id: u32,
}

// ---- utils/mod.rs

#[inline]
pub(crate) fn canonical_coordinate_bits(value: f64) -> u64 {
    if value == 0.0 {
        0
    } else {
        value.to_bits()
    }
}

pub(crate) fn minimum_rotation_index<T: Ord>(ring: &[T]) -> usize {
    let n = ring.len();
    if n < 2 {
        return 0;
    }
    let (mut left, mut right, mut offset) = (0, 1, 0);
    while left < n && right < n && offset < n {
        match ring[(left + offset) % n].cmp(&ring[(right + offset) % n]) {
            Ordering::Equal => offset += 1,
            Ordering::Less => {
                right += offset + 1;
                if right == left {
                    right += 1;
                }
                offset = 0;
            }
            Ordering::Greater => {
                left += offset + 1;
                if left == right {
                    left += 1;
                }
                offset = 0;
            }
        }
    }
    left.min(right)
}

/// Robust comparator for angular sorting of edges around a center point.
/// Replaces the need for `pseudo_angle`.
///
/// Sorts vectors `u` and `v` starting at `center` in counter-clockwise order
/// starting from the positive X-axis.
///
/// Returns `Ordering` such that a < b if a comes before b in CCW order.
pub fn compare_angular(center: Coord<f64>, target_a: Coord<f64>, target_b: Coord<f64>) -> Ordering {
    if target_a == target_b {
        return Ordering::Equal;
    }

    // Determine quadrants
    // 0: [0, 90)   (x>0, y>=0)
    // 1: [90, 180) (x<=0, y>0)
    // 2: [180, 270) (x<0, y<=0)
    // 3: [270, 360) (x>=0, y<0)
    let quad_a = quadrant(center, target_a);
    let quad_b = quadrant(center, target_b);

    if quad_a != quad_b {
        return quad_a.cmp(&quad_b);
    }

    // Same quadrant: use robust orientation check
    // If orient2d(center, a, b) > 0, then b is Left of a (CCW).
    // So a < b.
    let c = RobustCoord {
        x: center.x,
        y: center.y,
    };
    let a = RobustCoord {
        x: target_a.x,
        y: target_a.y,
    };
    let b = RobustCoord {
        x: target_b.x,
        y: target_b.y,
    };

    let orient = orient2d(c, a, b);

    if orient > 0.0 {
        Ordering::Less // a is before b (b is CCW of a)
    } else if orient < 0.0 {
        Ordering::Greater // b is before a (a is CCW of b)
    } else {
        // Collinear rays
        // Sort by distance (shorter first? longer first?)
        // For simple polygonization, dedup usually handles this.
        // Let's pick: Farthest first?
        let dx_a = target_a.x - center.x;
        let dy_a = target_a.y - center.y;
        let dist_a = dx_a * dx_a + dy_a * dy_a;

        let dx_b = target_b.x - center.x;
        let dy_b = target_b.y - center.y;
        let dist_b = dx_b * dx_b + dy_b * dy_b;

        dist_a.partial_cmp(&dist_b).unwrap_or(Ordering::Equal)
    }
}

fn quadrant(c: Coord<f64>, t: Coord<f64>) -> u8 {
    let dx = t.x - c.x;
    let dy = t.y - c.y;

    if dx > 0.0 && dy >= 0.0 {
        0
    } else if dx <= 0.0 && dy > 0.0 {
        1
    } else if dx < 0.0 && dy <= 0.0 {
        2
    } else {
        3
    }
}

// ---- graph/planar_graph.rs

/// Index of a node in the graph.
pub type NodeId = usize;
/// Index of an undirected edge in the graph.
pub type EdgeId = usize;
/// Index of a directed half-edge in the graph.
pub type DirEdgeId = usize;
/// Deterministic identity of a directed-edge face cycle.
pub type FaceId = usize;

#[derive(Clone)]
pub(crate) struct ExtractedRing {
    pub coords: Vec<Coord3D>,
    pub line_ids: Vec<u32>,
    pub source_line_ids: Vec<u32>,
    /// Component-local deterministic face identity for final ring extraction.
    /// Maximal trace rings are captured before face identities are assigned.
    #[cfg(any(test, debug_assertions))]
    pub face_id: Option<FaceId>,
    /// Qualified identity once the component-local result is merged.
    pub(crate) face_ref: Option<LocalFaceRef>,
    pub edge_keys: Vec<(NodeId, NodeId)>,
    pub node_ids: Vec<NodeId>,
}

/// An undirected edge in the planar graph.
#[derive(Clone, Debug)]
pub(crate) struct Edge {
    /// The geometry of the edge.
    /// In JTS this might be a full LineString, but for the graph we mainly care about connectivity.
    /// We store Line to reduce heap allocations compared to LineString.
    pub(crate) line: Line3D,
    /// All input lines that contribute to this geometric edge.
    pub(crate) sources: EdgeSources,
    /// Indices of the two directed edges associated with this undirected edge.
    pub(crate) dir_edges: [DirEdgeId; 2],
    /// Flag indicating if the edge is marked (e.g. visited or pruned).
    pub(crate) is_marked: bool,
    /// Flag indicating if the edge has been dynamically deleted.
    pub(crate) deleted: bool,
}

/// A directed half-edge in the planar graph.
#[derive(Clone, Debug)]
pub(crate) struct DirectedEdge {
    /// Source node index.
    pub(crate) src: NodeId,
    /// Destination node index.
    pub(crate) dst: NodeId,
    /// Reference to the parent geometry (undirected edge).
    pub(crate) edge_idx: EdgeId,
    /// Index of the symmetric (reverse) edge.
    pub(crate) sym_idx: DirEdgeId,
    /// Directed edge reached by the arrangement's clockwise face walk.
    pub(crate) next_idx: Option<DirEdgeId>,
    /// Deterministic identity of the current face cycle, when assigned.
    pub(crate) face_id: Option<FaceId>,
    /// Traversal state: has this edge been processed into a ring?
    pub(crate) is_visited: bool,
    /// Is this edge explicitly marked (e.g. as part of a dangle).
    pub(crate) is_marked: bool,
}

/// A Planar Graph implementation using an arena-based index approach.
///
/// This structure represents the topological graph of the line segments.
/// Instead of pointer-based structures, it uses `Vec` arenas for Nodes, Edges, and DirectedEdges,
/// referencing them via integer indices (`NodeId`, `EdgeId`, `DirEdgeId`).
/// This layout is cache-friendly and plays well with Rust's ownership model.
#[derive(Clone)]
pub struct PlanarGraph {
    /// Node coordinates (X). Index is `NodeId`.
    pub(crate) nodes_x: Vec<f64>,
    /// Node coordinates (Y). Index is `NodeId`.
    pub(crate) nodes_y: Vec<f64>,
    /// Node coordinates (Z). Index is `NodeId`.
    pub(crate) nodes_z: Vec<f64>,
    /// Node adjacency lists. Index is `NodeId`.
    /// Stores the list of outgoing `DirEdgeId`s for each node.
    pub(crate) nodes_outgoing: Vec<Vec<DirEdgeId>>,
    /// Node connectivity degrees. Index is `NodeId`.
    pub(crate) nodes_degree: Vec<usize>,
    /// Node marked flags. Index is `NodeId`.
    pub(crate) nodes_marked: Vec<bool>,

    /// All undirected edges (geometry owners). Index is `EdgeId`.
    pub(crate) edges: Vec<Edge>,
    /// All directed half-edges. Index is `DirEdgeId`.
    pub(crate) directed_edges: Vec<DirectedEdge>,
    /// Lookup map to dedup nodes during construction.
    /// OPTIMIZATION: Used only for incremental additions. Bulk load bypasses this.
    pub(crate) node_map: HashMap<NodeKey, NodeId>,
    /// Number of deterministic face-cycle identities currently assigned.
    pub(crate) face_count: usize,
    /// Component-local outer face-cycle identities.
    pub(crate) unbounded_face_ids: Vec<FaceId>,
}

struct FaceCycleCandidate {
    key: Vec<[u64; 2]>,
    directed_edges: Vec<DirEdgeId>,
    signed_area: f64,
}

// Wrapper for Coord to be Hashable (since f64 is not Hash)
#[derive(PartialEq, Eq, Hash, Ord, PartialOrd, Clone, Copy)]
pub(crate) struct NodeKey(u64, u64);

impl From<Coord<f64>> for NodeKey {
    fn from(c: Coord<f64>) -> Self {
        NodeKey(
            canonical_coordinate_bits(c.x),
            canonical_coordinate_bits(c.y),
        )
    }
}

impl Default for PlanarGraph {
    fn default() -> Self {
        Self::new()
    }
}

impl PlanarGraph {
    /// Creates a new, empty PlanarGraph.
    pub fn new() -> Self {
        Self {
            nodes_x: Vec::new(),
            nodes_y: Vec::new(),
            nodes_z: Vec::new(),
            nodes_outgoing: Vec::new(),
            nodes_degree: Vec::new(),
            nodes_marked: Vec::new(),
            edges: Vec::new(),
            directed_edges: Vec::new(),
            node_map: HashMap::new(),
            face_count: 0,
            unbounded_face_ids: Vec::new(),
        }
    }

    fn clear_next_links(&mut self) {
        for directed_edge in &mut self.directed_edges {
            directed_edge.next_idx = None;
        }
        self.clear_face_ids();
    }

    fn clear_face_ids(&mut self) {
        self.face_count = 0;
        self.unbounded_face_ids.clear();
        for directed_edge in &mut self.directed_edges {
            directed_edge.face_id = None;
        }
    }

    /// Adds a node at the given coordinate, returning its NodeId.
    /// Deduplicates nodes using a HashMap lookup (2D only).
    pub fn add_node(&mut self, coord: Coord3D) -> NodeId {
        let key = NodeKey::from(coord.to_coord_2d());
        if let Some(&id) = self.node_map.get(&key) {
            return id;
        }

        let id = self.nodes_x.len();
        self.nodes_x.push(coord.x);
        self.nodes_y.push(coord.y);
        self.nodes_z.push(coord.z);
        self.nodes_outgoing.push(Vec::new());
        self.nodes_degree.push(0);
        self.nodes_marked.push(false);
        self.node_map.insert(key, id);
        id
    }

    /// Adds a line to the graph and returns the new EdgeId.
    pub fn add_line(&mut self, line: Line3D) -> EdgeId {
        let p0 = line.start;
        let p1 = line.end;

        let u = self.add_node(p0);
        let v = self.add_node(p1);

        if let Some(edge_idx) = self.nodes_outgoing[u]
            .iter()
            .find_map(|&directed_edge_idx| {
                let directed_edge = &self.directed_edges[directed_edge_idx];
                (directed_edge.dst == v && !self.edges[directed_edge.edge_idx].deleted)
                    .then_some(directed_edge.edge_idx)
            })
        {
            let edge = &mut self.edges[edge_idx];
            edge.sources.merge_line_id(line.line_id);
            edge.line.line_id = edge.sources.line_ids[0];
            return edge_idx;
        }

        let edge_idx = self.edges.len();
        let de_u_v_idx = self.directed_edges.len();
        let de_v_u_idx = self.directed_edges.len() + 1;

        let de_u_v = DirectedEdge {
            src: u,
            dst: v,
            edge_idx,
            sym_idx: de_v_u_idx,
            next_idx: None,
            face_id: None,
            is_visited: false,
            is_marked: false,
        };

        let de_v_u = DirectedEdge {
            src: v,
            dst: u,
            edge_idx,
            sym_idx: de_u_v_idx,
            next_idx: None,
            face_id: None,
            is_visited: false,
            is_marked: false,
        };

        self.directed_edges.push(de_u_v);
        self.directed_edges.push(de_v_u);

        self.edges.push(Edge {
            line,
            sources: EdgeSources::from_line_id(line.line_id),
            dir_edges: [de_u_v_idx, de_v_u_idx],
            is_marked: false,
            deleted: false,
        });

        self.nodes_outgoing[u].push(de_u_v_idx);
        self.nodes_degree[u] += 1;

        self.nodes_outgoing[v].push(de_v_u_idx);
        self.nodes_degree[v] += 1;

        edge_idx
    }

    /// Resets all traversal and marked flags so a new polygonization pass can run.
    pub fn reset_traversal_state(&mut self) {
        // Recalculate degrees based only on non-deleted edges
        self.nodes_degree.fill(0);
        for (i, outgoing) in self.nodes_outgoing.iter().enumerate() {
            for &de_idx in outgoing {
                let de = &self.directed_edges[de_idx];
                if !self.edges[de.edge_idx].deleted {
                    self.nodes_degree[i] += 1;
                }
            }
        }

        self.nodes_marked.fill(false);
        self.clear_next_links();
        for de in &mut self.directed_edges {
            de.is_visited = false;
            de.is_marked = false;
        }
        for edge in &mut self.edges {
            edge.is_marked = false;
        }
    }

    /// Sorts all outgoing edges of all nodes by angle.
    pub fn sort_edges(&mut self) {
        self.clear_next_links();
        let nodes_x = &self.nodes_x;
        let nodes_y = &self.nodes_y;
        let directed_edges = &self.directed_edges;

        // Use a robust angular comparator.
        // This requires accessing coordinates of src and dst nodes.
        #[cfg(feature = "parallel")]
        self.nodes_outgoing
            .par_iter_mut()
            .zip(self.nodes_degree.par_iter_mut())
            .enumerate()
            .for_each(|(src_idx, (adj, degree))| {
                // Filter out deleted edges before sorting
                adj.retain(|&idx| !self.edges[self.directed_edges[idx].edge_idx].deleted);
                *degree = adj.len();

                let center = Coord {
                    x: nodes_x[src_idx],
                    y: nodes_y[src_idx],
                };
                adj.sort_by(|&a_idx, &b_idx| {
                    let a_de = &directed_edges[a_idx];
                    let b_de = &directed_edges[b_idx];

                    // Get destination coordinates
                    let dst_a_idx = a_de.dst;
                    let dst_b_idx = b_de.dst;

                    let target_a = Coord {
                        x: nodes_x[dst_a_idx],
                        y: nodes_y[dst_a_idx],
                    };
                    let target_b = Coord {
                        x: nodes_x[dst_b_idx],
                        y: nodes_y[dst_b_idx],
                    };

                    compare_angular(center, target_a, target_b)
                });
            });

        #[cfg(not(feature = "parallel"))]
        self.nodes_outgoing
            .iter_mut()
            .zip(self.nodes_degree.iter_mut())
            .enumerate()
            .for_each(|(src_idx, (adj, degree))| {
                // Filter out deleted edges before sorting
                adj.retain(|&idx| !self.edges[self.directed_edges[idx].edge_idx].deleted);
                *degree = adj.len();

                let center = Coord {
                    x: nodes_x[src_idx],
                    y: nodes_y[src_idx],
                };
                adj.sort_by(|&a_idx, &b_idx| {
                    let a_de = &directed_edges[a_idx];
                    let b_de = &directed_edges[b_idx];

                    let dst_a_idx = a_de.dst;
                    let dst_b_idx = b_de.dst;

                    let target_a = Coord {
                        x: nodes_x[dst_a_idx],
                        y: nodes_y[dst_a_idx],
                    };
                    let target_b = Coord {
                        x: nodes_x[dst_b_idx],
                        y: nodes_y[dst_b_idx],
                    };

                    compare_angular(center, target_a, target_b)
                });
            });

        #[cfg(any(test, debug_assertions))]
        self.validate_arrangement_edge_invariants()
            .expect("post-sort arrangement edge invariants");
    }

    /// Validates the post-sort, pre-pruning arrangement representation.
    ///
    /// Normal pipelines call this in tests/debug builds. The opt-in partition
    /// arrangement witness also uses it in release builds before accepting
    /// physical face-cycle evidence.
    pub(crate) fn validate_arrangement_edge_invariants(&self) -> crate::Result<()> {
        let invariant = |reason| crate::PolygonizeError::InternalInvariantViolation { reason };
        let node_count = self.nodes_x.len();
        for (name, actual) in [
            ("nodes_y", self.nodes_y.len()),
            ("nodes_z", self.nodes_z.len()),
            ("nodes_outgoing", self.nodes_outgoing.len()),
            ("nodes_degree", self.nodes_degree.len()),
            ("nodes_marked", self.nodes_marked.len()),
        ] {
            if actual != node_count {
                return Err(invariant(format!(
                    "arrangement edge invariant node arena count mismatch: nodes_x={node_count}, {name}={actual}"
                )));
            }
        }

        let expected_directed = self.edges.len().checked_mul(2).ok_or_else(|| {
            invariant("arrangement edge invariant directed edge count overflow".to_string())
        })?;
        if self.directed_edges.len() != expected_directed {
            return Err(invariant(format!(
                "arrangement edge invariant directed edge count mismatch: edges={}, directed_edges={}, expected={expected_directed}",
                self.edges.len(),
                self.directed_edges.len()
            )));
        }

        let mut owners = vec![0usize; self.directed_edges.len()];
        for (edge_idx, edge) in self.edges.iter().enumerate() {
            let [forward_idx, reverse_idx] = edge.dir_edges;
            if forward_idx == reverse_idx {
                return Err(invariant(format!(
                    "arrangement edge invariant edge {edge_idx} has duplicate directed edge {forward_idx}"
                )));
            }
            for directed_idx in [forward_idx, reverse_idx] {
                let Some(directed) = self.directed_edges.get(directed_idx) else {
                    return Err(invariant(format!(
                        "arrangement edge invariant edge {edge_idx} references missing directed edge {directed_idx}"
                    )));
                };
                owners[directed_idx] += 1;
                if directed.edge_idx != edge_idx {
                    return Err(invariant(format!(
                        "arrangement edge invariant directed edge {directed_idx} parent mismatch: edge_idx={}, expected={edge_idx}",
                        directed.edge_idx
                    )));
                }
                if directed.src >= node_count || directed.dst >= node_count {
                    return Err(invariant(format!(
                        "arrangement edge invariant directed edge {directed_idx} endpoint out of bounds: src={}, dst={}, nodes={node_count}",
                        directed.src, directed.dst
                    )));
                }
            }

            let forward = &self.directed_edges[forward_idx];
            let reverse = &self.directed_edges[reverse_idx];
            if forward.sym_idx != reverse_idx || reverse.sym_idx != forward_idx {
                return Err(invariant(format!(
                    "arrangement edge invariant edge {edge_idx} twin involution mismatch: {forward_idx}.sym={}, {reverse_idx}.sym={}",
                    forward.sym_idx, reverse.sym_idx
                )));
            }
            if forward.src != reverse.dst || forward.dst != reverse.src {
                return Err(invariant(format!(
                    "arrangement edge invariant edge {edge_idx} twin endpoint mismatch: {forward_idx}=({}->{}), {reverse_idx}=({}->{})",
                    forward.src, forward.dst, reverse.src, reverse.dst
                )));
            }

            if !edge.deleted {
                let sources = edge.sources.line_ids.as_slice();
                if sources.is_empty() {
                    return Err(invariant(format!(
                        "arrangement edge invariant live edge {edge_idx} has no sources"
                    )));
                }
                if let Some(pair) = sources.windows(2).find(|pair| pair[0] >= pair[1]) {
                    return Err(invariant(format!(
                        "arrangement edge invariant live edge {edge_idx} sources are not strictly sorted: {} then {}",
                        pair[0], pair[1]
                    )));
                }
                if edge.line.line_id != sources[0] {
                    return Err(invariant(format!(
                        "arrangement edge invariant live edge {edge_idx} representative source mismatch: line_id={}, first_source={}",
                        edge.line.line_id, sources[0]
                    )));
                }
            }
        }

        for (directed_idx, owner_count) in owners.into_iter().enumerate() {
            if owner_count != 1 {
                return Err(invariant(format!(
                    "arrangement edge invariant directed edge {directed_idx} owner count mismatch: actual={owner_count}, expected=1"
                )));
            }
        }

        let mut adjacency_counts = vec![0usize; self.directed_edges.len()];
        for node_idx in 0..node_count {
            let outgoing = &self.nodes_outgoing[node_idx];
            if self.nodes_degree[node_idx] != outgoing.len() {
                return Err(invariant(format!(
                    "arrangement edge invariant node {node_idx} degree mismatch: degree={}, adjacency={}",
                    self.nodes_degree[node_idx],
                    outgoing.len()
                )));
            }

            for (position, &directed_idx) in outgoing.iter().enumerate() {
                let Some(directed) = self.directed_edges.get(directed_idx) else {
                    return Err(invariant(format!(
                        "arrangement edge invariant node {node_idx} adjacency[{position}] references missing directed edge {directed_idx}"
                    )));
                };
                if directed.src != node_idx {
                    return Err(invariant(format!(
                        "arrangement edge invariant node {node_idx} adjacency[{position}] source mismatch: directed edge {directed_idx} has src={}",
                        directed.src
                    )));
                }
                if self.edges[directed.edge_idx].deleted {
                    return Err(invariant(format!(
                        "arrangement edge invariant node {node_idx} adjacency[{position}] references deleted edge {} via directed edge {directed_idx}",
                        directed.edge_idx
                    )));
                }
                adjacency_counts[directed_idx] += 1;
            }

            let center = Coord {
                x: self.nodes_x[node_idx],
                y: self.nodes_y[node_idx],
            };
            for pair in outgoing.windows(2) {
                let first_idx = pair[0];
                let second_idx = pair[1];
                let first = &self.directed_edges[first_idx];
                let second = &self.directed_edges[second_idx];
                let ordering = compare_angular(
                    center,
                    Coord {
                        x: self.nodes_x[first.dst],
                        y: self.nodes_y[first.dst],
                    },
                    Coord {
                        x: self.nodes_x[second.dst],
                        y: self.nodes_y[second.dst],
                    },
                );
                if ordering != Ordering::Less {
                    return Err(invariant(format!(
                        "arrangement edge invariant node {node_idx} angular order is not strict between directed edges {first_idx} and {second_idx}: {ordering:?}"
                    )));
                }
            }
        }

        for (directed_idx, directed) in self.directed_edges.iter().enumerate() {
            let expected = usize::from(!self.edges[directed.edge_idx].deleted);
            if adjacency_counts[directed_idx] != expected {
                return Err(invariant(format!(
                    "arrangement edge invariant directed edge {directed_idx} adjacency count mismatch: actual={}, expected={expected}",
                    adjacency_counts[directed_idx]
                )));
            }
        }

        Ok(())
    }

    /// Prunes dangles (nodes with degree 1) from the graph iteratively.
    pub fn prune_dangles(&mut self) -> Vec<Vec<Coord3D>> {
        self.prune_dangles_impl(None)
            .expect("unlimited graph pruning cannot fail")
    }

    fn prune_dangles_impl(
        &mut self,
        execution_policy: Option<&ExecutionPolicy>,
    ) -> crate::Result<Vec<Vec<Coord3D>>> {
        let mut dangles = Vec::new();
        let mut to_process = Vec::new();
        for (node_idx, &degree) in self.nodes_degree.iter().enumerate() {
            if let Some(execution_policy) = execution_policy {
                execution_policy.check_cancelled_every("graph_construction", node_idx)?;
            }
            if degree == 1 && !self.nodes_marked[node_idx] {
                to_process.push(node_idx);
            }
        }

        let mut processed = 0;
        while let Some(node_idx) = to_process.pop() {
            processed += 1;
            if let Some(execution_policy) = execution_policy {
                execution_policy.check_cancelled_every("graph_construction", processed)?;
            }
            if self.nodes_degree[node_idx] != 1 {
                continue;
            }

            self.nodes_marked[node_idx] = true;
            self.nodes_degree[node_idx] = 0;

            let mut edge_found = false;
            let mut neighbor_idx = 0;

            let mut found_de_idx = None;
            for &de_idx in &self.nodes_outgoing[node_idx] {
                let de = &self.directed_edges[de_idx];
                if !de.is_marked && !self.edges[de.edge_idx].deleted {
                    found_de_idx = Some(de_idx);
                    break;
                }
            }

            if let Some(de_idx) = found_de_idx {
                self.directed_edges[de_idx].is_marked = true;
                let sym_idx = self.directed_edges[de_idx].sym_idx;
                self.directed_edges[sym_idx].is_marked = true;

                // Capture the geometry
                let edge_idx = self.directed_edges[de_idx].edge_idx;
                let line = self.edges[edge_idx].line;
                dangles.push(vec![line.start, line.end]);

                neighbor_idx = self.directed_edges[de_idx].dst;
                edge_found = true;
            }

            if edge_found && self.nodes_degree[neighbor_idx] > 0 {
                self.nodes_degree[neighbor_idx] -= 1;
                if self.nodes_degree[neighbor_idx] == 1 && !self.nodes_marked[neighbor_idx] {
                    to_process.push(neighbor_idx);
                }
            }
        }
        Ok(dangles)
    }

    /// Finds and removes edges whose two directions belong to the same maximal ring.
    pub fn delete_cut_edges(&mut self) -> Vec<Vec<Coord3D>> {
        self.delete_cut_edges_impl(None, false)
            .expect("unlimited cut-edge removal cannot fail")
    }

    fn delete_cut_edges_impl(
        &mut self,
        execution_policy: Option<&ExecutionPolicy>,
        _noding_postcondition_validated: bool,
    ) -> crate::Result<Vec<Vec<Coord3D>>> {
        if let Some(execution_policy) = execution_policy {
            execution_policy.check_cancelled("ring_extraction")?;
        }
        self.compute_next_cw_edges(execution_policy)?;

        #[cfg(any(test, debug_assertions))]
        if _noding_postcondition_validated {
            self.validate_arrangement_euler("maximal")?;
        } else {
            self.validate_arrangement_ring_cycles("maximal")?;
        }

        let mut labels = vec![-1_i64; self.directed_edges.len()];
        self.find_and_label_maximal_rings(&mut labels, execution_policy)?;

        let mut cuts = Vec::new();
        for (edge_idx, edge) in self.edges.iter().enumerate() {
            if let Some(execution_policy) = execution_policy {
                execution_policy.check_cancelled_every("ring_extraction", edge_idx)?;
            }
            let [forward, reverse] = edge.dir_edges;
            if edge.deleted
                || self.directed_edges[forward].is_marked
                || self.directed_edges[reverse].is_marked
                || labels[forward] != labels[reverse]
            {
                continue;
            }

            self.directed_edges[forward].is_marked = true;
            self.directed_edges[reverse].is_marked = true;
            cuts.push(vec![edge.line.start, edge.line.end]);
        }
        Ok(cuts)
    }

    fn materialize_ring(
        &self,
        ring_edges: &[DirEdgeId],
        include_graph_ids: bool,
        include_source_ids: bool,
        execution_policy: Option<&ExecutionPolicy>,
        work_items: &mut usize,
    ) -> crate::Result<ExtractedRing> {
        let mut coords = Vec::with_capacity(ring_edges.len() + 1);
        let mut ids = Vec::with_capacity(ring_edges.len());
        let mut source_ids = Vec::new();
        let mut edge_keys = if include_graph_ids {
            Vec::with_capacity(ring_edges.len())
        } else {
            Vec::new()
        };
        let mut node_ids = if include_graph_ids {
            Vec::with_capacity(ring_edges.len())
        } else {
            Vec::new()
        };
        let face_id = self.directed_edges[ring_edges[0]].face_id;
        let start_node_idx = self.directed_edges[ring_edges[0]].src;
        coords.push(Coord3D {
            x: self.nodes_x[start_node_idx],
            y: self.nodes_y[start_node_idx],
            z: self.nodes_z[start_node_idx],
        });

        for &de_idx in ring_edges {
            if let Some(execution_policy) = execution_policy {
                execution_policy.check_cancelled_every("ring_extraction", *work_items)?;
            }
            *work_items += 1;
            let de = &self.directed_edges[de_idx];
            let edge_idx = de.edge_idx;
            ids.push(self.edges[edge_idx].line.line_id);
            if include_source_ids {
                source_ids.extend_from_slice(&self.edges[edge_idx].sources.line_ids);
            }
            if include_graph_ids {
                edge_keys.push(if de.src < de.dst {
                    (de.src, de.dst)
                } else {
                    (de.dst, de.src)
                });
                node_ids.push(de.src);
            }

            coords.push(Coord3D {
                x: self.nodes_x[de.dst],
                y: self.nodes_y[de.dst],
                z: self.nodes_z[de.dst],
            });
        }

        source_ids.sort_unstable();
        source_ids.dedup();
        Ok(ExtractedRing {
            coords,
            line_ids: ids,
            source_line_ids: source_ids,
            #[cfg(any(test, debug_assertions))]
            face_id,
            face_ref: face_id.map(|face_id| LocalFaceRef {
                component_id: 0,
                face_id,
            }),
            edge_keys,
            node_ids,
        })
    }

    /// Step 1: computeNextCWEdges over every node.
    /// Edges in nodes_outgoing are in CCW order. For each pair of consecutive outgoing
    /// edges (prev, curr), set next(sym(prev)) = curr, and close the cycle.
    fn compute_next_cw_edges(
        &mut self,
        execution_policy: Option<&ExecutionPolicy>,
    ) -> crate::Result<()> {
        self.clear_next_links();
        let mut valid_edges = Vec::new();
        let mut work_items = 0;
        for outgoing in &self.nodes_outgoing {
            valid_edges.clear();
            for &idx in outgoing {
                if let Some(execution_policy) = execution_policy {
                    execution_policy.check_cancelled_every("ring_extraction", work_items)?;
                }
                work_items += 1;
                let de = &self.directed_edges[idx];
                if !de.is_marked && !self.edges[de.edge_idx].deleted {
                    valid_edges.push(idx);
                }
            }

            if valid_edges.is_empty() {
                continue;
            }

            let mut next = *valid_edges.last().unwrap();
            for &curr in &valid_edges {
                self.directed_edges[curr].next_idx = Some(next);
                next = curr;
            }
        }
        Ok(())
    }

    fn assign_deterministic_face_ids(
        &mut self,
        execution_policy: Option<&ExecutionPolicy>,
    ) -> crate::Result<()> {
        self.clear_face_ids();
        let invariant = |reason| crate::PolygonizeError::InternalInvariantViolation { reason };
        let is_active = |directed_idx: DirEdgeId| {
            self.directed_edges
                .get(directed_idx)
                .and_then(|directed| {
                    self.edges
                        .get(directed.edge_idx)
                        .map(|edge| (directed, edge))
                })
                .is_some_and(|(directed, edge)| !directed.is_marked && !edge.deleted)
        };

        let mut assigned = vec![false; self.directed_edges.len()];
        let mut candidates = Vec::new();
        let mut work_items = 0;
        for start in 0..self.directed_edges.len() {
            if let Some(execution_policy) = execution_policy {
                execution_policy.check_cancelled_every("ring_extraction", work_items)?;
            }
            work_items += 1;
            if !is_active(start) || assigned[start] {
                continue;
            }

            let mut cycle = Vec::new();
            let mut current = start;
            loop {
                if let Some(execution_policy) = execution_policy {
                    execution_policy.check_cancelled_every("ring_extraction", work_items)?;
                }
                work_items += 1;
                if !is_active(current) {
                    return Err(invariant(format!(
                        "face identity cycle {start} reached inactive directed edge {current}"
                    )));
                }
                if assigned[current] {
                    if current == start {
                        break;
                    }
                    return Err(invariant(format!(
                        "face identity cycle {start} reuses directed edge {current}"
                    )));
                }

                assigned[current] = true;
                cycle.push(current);
                let twin = self.directed_edges[current].sym_idx;
                let Some(next) = self
                    .directed_edges
                    .get(twin)
                    .and_then(|directed| directed.next_idx)
                else {
                    return Err(invariant(format!(
                        "face identity directed edge {current} has no successor at twin link {twin}"
                    )));
                };
                if next == start {
                    break;
                }
                current = next;
                if cycle.len() > self.directed_edges.len() {
                    return Err(invariant(format!(
                        "face identity cycle {start} exceeds directed edge count"
                    )));
                }
            }

            candidates.push(FaceCycleCandidate {
                key: self.face_cycle_key(&cycle),
                signed_area: self.face_cycle_signed_area(&cycle),
                directed_edges: cycle,
            });
        }

        if let Some(execution_policy) = execution_policy {
            execution_policy.check_uncancellable_sort("face_cycle_sort", candidates.len())?;
        }
        candidates.sort_unstable_by(|left, right| {
            left.key
                .cmp(&right.key)
                .then_with(|| left.signed_area.total_cmp(&right.signed_area))
        });

        self.face_count = candidates.len();
        for (face_id, candidate) in candidates.iter().enumerate() {
            if candidate.signed_area < 0.0 {
                self.unbounded_face_ids.push(face_id);
            }
            for &directed_idx in &candidate.directed_edges {
                if let Some(execution_policy) = execution_policy {
                    execution_policy.check_cancelled_every("ring_extraction", work_items)?;
                }
                work_items += 1;
                self.directed_edges[directed_idx].face_id = Some(face_id);
            }
        }
        Ok(())
    }

    fn face_cycle_key(&self, cycle: &[DirEdgeId]) -> Vec<[u64; 2]> {
        let mut key: Vec<_> = cycle
            .iter()
            .map(|&directed_idx| {
                let node = self.directed_edges[directed_idx].src;
                [
                    canonical_coordinate_bits(self.nodes_x[node]),
                    canonical_coordinate_bits(self.nodes_y[node]),
                ]
            })
            .collect();
        let start = minimum_rotation_index(&key);
        key.rotate_left(start);
        key
    }

    fn face_cycle_signed_area(&self, cycle: &[DirEdgeId]) -> f64 {
        cycle.iter().fold(0.0, |area, &directed_idx| {
            let directed = &self.directed_edges[directed_idx];
            area + self.nodes_x[directed.src] * self.nodes_y[directed.dst]
                - self.nodes_x[directed.dst] * self.nodes_y[directed.src]
        }) * 0.5
    }

    /// Validates that active half-edges form disjoint closed cycles through
    /// the current persisted `next_idx` links.
    pub(crate) fn validate_arrangement_ring_cycles(&self, phase: &str) -> crate::Result<usize> {
        let invariant = |reason| crate::PolygonizeError::InternalInvariantViolation { reason };

        let is_active = |directed_idx: DirEdgeId| {
            let directed = &self.directed_edges[directed_idx];
            !directed.is_marked && !self.edges[directed.edge_idx].deleted
        };

        for (directed_idx, directed) in self.directed_edges.iter().enumerate() {
            if !is_active(directed_idx) {
                continue;
            }
            let Some(successor_idx) = self.directed_edges[directed.sym_idx].next_idx else {
                return Err(invariant(format!(
                    "arrangement {phase} ring invariant directed edge {directed_idx} has no successor at twin link {}",
                    directed.sym_idx
                )));
            };
            let Some(successor) = self.directed_edges.get(successor_idx) else {
                return Err(invariant(format!(
                    "arrangement {phase} ring invariant directed edge {directed_idx} successor {successor_idx} is out of bounds"
                )));
            };
            if !is_active(successor_idx) {
                return Err(invariant(format!(
                    "arrangement {phase} ring invariant directed edge {directed_idx} successor {successor_idx} is inactive"
                )));
            }
            if directed.dst != successor.src {
                return Err(invariant(format!(
                    "arrangement {phase} ring invariant continuity mismatch: directed edge {directed_idx} ends at {}, successor {successor_idx} starts at {}",
                    directed.dst, successor.src
                )));
            }
        }

        let mut assigned_cycle = vec![None; self.directed_edges.len()];
        let mut cycle_count = 0;
        for start_idx in 0..self.directed_edges.len() {
            if !is_active(start_idx) || assigned_cycle[start_idx].is_some() {
                continue;
            }
            cycle_count += 1;

            let mut current_idx = start_idx;
            loop {
                if let Some(first_start) = assigned_cycle[current_idx] {
                    if current_idx == start_idx && first_start == start_idx {
                        break;
                    }
                    return Err(invariant(format!(
                        "arrangement {phase} ring invariant cycle {start_idx} reuses directed edge {current_idx} assigned to cycle {first_start} before closure"
                    )));
                }
                assigned_cycle[current_idx] = Some(start_idx);
                let twin_idx = self.directed_edges[current_idx].sym_idx;
                let Some(next_idx) = self.directed_edges[twin_idx].next_idx else {
                    return Err(invariant(format!(
                        "arrangement {phase} ring invariant directed edge {current_idx} has no successor at twin link {twin_idx}"
                    )));
                };
                current_idx = next_idx;
            }
        }

        for (directed_idx, assignment) in assigned_cycle.into_iter().enumerate() {
            if is_active(directed_idx) && assignment.is_none() {
                return Err(invariant(format!(
                    "arrangement {phase} ring invariant directed edge {directed_idx} is unassigned"
                )));
            }
        }

        Ok(cycle_count)
    }

    /// Assigns stable component IDs to nodes incident to active edges.
    pub(crate) fn active_component_ids(&self) -> Vec<Option<usize>> {
        self.active_component_ids_with_execution_policy(None)
            .expect("unlimited component identification cannot fail")
    }

    fn active_component_ids_with_execution_policy(
        &self,
        execution_policy: Option<&ExecutionPolicy>,
    ) -> crate::Result<Vec<Option<usize>>> {
        let is_active = |directed_idx: DirEdgeId| {
            let directed = &self.directed_edges[directed_idx];
            !directed.is_marked && !self.edges[directed.edge_idx].deleted
        };
        let mut work_items = 0;
        let mut seeds = Vec::new();
        for node in 0..self.nodes_x.len() {
            if let Some(execution_policy) = execution_policy {
                execution_policy.check_cancelled_every("graph_components", work_items)?;
            }
            work_items += 1;
            if self.nodes_outgoing[node]
                .iter()
                .any(|&directed| is_active(directed))
            {
                seeds.push(node);
            }
        }
        if let Some(execution_policy) = execution_policy {
            execution_policy.check_uncancellable_sort("graph_component_seed_sort", seeds.len())?;
        }
        seeds.sort_unstable_by(|&a, &b| {
            self.nodes_x[a]
                .total_cmp(&self.nodes_x[b])
                .then_with(|| self.nodes_y[a].total_cmp(&self.nodes_y[b]))
                .then(a.cmp(&b))
        });

        let mut component_ids = vec![None; self.nodes_x.len()];
        let mut stack = Vec::new();
        let mut next_component_id = 0;
        for seed in seeds {
            if let Some(execution_policy) = execution_policy {
                execution_policy.check_cancelled_every("graph_components", work_items)?;
            }
            work_items += 1;
            if component_ids[seed].is_some() {
                continue;
            }
            let component_id = next_component_id;
            next_component_id += 1;
            component_ids[seed] = Some(component_id);
            stack.push(seed);
            while let Some(node) = stack.pop() {
                for &directed_idx in &self.nodes_outgoing[node] {
                    if let Some(execution_policy) = execution_policy {
                        execution_policy.check_cancelled_every("graph_components", work_items)?;
                    }
                    work_items += 1;
                    if !is_active(directed_idx) {
                        continue;
                    }
                    let neighbor = self.directed_edges[directed_idx].dst;
                    if component_ids[neighbor].is_none() {
                        component_ids[neighbor] = Some(component_id);
                        stack.push(neighbor);
                    }
                }
            }
        }
        Ok(component_ids)
    }

    /// Validates Euler's planar relation for the active maximal-ring graph.
    pub(crate) fn validate_arrangement_euler(&self, phase: &str) -> crate::Result<()> {
        let invariant = |reason| crate::PolygonizeError::InternalInvariantViolation { reason };
        let boundary_cycles = self.validate_arrangement_ring_cycles(phase)?;
        let component_ids = self.active_component_ids();
        let mut edge_count = 0usize;

        for edge in &self.edges {
            let [forward_idx, reverse_idx] = edge.dir_edges;
            if edge.deleted
                || self.directed_edges[forward_idx].is_marked
                || self.directed_edges[reverse_idx].is_marked
            {
                continue;
            }
            edge_count += 1;
        }

        let vertex_count = component_ids.iter().flatten().count();
        let component_count = component_ids
            .iter()
            .flatten()
            .max()
            .map_or(0, |component| component + 1);
        let face_count = boundary_cycles
            .checked_sub(component_count)
            .and_then(|count| count.checked_add(1))
            .ok_or_else(|| {
                invariant(format!(
                    "arrangement {phase} Euler invariant invalid boundary count: cycles={boundary_cycles}, components={component_count}"
                ))
            })?;
        let lhs = vertex_count as i128 - edge_count as i128 + face_count as i128;
        let rhs = component_count as i128 + 1;
        if lhs != rhs {
            return Err(invariant(format!(
                "arrangement {phase} Euler invariant mismatch: vertices={vertex_count}, edges={edge_count}, faces={face_count}, components={component_count}, boundary_cycles={boundary_cycles}, lhs={lhs}, rhs={rhs}"
            )));
        }
        Ok(())
    }

    /// Step 2: find and label maximal rings.
    fn find_and_label_maximal_rings(
        &self,
        labels: &mut [i64],
        execution_policy: Option<&ExecutionPolicy>,
    ) -> crate::Result<Vec<DirEdgeId>> {
        let mut maximal_ring_starts = Vec::new();
        let mut curr_label = 1_i64;
        let mut work_items = 0;
        for start_de_idx in 0..self.directed_edges.len() {
            if let Some(execution_policy) = execution_policy {
                execution_policy.check_cancelled_every("ring_extraction", work_items)?;
            }
            work_items += 1;
            if self.directed_edges[start_de_idx].is_marked || labels[start_de_idx] >= 0 {
                continue;
            }

            maximal_ring_starts.push(start_de_idx);
            let mut curr = start_de_idx;
            loop {
                if let Some(execution_policy) = execution_policy {
                    execution_policy.check_cancelled_every("ring_extraction", work_items)?;
                }
                work_items += 1;
                if labels[curr] >= 0 {
                    break;
                }
                labels[curr] = curr_label;

                let Some(next) = self.directed_edges[self.directed_edges[curr].sym_idx].next_idx
                else {
                    break;
                };
                if next == start_de_idx {
                    break;
                }
                curr = next;
            }
            curr_label += 1;
        }
        Ok(maximal_ring_starts)
    }

    /// Step 3: convert maximal to minimal rings by relinking intersection nodes.
    /// findIntersectionNodes + computeNextCCWEdges, scoped by ring label.
    fn convert_maximal_to_minimal_rings(
        &mut self,
        maximal_ring_starts: &[DirEdgeId],
        labels: &[i64],
        execution_policy: Option<&ExecutionPolicy>,
    ) -> crate::Result<()> {
        self.clear_face_ids();
        let mut intersection_nodes = Vec::<NodeId>::new();
        let mut seen_intersection_nodes = vec![false; self.nodes_x.len()];
        let mut work_items = 0;

        for &start_de_idx in maximal_ring_starts {
            let ring_label = labels[start_de_idx];
            if ring_label < 0 {
                continue;
            }

            intersection_nodes.clear();

            // findIntersectionNodes(startDE, label)
            let mut curr = start_de_idx;
            loop {
                if let Some(execution_policy) = execution_policy {
                    execution_policy.check_cancelled_every("ring_extraction", work_items)?;
                }
                work_items += 1;
                let node = self.directed_edges[curr].src;

                // Degree of this node within the current ring label.
                let mut degree_for_label = 0;
                for &out_de in &self.nodes_outgoing[node] {
                    if let Some(execution_policy) = execution_policy {
                        execution_policy.check_cancelled_every("ring_extraction", work_items)?;
                    }
                    work_items += 1;
                    if labels[out_de] == ring_label {
                        degree_for_label += 1;
                    }
                }

                if degree_for_label > 1 && !seen_intersection_nodes[node] {
                    seen_intersection_nodes[node] = true;
                    intersection_nodes.push(node);
                }

                let Some(next) = self.directed_edges[self.directed_edges[curr].sym_idx].next_idx
                else {
                    break;
                };
                if next == start_de_idx {
                    break;
                }
                curr = next;
            }

            // computeNextCCWEdges(node, label)
            for &node in &intersection_nodes {
                let outgoing = &self.nodes_outgoing[node];
                let mut first_out: Option<DirEdgeId> = None;
                let mut prev_in: Option<DirEdgeId> = None;

                // Outgoing edges are stored in counter-clockwise order. Pair each
                // incoming edge of this maximal ring with the next outgoing edge
                // in that order, splitting repeated-vertex walks into minimal rings.
                // Reversing this traversal recreates the maximal-ring links and
                // leaves a point-touching hole embedded in a self-touching shell.
                for &de_idx in outgoing {
                    if let Some(execution_policy) = execution_policy {
                        execution_policy.check_cancelled_every("ring_extraction", work_items)?;
                    }
                    work_items += 1;
                    let sym_idx = self.directed_edges[de_idx].sym_idx;

                    let out_de = (labels[de_idx] == ring_label).then_some(de_idx);
                    let in_de = (labels[sym_idx] == ring_label).then_some(sym_idx);

                    if out_de.is_none() && in_de.is_none() {
                        continue;
                    }

                    if let Some(in_de_idx) = in_de {
                        prev_in = Some(in_de_idx);
                    }

                    if let Some(out_de_idx) = out_de {
                        if let Some(prev_in_idx) = prev_in.take() {
                            let link_idx = self.directed_edges[prev_in_idx].sym_idx;
                            self.directed_edges[link_idx].next_idx = Some(out_de_idx);
                        }
                        if first_out.is_none() {
                            first_out = Some(out_de_idx);
                        }
                    }
                }

                if let (Some(prev_in_idx), Some(first_out_idx)) = (prev_in, first_out) {
                    let link_idx = self.directed_edges[prev_in_idx].sym_idx;
                    self.directed_edges[link_idx].next_idx = Some(first_out_idx);
                }

                seen_intersection_nodes[node] = false;
            }
        }
        Ok(())
    }

    /// Extracts valid rings by following persisted directed-edge `next_idx` links.
    fn extract_valid_rings(
        &mut self,
        include_graph_ids: bool,
        include_source_ids: bool,
        execution_policy: Option<&ExecutionPolicy>,
    ) -> crate::Result<Vec<ExtractedRing>> {
        for (de_idx, de) in self.directed_edges.iter_mut().enumerate() {
            if let Some(execution_policy) = execution_policy {
                execution_policy.check_cancelled_every("ring_extraction", de_idx)?;
            }
            de.is_visited = false;
        }

        // Reuse vector to avoid allocations
        let mut ring_edges = Vec::new();
        let mut rings = Vec::new();
        let mut work_items = 0;

        for start_de_idx in 0..self.directed_edges.len() {
            if let Some(execution_policy) = execution_policy {
                execution_policy.check_cancelled_every("ring_extraction", work_items)?;
            }
            work_items += 1;
            if self.directed_edges[start_de_idx].is_visited
                || self.directed_edges[start_de_idx].is_marked
            {
                continue;
            }

            if self.edges[self.directed_edges[start_de_idx].edge_idx].deleted {
                continue;
            }

            ring_edges.clear();
            let mut curr_de_idx = start_de_idx;
            let mut is_valid_ring = true;

            loop {
                if let Some(execution_policy) = execution_policy {
                    execution_policy.check_cancelled_every("ring_extraction", work_items)?;
                }
                work_items += 1;
                let curr_de = &mut self.directed_edges[curr_de_idx];
                curr_de.is_visited = true;
                ring_edges.push(curr_de_idx);

                let Some(next_de_idx) =
                    self.directed_edges[self.directed_edges[curr_de_idx].sym_idx].next_idx
                else {
                    is_valid_ring = false;
                    break;
                };

                curr_de_idx = next_de_idx;

                if curr_de_idx == start_de_idx {
                    break;
                }

                if self.directed_edges[curr_de_idx].is_visited {
                    is_valid_ring = false;
                    break;
                }
            }

            if is_valid_ring && !ring_edges.is_empty() {
                rings.push(self.materialize_ring(
                    &ring_edges,
                    include_graph_ids,
                    include_source_ids,
                    execution_policy,
                    &mut work_items,
                )?);
            }
        }
        Ok(rings)
    }
}
