//! The stage steps, as runs of the original's methods. Not carried over, but a part of their
//! module, since most of them are private.

use super::{DirEdgeId, EdgeId, ExtractedRing, PlanarGraph};
use crate::original::Coord3D;
use crate::state::Census;

/// A ring that the original extracted.
pub struct Ring {
    pub half_edges: Vec<DirEdgeId>,
    pub key: Vec<[u64; 2]>,
    pub area: f64,
    pub face: usize,
}

/// Prunes dangles; the edges in the order found.
pub fn prune(graph: &mut PlanarGraph) -> Vec<EdgeId> {
    listed(graph, PlanarGraph::prune_dangles)
}

/// Cuts; the edges in the order found, and the counts before.
pub fn cut(graph: &mut PlanarGraph) -> (Vec<EdgeId>, Census) {
    let census = linked_census(graph);
    (listed(graph, PlanarGraph::delete_cut_edges), census)
}

/// Extracts rings, in the order of `get_edge_rings_with_graph_ids_impl` and without its tracing
/// and its checks of debug builds; with the counts before splitting.
pub fn rings(graph: &mut PlanarGraph) -> (Vec<Ring>, Census) {
    let census = linked_census(graph);
    let extracted = run_rings(graph, true);
    let walks = walks(graph);
    assert_eq!(extracted.len(), walks.len(), "a ring that is not valid");
    let rings = extracted.into_iter().zip(walks);
    (
        rings.map(|(ring, walk)| named(graph, ring, walk)).collect(),
        census,
    )
}

/// Extracts rings as `get_edge_rings` does, and counts them: for timing.
pub fn count_rings(graph: &mut PlanarGraph) -> usize {
    run_rings(graph, false).len()
}

fn run_rings(graph: &mut PlanarGraph, include_graph_ids: bool) -> Vec<ExtractedRing> {
    const NO_POLICY: &str = "no policy ends the step";
    let mut labels = vec![-1_i64; graph.directed_edges.len()];
    graph.compute_next_cw_edges(None).expect(NO_POLICY);
    let starts = graph
        .find_and_label_maximal_rings(&mut labels, None)
        .expect(NO_POLICY);
    graph
        .convert_maximal_to_minimal_rings(&starts, &labels, None)
        .expect(NO_POLICY);
    graph
        .assign_deterministic_face_ids(None)
        .expect("links of a sound graph form cycles");
    graph
        .extract_valid_rings(include_graph_ids, false, None)
        .expect(NO_POLICY)
}

/// Links the active half-edges and counts by the original's checks.
fn linked_census(graph: &mut PlanarGraph) -> Census {
    graph
        .compute_next_cw_edges(None)
        .expect("no policy ends the step");
    let cycles = graph
        .validate_arrangement_ring_cycles("maximal")
        .expect("links of a sound graph form cycles");
    let components = graph.active_component_ids();
    let active = |&&[half, twin]: &&[DirEdgeId; 2]| {
        !graph.directed_edges[half].is_marked && !graph.directed_edges[twin].is_marked
    };
    let edges = graph.edges.iter().map(|edge| &edge.dir_edges);
    let pieces = components.iter().flatten().max().map_or(0, |last| last + 1);
    Census {
        vertices: components.iter().flatten().count() as u16,
        edges: edges.filter(active).count() as u16,
        cycles: cycles as u16,
        pieces: pieces as u16,
        verdict: graph.validate_arrangement_euler("maximal").is_ok(),
    }
}

/// The original answers the ends of the edges that a step lists, not their numbers. So while the
/// step runs each stored line holds its edge's number as z, which no step reads.
fn listed(
    graph: &mut PlanarGraph,
    step: impl FnOnce(&mut PlanarGraph) -> Vec<Vec<Coord3D>>,
) -> Vec<EdgeId> {
    let lines: Vec<_> = graph.edges.iter().map(|edge| edge.line).collect();
    for (number, edge) in graph.edges.iter_mut().enumerate() {
        edge.line.start.z = number as f64;
    }
    let found = step(graph);
    for (edge, line) in graph.edges.iter_mut().zip(lines) {
        edge.line = line;
    }
    found.iter().map(|ends| ends[0].z as EdgeId).collect()
}

/// The half-edges of each ring: the original's rings hold nodes only, so its links are walked
/// again, from the lowest half-edge of each.
fn walks(graph: &PlanarGraph) -> Vec<Vec<DirEdgeId>> {
    let mut passed = vec![false; graph.directed_edges.len()];
    let mut walks = Vec::new();
    for start in 0..passed.len() {
        if passed[start] || graph.directed_edges[start].is_marked {
            continue;
        }
        let mut walk = Vec::new();
        let mut current = start;
        while !passed[current] {
            passed[current] = true;
            walk.push(current);
            let twin = graph.directed_edges[current].sym_idx;
            current = graph.directed_edges[twin].next_idx.expect("a link");
        }
        walks.push(walk);
    }
    walks
}

/// A ring with the half-edges that were walked, which have to be its own.
fn named(graph: &PlanarGraph, ring: ExtractedRing, half_edges: Vec<DirEdgeId>) -> Ring {
    let starts = half_edges
        .iter()
        .map(|&half| graph.directed_edges[half].src);
    assert!(starts.eq(ring.node_ids), "another ring than was walked");
    Ring {
        key: graph.face_cycle_key(&half_edges),
        area: graph.face_cycle_signed_area(&half_edges),
        face: ring.face_ref.expect("a face number").face_id,
        half_edges,
    }
}

/// What the original refuses in debug builds alone. Its checks are on in these tests.
#[cfg(test)]
mod tests {
    use super::*;
    use crate::original::Line3D;
    use crate::PolygonizeError;

    fn graph(lines: &[[i32; 4]]) -> PlanarGraph {
        let mut graph = PlanarGraph::new();
        for &[x1, y1, x2, y2] in lines {
            graph.add_line(Line3D {
                start: Coord3D::new(x1.into(), y1.into(), 0.0),
                end: Coord3D::new(x2.into(), y2.into(), 0.0),
                line_id: 1,
            });
        }
        graph
    }

    /// What the original's check says of an edge whose line id and list of ids are these.
    fn checked(line_id: u32, line_ids: &[u32]) -> Option<String> {
        let mut graph = graph(&[[0, 0, 1, 0]]);
        graph.edges[0].line.line_id = line_id;
        graph.edges[0].sources.line_ids = line_ids.to_vec();
        let checked = graph.validate_arrangement_edge_invariants();
        checked
            .err()
            .map(|PolygonizeError::InternalInvariantViolation { reason }| reason)
    }

    /// All that the delivered text says of the order of an edge's ids: they rise strictly, and the
    /// first is the edge's. Sorting makes this check.
    #[test]
    fn sorting_wants_rising_ids() {
        assert_eq!(checked(3, &[3, 4, 5]), None);
        for (line_id, line_ids, why) in [
            (3, &[][..], "has no sources"),
            (3, &[3, 5, 4], "not strictly sorted: 5 then 4"),
            (3, &[3, 3], "not strictly sorted: 3 then 3"),
            (5, &[3, 4, 5], "line_id=5, first_source=3"),
        ] {
            let said = checked(line_id, line_ids).expect("a reason");
            assert!(said.contains(why), "{said}");
        }
    }

    #[test]
    #[should_panic(expected = "angular order is not strict")]
    fn sorting_refuses_a_loop() {
        graph(&[[0, 0, 0, 0]]).sort_edges();
    }

    /// Document 01's P6: it fails Euler's relation, and cutting is told that the noding is sound.
    #[test]
    fn cutting_refuses_crossings() {
        let sides = [[0, 0, 2, 0], [2, 0, 2, 2], [2, 2, 0, 2], [0, 2, 0, 0]];
        let mut graph = graph(&[&sides[..], &[[0, 0, 2, 2], [2, 0, 0, 2]]].concat());
        graph.sort_edges();
        assert!(graph.delete_cut_edges_impl(None, true).is_err());
        assert_eq!(graph.delete_cut_edges_impl(None, false).unwrap().len(), 2);
    }
}
