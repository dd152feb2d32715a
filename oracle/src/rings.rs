//! Ring extraction: the original's rings in the library's lists, with what the original does not answer,
//! the comparisons of its searches and the holes.

use crate::holes::{self, Outline, Point};
use crate::original::steps::{self, Ring};
use crate::original::{Coord3D, PlanarGraph};
use crate::rotation::least_rotation;
use crate::rules::{self, Named};
use crate::state::{Census, Hole, Lists, Reply};

/// All that an extraction comes to, before any of it is written.
pub struct Extracted {
    rings: Vec<Ring>,
    /// How the original names each ring.
    pub named: Vec<Named>,
    faces: Vec<usize>,
    pub holes: Vec<Hole>,
    census: Census,
    comparisons: usize,
}

impl Extracted {
    /// Extracts the rings of a graph by the original's methods.
    pub fn of(graph: &mut PlanarGraph) -> Self {
        let (rings, census) = steps::rings(graph);
        let named: Vec<Named> = rings.iter().map(named).collect();
        let faces = rules::break_ties(&named);
        let outlines = rings.iter().zip(&faces);
        let outlines: Vec<Outline> = outlines
            .map(|(ring, &face)| outline(graph, ring, face))
            .collect();
        Extracted {
            comparisons: comparisons(graph, &rings),
            holes: holes::holes(&outlines),
            rings,
            named,
            faces,
            census,
        }
    }

    /// Writes the rings and the holes; the reply.
    pub fn put(&self, lists: &mut Lists) -> Reply {
        let mut place = 0;
        for (number, ring) in self.rings.iter().enumerate() {
            lists.ring_first[number] = place as u16;
            lists.ring_length[number] = ring.half_edges.len() as u16;
            lists.ring_face[number] = self.faces[number] as u16;
            lists.ring_side[number] = side(ring.area);
            lists.ring_area[number] = ring.area;
            for &half_edge in &ring.half_edges {
                lists.half_edges[place] = half_edge as u16;
                place += 1;
            }
        }
        lists.holes[..self.holes.len()].copy_from_slice(&self.holes);
        Reply::Rings {
            count: self.rings.len() as u16,
            census: self.census,
            comparisons: self.comparisons as u16,
            half_edges: place as u16,
            holes: self.holes.len() as u16,
        }
    }
}

fn named(ring: &Ring) -> Named {
    Named {
        key: ring.key.clone(),
        area: ring.area,
        face: ring.face,
    }
}

/// The points at which a ring's half-edges start, each with its node.
fn corners<'a>(
    graph: &'a PlanarGraph,
    ring: &'a Ring,
) -> impl Iterator<Item = (usize, Coord3D)> + 'a {
    let sources = ring.half_edges.iter();
    let nodes = sources.map(|&half| graph.directed_edges[half].src);
    nodes.map(|node| {
        let [x, y] = [graph.nodes_x[node], graph.nodes_y[node]];
        (node, Coord3D::new(x, y, 0.0))
    })
}

/// A ring in whole numbers. Its doubled area has to be twice the area that the original found.
fn outline(graph: &PlanarGraph, ring: &Ring, face: usize) -> Outline {
    let whole = |point: Coord3D| -> Point { [point.x as i128, point.y as i128] };
    let corners = corners(graph, ring).map(|(node, point)| (node, whole(point)));
    let outline = Outline::new(corners, face);
    assert_eq!(outline.doubled() as f64, 2.0 * ring.area, "another area");
    outline
}

/// How often naming the rings compared two entries. The original searches each ring once, from its
/// lowest half-edge, where the ring begins; the same searches are made again, and counted.
fn comparisons(graph: &PlanarGraph, rings: &[Ring]) -> usize {
    let of_ring = |ring: &Ring| {
        // A ring's key as it is searched: the bits of its starting nodes, not turned yet.
        let corners = corners(graph, ring);
        let mut entries: Vec<[u64; 2]> = corners.map(|(_, point)| rules::key(point)).collect();
        let rotation = least_rotation(&entries);
        entries.rotate_left(rotation.place);
        assert_eq!(entries, ring.key, "another key than the original's");
        rotation.comparisons
    };
    rings.iter().map(of_ring).sum()
}

/// 0 flat, 1 enclosed, 2 open.
fn side(area: f64) -> u8 {
    if area > 0.0 {
        1
    } else if area < 0.0 {
        2
    } else {
        0
    }
}
