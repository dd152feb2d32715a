//! The listing of a segment file.

use crate::original::{steps, Line3D, PlanarGraph};
use crate::records;
use crate::rules::Refusal;
use crate::state::{Call, Lent, Reply, Side};
use std::fmt::Write;

/// What the listing program prints of a file's bytes.
pub fn listing(bytes: &[u8], side: &mut impl Side) -> String {
    match add_records(bytes, side) {
        Ok(()) => extracted(side),
        Err((number, record)) => format!("refused {number} record {record}\n"),
    }
}

/// The same of a file whose records are all good, by the original's methods alone: nothing is tested
/// and no table is kept beside the graph. For timing.
pub fn original_listing(bytes: &[u8]) -> String {
    let mut graph = PlanarGraph::new();
    for line in segments(bytes) {
        graph.add_line(line.expect("a good record").expect("a segment"));
    }
    graph.sort_edges();
    let dangles = steps::prune(&mut graph).len();
    let (cuts, _) = steps::cut(&mut graph);
    let (rings, census) = steps::rings(&mut graph);
    let counts = [
        graph.nodes_x.len(),
        graph.edges.len(),
        dangles,
        cuts.len(),
        rings.len(),
    ];
    let mut out = head(counts, census.verdict);
    for (number, ring) in rings.iter().enumerate() {
        let sources = ring.half_edges.iter();
        let nodes = sources.map(|&half| graph.directed_edges[half].src);
        put_ring(number, ring.face, ring.area, nodes, &mut out);
    }
    out
}

/// The segments of a file up to its end or to the first record that is refused, with nothing for a
/// record that is passed over.
pub fn segments(bytes: &[u8]) -> impl Iterator<Item = Result<Option<Line3D>, Refusal>> + '_ {
    records::records(bytes).map(|record| Ok(record?.segment()))
}

/// Adds every segment; the refusal's number and the record's, if one is refused. Records passed over are
/// counted too.
fn add_records(bytes: &[u8], side: &mut impl Side) -> Result<(), (u32, usize)> {
    side.call(&Call::Create, &Lent::FULL);
    for (number, line) in segments(bytes).enumerate() {
        let Some(line) = line.map_err(|refusal| (refusal.number(), number))? else {
            continue;
        };
        if let Reply::Refused(refusal) = side.call(&Call::Add(line), &Lent::FULL) {
            return Err((refusal, number));
        }
    }
    Ok(())
}

/// Runs the stage steps and prints what came out.
fn extracted(side: &mut impl Side) -> String {
    let mut listed = [0, 0, 0];
    let mut euler = false;
    for call in [Call::Sort, Call::Prune, Call::Cut, Call::Rings] {
        match side.call(&call, &Lent::FULL) {
            Reply::Dangles(count) => listed[0] = count.into(),
            Reply::Cuts(count, _) => listed[1] = count.into(),
            Reply::Rings { count, census, .. } => {
                listed[2] = count.into();
                euler = census.verdict;
            }
            _ => {}
        }
    }
    let state = side.state();
    let [dangles, cuts, rings] = listed;
    let counts = [state.nodes.into(), state.edges.into(), dangles, cuts, rings];
    let mut out = head(counts, euler);
    for ring in 0..rings {
        let lists = &state.lists;
        let first = usize::from(lists.ring_first[ring]);
        let half_edges = &lists.half_edges[first..first + usize::from(lists.ring_length[ring])];
        let sources = half_edges.iter();
        let nodes = sources.map(|&half| state.tables.dir_edges_src[usize::from(half)].into());
        let (face, area) = (lists.ring_face[ring].into(), lists.ring_area[ring]);
        put_ring(ring, face, area, nodes, &mut out);
    }
    out
}

/// Line one.
fn head([nodes, edges, dangles, cuts, rings]: [usize; 5], euler: bool) -> String {
    let euler = if euler { "yes" } else { "no" };
    format!(
        "nodes {nodes} edges {edges} dangles {dangles} cuts {cuts} rings {rings} euler {euler}\n"
    )
}

fn put_ring(
    ring: usize,
    face: usize,
    area: f64,
    nodes: impl Iterator<Item = usize>,
    out: &mut String,
) {
    let doubled = 2.0 * area;
    let _ = write!(out, "ring {ring} face {face} doubled {doubled} nodes");
    for node in nodes {
        let _ = write!(out, " {node}");
    }
    out.push('\n');
}
