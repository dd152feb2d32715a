//! The tissue map graph for a station: segments of a trace in, compartments and their areas out.
//!
//! The work is done by a static library that is proved to do what its definitions say, on every
//! input. This crate lends it tables, numbers and byte slices and hands out what comes back. Build
//! the library's seven archives first, in the root of the repository:
//!
//! ```text
//! tools/archives
//! ```
//!
//! A segment file becomes a map in one call, or says which record is refused and why:
//!
//! ```
//! use tukmiheb::{Graph, RefusedRecord};
//!
//! fn areas(file: &[u8]) -> Result<Vec<f64>, RefusedRecord> {
//!     let map = Graph::polygonize(file)?;
//!     Ok(map.compartments().map(|compartment| compartment.net_area()).collect())
//! }
//!
//! # let waist = concat!(env!("CARGO_MANIFEST_DIR"), "/../samples/waist.seg");
//! let waist = std::fs::read(waist)?;
//! assert_eq!(areas(&waist)?.iter().sum::<f64>(), 52_000.0);
//! assert_eq!(areas(&waist[..100]).unwrap_err().record, 1);
//! # Ok::<(), Box<dyn std::error::Error>>(())
//! ```
//!
//! Step by step, so that segments can be added as they are traced:
//!
//! ```
//! use tukmiheb::{Coord3D, Graph, Line3D, Refusal};
//!
//! let corners = [(0.0, 0.0), (4.0, 0.0), (0.0, 3.0)].map(|(x, y)| Coord3D::new(x, y, 0.0));
//! let mut graph = Graph::new();
//! for side in 0..3 {
//!     graph.add_line(&Line3D::new(corners[side], corners[(side + 1) % 3], 1))?;
//! }
//! graph.sort_edges()?;
//! graph.prune_dangles()?;
//! graph.delete_cut_edges()?;
//! let rings = graph.extract_rings()?;
//! assert!(rings.enclosed().map(|ring| ring.area()).eq([6.0]));
//! # Ok::<(), Refusal>(())
//! ```
//!
//! An island is a hole of the compartment around it, and not a second outside:
//!
//! ```
//! use tukmiheb::{Coord3D, Graph, Line3D, RefusedRecord};
//!
//! let square = |low: f64, high: f64| {
//!     let corners = [(low, low), (high, low), (high, high), (low, high)];
//!     let corners = corners.map(|(x, y)| Coord3D::new(x, y, 0.0));
//!     [0, 1, 2, 3].map(|side| Line3D::new(corners[side], corners[(side + 1) % 4], 1))
//! };
//! let map = Graph::polygonize_lines([square(0.0, 6.0), square(2.0, 4.0)].concat())?;
//! let areas = map.compartments().map(|compartment| compartment.net_area());
//! assert!(areas.eq([32.0, 4.0]));
//! assert_eq!(map.rings().holes().filter(|hole| hole.holder.is_none()).count(), 1);
//! # Ok::<(), RefusedRecord>(())
//! ```
//!
//! An edge knows all passes that drew it, by their line ids:
//!
//! ```
//! use tukmiheb::{Coord3D, Graph, Line3D, Refusal};
//!
//! let [a, b] = [0.0, 4.0].map(|x| Coord3D::new(x, 0.0, 0.0));
//! let mut graph = Graph::new();
//! graph.add_line(&Line3D::new(a, b, 7))?;
//! let again = graph.add_line(&Line3D::new(b, a, 2))?;
//! assert!(!again.new && graph.line_ids(again.edge).eq([2, 7]));
//! # Ok::<(), Refusal>(())
//! ```
//!
//! A finished map is kept as a ring file, and opened again without its graph:
//!
//! ```
//! use tukmiheb::{read_rings, Graph};
//!
//! # let waist = concat!(env!("CARGO_MANIFEST_DIR"), "/../samples/waist.seg");
//! let map = Graph::polygonize(&std::fs::read(waist)?)?;
//! let file = map.rings().write();
//! let kept = read_rings(&file)?;
//! for (ring, kept) in map.rings().into_iter().zip(kept.iter()) {
//!     assert_eq!(ring.face(), kept.face);
//!     assert!(ring.nodes().eq(kept.nodes.iter().copied()));
//! }
//! # assert_eq!(kept.len(), map.rings().len());
//! # Ok::<(), Box<dyn std::error::Error>>(())
//! ```
//!
//! # Threads and stack
//!
//! Every type here is `Send` and `Sync`. The library has no memory of its own: a call works on what it is
//! lent, so graphs in different threads do not meet. A [`Graph`] owns its tables on the heap, and a call
//! works in arrays on the stack; [`layout::STACK`] says how much of it a thread needs.

pub mod entries;
mod ffi;
mod graph;
mod holes;
pub mod layout;
mod line_ids;
mod map;
mod refusal;
mod ring_file;
mod rings;
mod rotation;
mod segment_file;

pub use graph::{Added, Census, Cuts, Graph, Records, Stage};
pub use graph::{Coord3D, DirEdgeId, EdgeId, FaceId, Line3D, NodeId};
pub use holes::{Compartment, Hole};
pub use line_ids::LineIds;
pub use map::{RefusedRecord, TissueMap};
pub use refusal::Refusal;
pub use ring_file::{read_rings, FileRing, FileRings};
pub use rings::{Ring, RingIter, RingSide, Rings};
pub use rotation::{least_rotation, Rotation};
pub use segment_file::{segments, Segments};

/// The code of the README, which is run as the other examples are.
#[cfg(doctest)]
#[doc = include_str!("../../README.md")]
struct Readme;
