//! The limits of a graph, and where its tables lie in the slices that are lent.
//!
//! The tables are regions of five slices: floats, numbers, stars, marks and ids. A constant is the
//! place where a region begins, or the least length of a slice. The last region of a slice runs to
//! its end, so that a longer slice is lent for a longer last table.

/// The most nodes that a graph may have.
pub const NODE_LIMIT: usize = 2048;

/// The most edges that a graph may have.
pub const EDGE_LIMIT: usize = 2048;

/// The most pairs of a line id and the place of the next one, for the lists of all edges together. All
/// lengths and places that follow are made from these three limits.
pub const PAIR_LIMIT: usize = 4096;

/// No place: it ends a list of line ids.
pub const LIST_END: u16 = 65_535;

/// No ring: the holder of an open ring that no ring holds.
pub const OUTSIDE: u16 = 65_535;

/// The most half-edges: two for each edge.
pub const HALF_EDGE_LIMIT: usize = 2 * EDGE_LIMIT;

/// The floats of a segment: start x, y, z and end x, y, z.
pub const SEGMENT_FLOATS: usize = 6;

/// The stack, in bytes, that a thread should have for any call: 256 KiB with these limits. It is no proved bound. The frames
/// of ring extraction, which needs most, add up to 235 KiB; every call was made on full tables with this.
pub const STACK: usize = 128 * EDGE_LIMIT;

// ---- floats: x, y and z of the nodes, then segments

/// x of the nodes.
pub const NODES_X: usize = 0;

/// y of the nodes.
pub const NODES_Y: usize = NODES_X + NODE_LIMIT;

/// z of the nodes.
pub const NODES_Z: usize = NODES_Y + NODE_LIMIT;

/// The segment of edge k begins [`SEGMENT_FLOATS`] k past this place.
pub const SEGMENTS: usize = NODES_Z + NODE_LIMIT;

/// The least length of the floats.
pub const FLOATS: usize = SEGMENTS + SEGMENT_FLOATS * EDGE_LIMIT;

// ---- numbers: the nodes at the ends of half-edges, then the places in lists of line ids

/// Where half-edges start.
pub const SOURCES: usize = 0;

/// Where they end.
pub const TARGETS: usize = SOURCES + HALF_EDGE_LIMIT;

/// Where the first pair of each edge's list stands.
pub const LIST_PLACES: usize = TARGETS + HALF_EDGE_LIMIT;

/// Where the pair after each pair stands, or [`LIST_END`].
pub const LINKS: usize = LIST_PLACES + EDGE_LIMIT;

/// The least length of the numbers.
pub const NUMBERS: usize = LINKS + PAIR_LIMIT;

// ---- stars: half-edges by node, and how many

/// Every half-edge once. A node's star is what of it starts at the node, in this order.
pub const OUTGOING: usize = 0;

/// How many unmarked half-edges start at each node.
pub const DEGREES: usize = OUTGOING + HALF_EDGE_LIMIT;

/// The least length of the stars.
pub const STARS: usize = DEGREES + NODE_LIMIT;

// ---- marks: a byte each

/// The marks of nodes.
pub const NODE_MARKS: usize = 0;

/// The marks of half-edges. Both halves of an edge are marked alike.
pub const HALF_EDGE_MARKS: usize = NODE_MARKS + NODE_LIMIT;

/// The least length of the marks.
pub const MARKS: usize = HALF_EDGE_MARKS + HALF_EDGE_LIMIT;

// ---- ids: line ids of edges, then of pairs

/// The lowest id of each edge.
pub const LINE_IDS: usize = 0;

/// The id of each pair.
pub const PAIR_IDS: usize = LINE_IDS + EDGE_LIMIT;

/// The least length of the ids.
pub const IDS: usize = PAIR_IDS + PAIR_LIMIT;
