//! The entries of the static library on slices, for a caller that keeps tables of its own.
//! [`Graph`](crate::Graph) is the simpler way.
//!
//! Every entry takes all inputs: short slices, damaged tables, calls in the wrong stage. On a
//! refusal nothing that was lent has changed. The counts, the stage and the replies are arrays of
//! exactly their size, so that none of them can be too short.

use crate::ffi;
use crate::layout::SEGMENT_FLOATS;
use crate::Refusal;

/// The small state: node count, edge count and stage (0 to 4).
pub const STATE_LENGTH: usize = 3;

/// An edge, and 1 where it is new.
pub const ADDED_LENGTH: usize = 2;

/// A count alone.
pub const COUNT_LENGTH: usize = 1;

/// A count, V, E, cycles, C and the verdict (1 or 0).
pub const CENSUS_LENGTH: usize = 6;

/// Behind these the comparisons of naming, and how many half-edges and holes were written.
pub const RINGS_LENGTH: usize = CENSUS_LENGTH + 3;

/// How many records were taken, and the number of what ended it.
pub const FILE_LENGTH: usize = 2;

/// What there is ([`AT_END`], [`A_SEGMENT`] or [`PASSED_OVER`]), its line id, and the place of the next record.
pub const RECORD_LENGTH: usize = 3;

/// No record: the file ends here.
pub const AT_END: u64 = 0;

/// A segment.
pub const A_SEGMENT: u64 = 1;

/// A record that the reader of segments passes over: a ring, or one of kinds 3 to 15.
pub const PASSED_OVER: u64 = 2;

/// How many bytes of a ring file were written.
pub const WRITTEN_LENGTH: usize = 1;

/// How many rings and how many node numbers of a ring file were written into lists.
pub const READ_LENGTH: usize = 2;

/// x and y of a centre and two targets.
pub const POINTS_LENGTH: usize = 6;

/// An angular order.
pub const ORDER_LENGTH: usize = 1;

/// Where a least rotation starts, and how many comparisons that took.
pub const ROTATION_LENGTH: usize = 2;

/// The state tables as regions of five slices, lent to a call. [`layout`](crate::layout) says where
/// each table lies, and the least length of each slice.
pub struct Slices<'a> {
    /// x, y and z of the nodes; segments.
    pub floats: &'a mut [f64],
    /// Where half-edges start; where they end; the places of the lists of line ids; the next place of
    /// each pair in them.
    pub numbers: &'a mut [u16],
    /// The star table; degrees.
    pub stars: &'a mut [u16],
    /// Of nodes; of half-edges. A byte in use is 0 or 1, or the call is refused as unsound. A byte
    /// that is not in use may hold anything and keeps it.
    pub marks: &'a mut [u8],
    /// Line ids of the edges; of the pairs.
    pub ids: &'a mut [u32],
}

/// The six ring lists, lent to ring extraction. Each needs two entries for each edge.
pub struct RingLists<'a> {
    /// The half-edges, ring by ring.
    pub half_edges: &'a mut [u16],
    /// Where each ring begins among the half-edges.
    pub first: &'a mut [u16],
    /// How many half-edges it has.
    pub length: &'a mut [u16],
    /// Its face number.
    pub face: &'a mut [u16],
    /// Its side: [`FLAT`], [`ENCLOSED`] or [`OPEN`].
    pub side: &'a mut [u8],
    /// Its area, 0.0 where flat.
    pub area: &'a mut [f64],
}

/// The side of a ring without area.
pub const FLAT: u8 = 0;

/// The side of a ring with an area above 0, the outline of a compartment.
pub const ENCLOSED: u8 = 1;

/// The side of a ring with an area below 0, what lies around a piece of the map.
pub const OPEN: u8 = 2;

/// A record of the hole list: an open ring and the enclosed ring that holds it, by their places among the
/// rings, and the open ring's doubled area, which is below 0.
#[repr(C)]
#[derive(Clone, Copy, Debug, Default, PartialEq, Eq)]
pub struct HoleRecord {
    /// The open ring.
    pub ring: u16,
    /// The enclosed ring, or [`OUTSIDE`](crate::layout::OUTSIDE) where none holds it.
    pub holder: u16,
    /// The open ring's doubled area.
    pub doubled: i64,
}

/// A list of rings, lent to the writer of ring files: ring k is entry k of the first four slices. It is as
/// long as the shortest of these four.
#[derive(Clone, Copy)]
pub struct FileLists<'a> {
    /// Where each ring begins among the nodes.
    pub first: &'a [usize],
    /// How many nodes it has.
    pub length: &'a [usize],
    /// Its face number.
    pub face: &'a [u16],
    /// Its doubled area.
    pub doubled: &'a [i64],
    /// The node numbers of all rings. Rings may share some and leave others out.
    pub nodes: &'a [u16],
}

/// Room for a list of rings, lent to the reader of ring files: for so many rings as the shortest of the
/// first four slices has entries. What is not written keeps its contents.
pub struct FileRoom<'a> {
    /// Where each ring begins among the nodes.
    pub first: &'a mut [usize],
    /// How many nodes it has.
    pub length: &'a mut [usize],
    /// Its face number.
    pub face: &'a mut [u16],
    /// Its doubled area.
    pub doubled: &'a mut [i64],
    /// The node numbers, ring by ring.
    pub nodes: &'a mut [u16],
}

fn answered(number: u32) -> Result<(), Refusal> {
    match number {
        0 => Ok(()),
        _ => {
            Err(Refusal::from_number(number)
                .expect("the library answers 0 or the number of a refusal"))
        }
    }
}

/// Calls an entry with what goes before the state, in brackets, the state, what goes before the slices, the
/// slices, and what goes after.
macro_rules! lend {
    (
        $entry:ident $([$($first:expr),*])?, $state:ident, [$($before:expr),*], $slices:ident,
        [$($after:expr),*]
    ) => {
        // SAFETY: each pointer and length is that of a slice, and each pointer alone that of an
        // array, which is lent to this call alone; the library stays within them and keeps no
        // pointer.
        answered(unsafe {
            ffi::$entry(
                $($($first,)*)?
                $state,
                $($before,)*
                $slices.floats.as_mut_ptr(),
                $slices.floats.len(),
                $slices.numbers.as_mut_ptr(),
                $slices.numbers.len(),
                $slices.stars.as_mut_ptr(),
                $slices.stars.len(),
                $slices.marks.as_mut_ptr(),
                $slices.marks.len(),
                $slices.ids.as_mut_ptr(),
                $slices.ids.len(),
                $($after,)*
            )
        })
    };
}

/// Sets `state` (node count, edge count, stage) to an empty graph. No slice is written.
///
/// # Errors
///
/// 6.
pub fn create(state: &mut [u16; STATE_LENGTH], slices: &mut Slices) -> Result<(), Refusal> {
    lend!(tukmiheb_create, state, [], slices, [])
}

/// Adds a line, start x, y, z and end x, y, z. `reply` gets the edge, and 1 if it is new. Of an old edge
/// only its list of line ids changes, where that lacks the line's, and its own line id, the lowest.
///
/// # Errors
///
/// 6, 7, 5, 1, 2, 3, 4 or 12: the first of these that is due.
pub fn add_line(
    state: &mut [u16; STATE_LENGTH],
    line: &[f64; SEGMENT_FLOATS],
    line_id: u32,
    slices: &mut Slices,
    reply: &mut [u16; ADDED_LENGTH],
) -> Result<(), Refusal> {
    let [x1, y1, z1, x2, y2, z2] = *line;
    lend!(
        tukmiheb_add_line,
        state,
        [x1, y1, z1, x2, y2, z2, line_id],
        slices,
        [reply]
    )
}

/// Adds the records of a segment file, up to its end or to the first that is refused. Rings and records of
/// kinds 3 to 15 are passed over. `reply` gets how many were taken, those among them, and the number of what ended it: 0 at the end, else that of the refusal. The
/// records before a refused one stay added, so the call itself succeeds there.
///
/// # Errors
///
/// 6, 7 or 5.
pub fn add_records(
    state: &mut [u16; STATE_LENGTH],
    bytes: &[u8],
    slices: &mut Slices,
    reply: &mut [u64; FILE_LENGTH],
) -> Result<(), Refusal> {
    lend!(
        tukmiheb_add_records,
        state,
        [bytes.as_ptr(), bytes.len()],
        slices,
        [reply]
    )
}

/// Puts every star in angular order: stage 0 to 1. Of the slices only the stars are written.
///
/// # Errors
///
/// 6, 7 or 5.
pub fn sort_edges(state: &mut [u16; STATE_LENGTH], slices: &mut Slices) -> Result<(), Refusal> {
    lend!(tukmiheb_sort_edges, state, [], slices, [])
}

/// Marks dangles: stage 1 to 2. `reply` gets their count, `dangles` their edges. Of the slices the
/// degrees in the stars and the marks are written.
///
/// # Errors
///
/// 6, 7 or 5; 8 where `dangles` has fewer entries than the graph has edges.
pub fn prune_dangles(
    state: &mut [u16; STATE_LENGTH],
    slices: &mut Slices,
    dangles: &mut [u16],
    reply: &mut [u16; COUNT_LENGTH],
) -> Result<(), Refusal> {
    lend!(
        tukmiheb_prune_dangles,
        state,
        [],
        slices,
        [dangles.as_mut_ptr(), dangles.len(), reply]
    )
}

/// Marks cut edges: stage 2 to 3. `reply` gets their count, V, E, cycles, C and the verdict (1 or
/// 0), `cuts` their edges. Of the slices only the marks are written.
///
/// # Errors
///
/// 6, 7 or 5; 8 where `cuts` has fewer entries than the graph has edges.
pub fn delete_cut_edges(
    state: &mut [u16; STATE_LENGTH],
    slices: &mut Slices,
    cuts: &mut [u16],
    reply: &mut [u16; CENSUS_LENGTH],
) -> Result<(), Refusal> {
    lend!(
        tukmiheb_delete_cut_edges,
        state,
        [],
        slices,
        [cuts.as_mut_ptr(), cuts.len(), reply]
    )
}

/// Lists the rings and the holes: stage 3 to 4. `reply` gets the count of rings, V, E, cycles, C, the
/// verdict, how often the least-rotation searches of all rings compared two keys, and how many half-edges
/// and holes were written. A hole list with as many records as the graph has edges is always long enough.
/// No slice is written.
///
/// # Errors
///
/// 6, 7 or 5; 8 where a ring list has fewer entries than twice the edges; 13 where `holes` has fewer records
/// than there are open rings.
pub fn extract_rings(
    holes: &mut [HoleRecord],
    state: &mut [u16; STATE_LENGTH],
    slices: &mut Slices,
    rings: &mut RingLists,
    reply: &mut [u16; RINGS_LENGTH],
) -> Result<(), Refusal> {
    lend!(
        tukmiheb_extract_rings[holes.as_mut_ptr(), holes.len()],
        state,
        [],
        slices,
        [
            rings.half_edges.as_mut_ptr(),
            rings.half_edges.len(),
            rings.first.as_mut_ptr(),
            rings.first.len(),
            rings.length.as_mut_ptr(),
            rings.length.len(),
            rings.face.as_mut_ptr(),
            rings.face.len(),
            rings.side.as_mut_ptr(),
            rings.side.len(),
            rings.area.as_mut_ptr(),
            rings.area.len(),
            reply
        ]
    )
}

/// Unmarks everything: any stage to 0. Of the slices the degrees in the stars and the marks are
/// written.
///
/// # Errors
///
/// 6 or 7.
pub fn reset(state: &mut [u16; STATE_LENGTH], slices: &mut Slices) -> Result<(), Refusal> {
    lend!(tukmiheb_reset, state, [], slices, [])
}

/// Reads what stands at a place of a segment file. `reply` gets [`A_SEGMENT`], its line id and the place of
/// the next record, and `line` its start and end; or [`PASSED_OVER`], 0 and the place of the next record; or
/// [`AT_END`] in its first entry, with the others as they were.
///
/// # Errors
///
/// 9, 10 or 11.
pub fn read_record(
    bytes: &[u8],
    at: usize,
    line: &mut [f64; SEGMENT_FLOATS],
    reply: &mut [u64; RECORD_LENGTH],
) -> Result<(), Refusal> {
    // SAFETY: as in `lend`.
    answered(unsafe { ffi::tukmiheb_read_record(bytes.as_ptr(), bytes.len(), at, line, reply) })
}

/// Writes the rings as the bytes of a file, from the first byte of `out` on. `reply` gets how many bytes.
///
/// # Errors
///
/// 15 where any ring is empty, longer than 65,535 or reaches past the nodes; then 14 where `out` is too short
/// for all of them.
pub fn write_rings(
    rings: &FileLists,
    out: &mut [u8],
    reply: &mut [u64; WRITTEN_LENGTH],
) -> Result<(), Refusal> {
    // SAFETY: as in `lend`.
    answered(unsafe {
        ffi::tukmiheb_write_rings(
            rings.first.as_ptr(),
            rings.first.len(),
            rings.length.as_ptr(),
            rings.length.len(),
            rings.face.as_ptr(),
            rings.face.len(),
            rings.doubled.as_ptr(),
            rings.doubled.len(),
            rings.nodes.as_ptr(),
            rings.nodes.len(),
            out.as_mut_ptr(),
            out.len(),
            reply,
        )
    })
}

/// Reads the rings of a file, places closed up: each begins where the one before it ends. `reply` gets how
/// many rings and how many node numbers were written.
///
/// # Errors
///
/// The first record's refusal, 9, 10, 11 or 15; then 14 where there is too little room for all rings or for
/// all node numbers.
pub fn read_rings(
    bytes: &[u8],
    room: &mut FileRoom,
    reply: &mut [u64; READ_LENGTH],
) -> Result<(), Refusal> {
    // SAFETY: as in `lend`.
    answered(unsafe {
        ffi::tukmiheb_read_rings(
            bytes.as_ptr(),
            bytes.len(),
            room.first.as_mut_ptr(),
            room.first.len(),
            room.length.as_mut_ptr(),
            room.length.len(),
            room.face.as_mut_ptr(),
            room.face.len(),
            room.doubled.as_mut_ptr(),
            room.doubled.len(),
            room.nodes.as_mut_ptr(),
            room.nodes.len(),
            reply,
        )
    })
}

/// Compares the directions from a centre to two targets (`points`: x and y of the three). `reply`
/// gets 0 where the first comes before the second counterclockwise, 1 where they are the same, or 2.
///
/// # Errors
///
/// 1.
pub fn compare_angular(
    points: &[f64; POINTS_LENGTH],
    reply: &mut [u8; ORDER_LENGTH],
) -> Result<(), Refusal> {
    let [cx, cy, ax, ay, bx, by] = *points;
    // SAFETY: as in `lend`.
    answered(unsafe { ffi::tukmiheb_compare_angular(cx, cy, ax, ay, bx, by, reply) })
}

/// Finds the least rotation of a ring of keys; key i is (`xs[i]`, `ys[i]`). `reply` gets the place
/// at which it starts, and how often the search compared two keys.
///
/// # Errors
///
/// 8 where the lengths differ.
pub fn minimum_rotation_index(
    xs: &[u64],
    ys: &[u64],
    reply: &mut [usize; ROTATION_LENGTH],
) -> Result<(), Refusal> {
    // SAFETY: as in `lend`.
    answered(unsafe {
        ffi::tukmiheb_minimum_rotation_index(xs.as_ptr(), xs.len(), ys.as_ptr(), ys.len(), reply)
    })
}
