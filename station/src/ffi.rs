//! The entries of the static library, as C sees them.
//!
//! A slice is two arguments, a pointer and a length; an array is one, a pointer to exactly its size.
//! Every entry answers 0, or the number of its refusal, after which nothing lent has been written.
//! An entry reads and writes within the lengths, whatever the slices hold, and keeps none of the
//! pointers. It only reads what is `const`.

use crate::entries::{
    HoleRecord, ADDED_LENGTH, CENSUS_LENGTH, COUNT_LENGTH, FILE_LENGTH, ORDER_LENGTH, READ_LENGTH,
    RECORD_LENGTH, RINGS_LENGTH, ROTATION_LENGTH, STATE_LENGTH, WRITTEN_LENGTH,
};
use crate::layout::SEGMENT_FLOATS;

/// Declares an entry that is lent the state and the five slices, between its other arguments: those in
/// brackets come before the state.
macro_rules! graph_entry {
    (
        $name:ident $([$($first:ident: $first_type:ty),*])? ($($before:ident: $before_type:ty),*),
        $floats:tt floats, $numbers:tt numbers, $stars:tt stars, $marks:tt marks, $ids:tt ids,
        ($($after:ident: $after_type:ty),*)
    ) => {
        extern "C" {
            pub fn $name(
                $($($first: $first_type,)*)?
                state: *mut [u16; STATE_LENGTH],
                $($before: $before_type,)*
                floats: *$floats f64,
                floats_length: usize,
                numbers: *$numbers u16,
                numbers_length: usize,
                stars: *$stars u16,
                stars_length: usize,
                marks: *$marks u8,
                marks_length: usize,
                ids: *$ids u32,
                ids_length: usize,
                $($after: $after_type,)*
            ) -> u32;
        }
    };
}

// ---- station_building

graph_entry!(
    tukmiheb_create(),
    const floats, const numbers, const stars, const marks, const ids,
    ()
);
graph_entry!(
    tukmiheb_add_line(x1: f64, y1: f64, z1: f64, x2: f64, y2: f64, z2: f64, line_id: u32),
    mut floats, mut numbers, mut stars, mut marks, mut ids,
    (reply: *mut [u16; ADDED_LENGTH])
);

// ---- station_files

graph_entry!(
    tukmiheb_add_records(bytes: *const u8, bytes_length: usize),
    mut floats, mut numbers, mut stars, mut marks, mut ids,
    (reply: *mut [u64; FILE_LENGTH])
);

// ---- station_ring_files

extern "C" {
    pub fn tukmiheb_write_rings(
        ring_first: *const usize,
        ring_first_length: usize,
        ring_length: *const usize,
        ring_length_length: usize,
        ring_face: *const u16,
        ring_face_length: usize,
        ring_doubled: *const i64,
        ring_doubled_length: usize,
        nodes: *const u16,
        nodes_length: usize,
        out: *mut u8,
        out_length: usize,
        reply: *mut [u64; WRITTEN_LENGTH],
    ) -> u32;

    pub fn tukmiheb_read_rings(
        bytes: *const u8,
        bytes_length: usize,
        ring_first: *mut usize,
        ring_first_length: usize,
        ring_length: *mut usize,
        ring_length_length: usize,
        ring_face: *mut u16,
        ring_face_length: usize,
        ring_doubled: *mut i64,
        ring_doubled_length: usize,
        nodes: *mut u16,
        nodes_length: usize,
        reply: *mut [u64; READ_LENGTH],
    ) -> u32;
}

// ---- station_steps

graph_entry!(
    tukmiheb_sort_edges(),
    const floats, const numbers, mut stars, const marks, const ids,
    ()
);
graph_entry!(
    tukmiheb_reset(),
    const floats, const numbers, mut stars, mut marks, const ids,
    ()
);

// ---- station_cuts

graph_entry!(
    tukmiheb_prune_dangles(),
    const floats, const numbers, mut stars, mut marks, const ids,
    (dangles: *mut u16, dangles_length: usize, reply: *mut [u16; COUNT_LENGTH])
);
graph_entry!(
    tukmiheb_delete_cut_edges(),
    const floats, const numbers, const stars, mut marks, const ids,
    (cuts: *mut u16, cuts_length: usize, reply: *mut [u16; CENSUS_LENGTH])
);

// ---- station_rings

graph_entry!(
    tukmiheb_extract_rings[holes: *mut HoleRecord, holes_length: usize](),
    const floats, const numbers, const stars, const marks, const ids,
    (
        half_edges: *mut u16,
        half_edges_length: usize,
        ring_first: *mut u16,
        ring_first_length: usize,
        ring_length: *mut u16,
        ring_length_length: usize,
        ring_face: *mut u16,
        ring_face_length: usize,
        ring_side: *mut u8,
        ring_side_length: usize,
        ring_area: *mut f64,
        ring_area_length: usize,
        reply: *mut [u16; RINGS_LENGTH]
    )
);

// ---- station_questions

extern "C" {
    pub fn tukmiheb_compare_angular(
        cx: f64,
        cy: f64,
        ax: f64,
        ay: f64,
        bx: f64,
        by: f64,
        reply: *mut [u8; ORDER_LENGTH],
    ) -> u32;

    pub fn tukmiheb_minimum_rotation_index(
        xs: *const u64,
        xs_length: usize,
        ys: *const u64,
        ys_length: usize,
        reply: *mut [usize; ROTATION_LENGTH],
    ) -> u32;

    pub fn tukmiheb_read_record(
        bytes: *const u8,
        bytes_length: usize,
        at: usize,
        line: *mut [f64; SEGMENT_FLOATS],
        reply: *mut [u64; RECORD_LENGTH],
    ) -> u32;
}
