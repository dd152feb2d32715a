//! The oracle's result lists as they are lent to the library.

use oracle::state::{Hole, Lent, Lists};
use tukmiheb::entries::{HoleRecord, RingLists};

/// The list for edges, the six for rings, and the one for holes.
pub struct LentLists<'a> {
    pub edges: &'a mut [u16],
    pub rings: RingLists<'a>,
    pub holes: &'a mut [HoleRecord],
}

/// Lends the lists to a call. The hole records are copied into the library's own kind, and back.
pub fn lend_lists<T>(lists: &mut Lists, lent: &Lent, call: impl FnOnce(LentLists) -> T) -> T {
    let [edges, half_edges, first, length, face, side, area, holes] = lent.lists;
    let mut records: Vec<HoleRecord> = lists.holes.iter().map(packed).collect();
    let made = call(LentLists {
        edges: &mut lists.edges[..edges],
        rings: RingLists {
            half_edges: &mut lists.half_edges[..half_edges],
            first: &mut lists.ring_first[..first],
            length: &mut lists.ring_length[..length],
            face: &mut lists.ring_face[..face],
            side: &mut lists.ring_side[..side],
            area: &mut lists.ring_area[..area],
        },
        holes: &mut records[..holes],
    });
    lists.holes = records.iter().map(unpacked).collect();
    made
}

fn packed(hole: &Hole) -> HoleRecord {
    HoleRecord {
        ring: hole.ring,
        holder: hole.holder,
        doubled: hole.doubled,
    }
}

fn unpacked(record: &HoleRecord) -> Hole {
    Hole {
        ring: record.ring,
        holder: record.holder,
        doubled: record.doubled,
    }
}
