//! Holes: which open rings lie in which compartment.

use crate::entries::HoleRecord;
use crate::layout::OUTSIDE;
use crate::{Graph, Ring, Rings};

/// An open ring, and the enclosed ring that it is a hole of.
///
/// Holders are the enclosed rings that have a test point of the open ring strictly inside, by the even-odd
/// rule: its node of least x, then least y, among those that the enclosed ring does not pass. Of several
/// holders the one of least area counts, then the one with the lower face number.
#[derive(Clone, Copy, Debug)]
pub struct Hole<'a> {
    /// The open ring.
    pub ring: Ring<'a>,
    /// Its holder, or none where it borders on the one outside.
    pub holder: Option<Ring<'a>>,
    /// The open ring's area, doubled, which is a whole number below 0.
    pub doubled: i64,
}

impl<'a> Hole<'a> {
    pub(crate) fn new(graph: &'a Graph, record: &HoleRecord) -> Self {
        let ring = |number: u16| Ring::new(graph, number.into());
        Hole {
            ring: ring(record.ring),
            holder: (record.holder != OUTSIDE).then(|| ring(record.holder)),
            doubled: record.doubled,
        }
    }
}

/// A compartment of the map: an enclosed ring, and the holes in it.
#[derive(Clone, Copy, Debug)]
pub struct Compartment<'a> {
    ring: Ring<'a>,
    rings: Rings<'a>,
}

impl<'a> Compartment<'a> {
    pub(crate) fn new(ring: Ring<'a>, rings: Rings<'a>) -> Self {
        Compartment { ring, rings }
    }

    /// Its outline.
    pub fn ring(&self) -> Ring<'a> {
        self.ring
    }

    /// The open rings that its outline holds, in ring order: the borders of its islands.
    pub fn holes(&self) -> impl Iterator<Item = Ring<'a>> {
        self.held().map(|hole| hole.ring)
    }

    /// The area within its outline without the islands. It is exact: doubled areas are whole numbers,
    /// and those of all rings together stay below 2⁵³. In a map whose segments cross without a node an
    /// island can reach out of its holder, so that this may be below 0.
    pub fn net_area(&self) -> f64 {
        let holes: i64 = self.held().map(|hole| hole.doubled).sum();
        let outline = 2.0 * self.ring.area();
        (outline + holes as f64) / 2.0
    }

    fn held(&self) -> impl Iterator<Item = Hole<'a>> {
        let outline = self.ring.number();
        let holds = move |hole: &Hole| hole.holder.is_some_and(|ring| ring.number() == outline);
        self.rings.holes().filter(holds)
    }
}
