//! The least-rotation search with its comparisons counted. The original says only where its search
//! ends, so that search is run on entries that count: each call of their `cmp` is one comparison.

use crate::original::minimum_rotation_index;
use std::cell::Cell;
use std::cmp::Ordering;

/// Where the least rotation of a ring of entries starts, and how often the search compared two of
/// them.
#[derive(Clone, Copy, Debug, PartialEq, Eq)]
pub struct Rotation {
    pub place: usize,
    pub comparisons: usize,
}

/// The least rotation, by the original's search.
pub fn least_rotation<T: Ord>(ring: &[T]) -> Rotation {
    let comparisons = Cell::new(0);
    let counted = |entry| Counted {
        entry,
        comparisons: &comparisons,
    };
    let place = minimum_rotation_index(&ring.iter().map(counted).collect::<Vec<_>>());
    Rotation {
        place,
        comparisons: comparisons.get(),
    }
}

/// An entry that adds to its ring's count where it is compared.
struct Counted<'a, T> {
    entry: &'a T,
    comparisons: &'a Cell<usize>,
}

impl<T: Ord> Ord for Counted<'_, T> {
    fn cmp(&self, other: &Self) -> Ordering {
        self.comparisons.set(self.comparisons.get() + 1);
        self.entry.cmp(other.entry)
    }
}

// The search asks for no more than `cmp`; `Ord` wants these three beside it.
impl<T: Ord> PartialOrd for Counted<'_, T> {
    fn partial_cmp(&self, other: &Self) -> Option<Ordering> {
        Some(self.cmp(other))
    }
}

impl<T: Ord> PartialEq for Counted<'_, T> {
    fn eq(&self, other: &Self) -> bool {
        self.cmp(other) == Ordering::Equal
    }
}

impl<T: Ord> Eq for Counted<'_, T> {}
