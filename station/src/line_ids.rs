//! The line ids behind an edge.

use crate::layout::{LINKS, LIST_END, LIST_PLACES, PAIR_IDS, PAIR_LIMIT};
use std::iter::FusedIterator;

/// The ids of all segments that were added along an edge, rising and without repeats. See
/// [`Graph::line_ids`](crate::Graph::line_ids).
///
/// It follows the edge's list through the table of pairs. That it ends does not rest on the list: a
/// place past the table ends it, and so does a pair more than the table has.
#[derive(Clone, Debug)]
pub struct LineIds<'a> {
    /// Of each pair its line id, and the place of the next one.
    ids: &'a [u32],
    links: &'a [u16],
    /// Where the next id stands.
    place: u16,
    /// How many pairs may still be passed.
    left: usize,
}

impl<'a> LineIds<'a> {
    /// Of an edge that there is, or of none.
    pub(crate) fn new(numbers: &'a [u16], ids: &'a [u32], edge: Option<usize>) -> Self {
        LineIds {
            ids: &ids[PAIR_IDS..][..PAIR_LIMIT],
            links: &numbers[LINKS..][..PAIR_LIMIT],
            place: edge.map_or(LIST_END, |edge| numbers[LIST_PLACES + edge]),
            left: PAIR_LIMIT,
        }
    }
}

impl Iterator for LineIds<'_> {
    type Item = u32;

    fn next(&mut self) -> Option<u32> {
        let place = usize::from(self.place);
        // LIST_END lies past the table too.
        let (&id, &next) = (self.ids.get(place)?, self.links.get(place)?);
        self.left = self.left.checked_sub(1)?;
        self.place = next;
        Some(id)
    }
}

impl FusedIterator for LineIds<'_> {}

/// Lists that the library would refuse.
#[cfg(test)]
mod tests {
    use super::*;
    use crate::layout::{IDS, NUMBERS};

    /// The ids of edge 1, whose list begins at a place and has these pairs: place, id, next place.
    fn listed(first: u16, pairs: &[(u16, u32, u16)]) -> Vec<u32> {
        let (mut numbers, mut ids) = (vec![0; NUMBERS], vec![0; IDS]);
        numbers[LIST_PLACES + 1] = first;
        for &(place, id, next) in pairs {
            ids[PAIR_IDS + usize::from(place)] = id;
            numbers[LINKS + usize::from(place)] = next;
        }
        LineIds::new(&numbers, &ids, Some(1)).collect()
    }

    #[test]
    fn a_sound_list() {
        let last = PAIR_LIMIT as u16 - 1;
        let pairs = [(last, 3, 0), (0, 4, 7), (7, 5, LIST_END)];
        assert_eq!(listed(last, &pairs), [3, 4, 5]);
    }

    #[test]
    fn no_list() {
        assert_eq!(listed(LIST_END, &[]), []);
        let (numbers, ids) = (vec![0; NUMBERS], vec![0; IDS]);
        assert_eq!(LineIds::new(&numbers, &ids, None).next(), None);
    }

    #[test]
    fn places_past_the_table_end_it() {
        let past = PAIR_LIMIT as u16;
        for place in [past, past + 1, LIST_END - 1] {
            assert_eq!(listed(place, &[]), []);
            assert_eq!(listed(4, &[(4, 9, place)]), [9]);
        }
    }

    /// Cycles of one and of three pairs: as many ids as the table has pairs, and then none.
    #[test]
    fn cycles_end() {
        assert_eq!(listed(2, &[(2, 9, 2)]), [9; PAIR_LIMIT]);
        let around = listed(0, &[(0, 1, 1), (1, 2, 2), (2, 3, 0)]);
        assert_eq!(around.len(), PAIR_LIMIT);
        assert!(around.iter().eq([1, 2, 3].iter().cycle().take(PAIR_LIMIT)));
    }

    #[test]
    fn after_the_end_there_is_nothing() {
        let (numbers, ids) = (vec![0; NUMBERS], vec![0; IDS]);
        // Every place is followed by place 0.
        let mut around = LineIds::new(&numbers, &ids, Some(0));
        assert_eq!(around.by_ref().count(), PAIR_LIMIT);
        assert_eq!(around.next(), None);
        assert_eq!(around.next(), None);
    }
}
