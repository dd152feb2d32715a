//! Segment files.

use crate::entries::{self, AT_END, PASSED_OVER, RECORD_LENGTH};
use crate::graph::Line3D;
use crate::layout::SEGMENT_FLOATS;
use crate::Refusal;
use std::iter::FusedIterator;

/// The segments of a file's bytes, in their order. Rings and records of kinds 3 to 15 are passed over. After a
/// refusal, or at the end, it ends.
///
/// A NaN as z is read as some NaN: its own bits are not kept.
pub fn segments(bytes: &[u8]) -> Segments<'_> {
    Segments { bytes, at: Some(0) }
}

/// See [`segments`].
#[derive(Clone, Debug)]
pub struct Segments<'a> {
    bytes: &'a [u8],
    at: Option<usize>,
}

impl Iterator for Segments<'_> {
    type Item = Result<Line3D, Refusal>;

    fn next(&mut self) -> Option<Self::Item> {
        let mut at = self.at.take()?;
        let mut line = [0.0; SEGMENT_FLOATS];
        let mut reply = [0; RECORD_LENGTH];
        loop {
            if let Err(refusal) = entries::read_record(self.bytes, at, &mut line, &mut reply) {
                return Some(Err(refusal));
            }
            let [what, line_id, next] = reply;
            at = next as usize;
            match what {
                AT_END => return None,
                PASSED_OVER => continue,
                _ => {
                    self.at = Some(at);
                    return Some(Ok(Line3D::from_values(line, line_id as u32)));
                }
            }
        }
    }
}

impl FusedIterator for Segments<'_> {}
