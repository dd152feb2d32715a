//! Files of records (document 02, §4), read a second time: here each record is cut from the front of
//! the bytes, where the library goes by places.

use crate::original::{Coord3D, Line3D};
use crate::rules::{demand, Refusal};

/// The kinds that say something: a segment and a ring. Those up to [`LAST_KIND`] are skipped.
pub const SEGMENT: u16 = 1;
pub const RING: u16 = 2;
pub const LAST_KIND: u16 = 15;

/// What a segment has behind its kind: a line id and six floats.
const SEGMENT_BODY: usize = 4 + 6 * 8;

/// What every ring has behind its kind: a face number, a count and a doubled area.
pub const RING_HEAD: usize = 2 + 2 + 8;

/// A whole record: its kind and what stands behind it.
#[derive(Clone, Copy, Debug, PartialEq)]
pub struct Record<'a> {
    pub kind: u16,
    pub body: &'a [u8],
}

/// The record in front with the bytes behind it, nothing where no byte is left, or one of numbers 9,
/// 10 and 11.
pub fn next(bytes: &[u8]) -> Result<Option<(Record<'_>, &[u8])>, Refusal> {
    if bytes.is_empty() {
        return Ok(None);
    }
    let (length, rest) = bytes.split_first_chunk().ok_or(Refusal::RecordShort)?;
    let length = u32::from_le_bytes(*length) as usize;
    let cut = rest.split_at_checked(length);
    let (record, rest) = cut.ok_or(Refusal::RecordShort)?;
    let (kind, body) = record.split_first_chunk().ok_or(Refusal::RecordLength)?;
    let kind = u16::from_le_bytes(*kind);
    let fits = match kind {
        SEGMENT => body.len() == SEGMENT_BODY,
        RING => body.len() >= RING_HEAD,
        _ => true,
    };
    demand(fits, Refusal::RecordLength)?;
    demand((SEGMENT..=LAST_KIND).contains(&kind), Refusal::RecordKind)?;
    Ok(Some((Record { kind, body }, rest)))
}

/// The records of a file up to its end or to the first that is refused.
pub fn records(bytes: &[u8]) -> impl Iterator<Item = Result<Record<'_>, Refusal>> {
    let mut left = Some(bytes);
    std::iter::from_fn(move || match next(left.take()?) {
        Ok(None) => None,
        Ok(Some((record, rest))) => {
            left = Some(rest);
            Some(Ok(record))
        }
        Err(refusal) => Some(Err(refusal)),
    })
}

impl Record<'_> {
    /// Its segment, where it is one.
    pub fn segment(&self) -> Option<Line3D> {
        if self.kind != SEGMENT {
            return None;
        }
        let body: &[u8; SEGMENT_BODY] = self.body.try_into().ok()?;
        let float = |at: usize| f64::from_le_bytes(body[at..at + 8].try_into().unwrap());
        let point = |at: usize| Coord3D::new(float(at), float(at + 8), float(at + 16));
        Some(Line3D {
            start: point(4),
            end: point(28),
            line_id: u32::from_le_bytes(body[..4].try_into().unwrap()),
        })
    }
}

/// A record's bytes.
pub fn record(kind: u16, body: &[u8]) -> Vec<u8> {
    let length = u32::try_from(2 + body.len()).expect("a body of less than 4 GiB");
    [&length.to_le_bytes()[..], &kind.to_le_bytes(), body].concat()
}

/// A segment's record.
pub fn segment(line: &Line3D) -> Vec<u8> {
    let ends = [line.start, line.end].map(|end| [end.x, end.y, end.z]);
    let floats = ends.concat();
    let floats = floats.iter().flat_map(|value| value.to_le_bytes());
    let body: Vec<u8> = line
        .line_id
        .to_le_bytes()
        .into_iter()
        .chain(floats)
        .collect();
    record(SEGMENT, &body)
}
