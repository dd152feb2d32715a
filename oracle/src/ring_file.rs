//! The ring file (document 02, §4), read and written a second time.

use crate::records::{self, Record, RING, RING_HEAD};
use crate::rules::{demand, Refusal};

/// A ring over a list of node numbers.
#[derive(Clone, Copy, Debug, PartialEq, Eq)]
pub struct Ring {
    pub first: usize,
    pub length: usize,
    pub face: u16,
    pub doubled: i64,
}

impl Ring {
    /// Its own node numbers, where it can be written.
    fn cut<'a>(&self, nodes: &'a [u16]) -> Option<&'a [u16]> {
        let end = self.first.checked_add(self.length)?;
        let own = nodes.get(self.first..end)?;
        (1..=usize::from(u16::MAX))
            .contains(&own.len())
            .then_some(own)
    }
}

/// The file of the rings: number 15 of any of them, then 14 where the room is too small.
pub fn write(rings: &[Ring], nodes: &[u16], room: usize) -> Result<Vec<u8>, Refusal> {
    let mut bytes = Vec::new();
    for ring in rings {
        let own = ring.cut(nodes).ok_or(Refusal::BadRing)?;
        bytes.extend(record(ring, own));
    }
    demand(bytes.len() <= room, Refusal::OutputTooShort)?;
    Ok(bytes)
}

fn record(ring: &Ring, own: &[u16]) -> Vec<u8> {
    let mut body = Vec::from(ring.face.to_le_bytes());
    body.extend((own.len() as u16).to_le_bytes());
    body.extend(ring.doubled.to_le_bytes());
    body.extend(own.iter().flat_map(|node| node.to_le_bytes()));
    records::record(RING, &body)
}

/// The rings of a file with their node numbers: the first refusal of a record, then 14.
pub fn read(bytes: &[u8], room: [usize; 2]) -> Result<(Vec<Ring>, Vec<u16>), Refusal> {
    let (mut rings, mut nodes) = (Vec::new(), Vec::new());
    for record in records::records(bytes) {
        let record = record?;
        if record.kind == RING {
            rings.push(taken(&record, &mut nodes)?);
        }
    }
    let fits = rings.len() <= room[0] && nodes.len() <= room[1];
    demand(fits, Refusal::OutputTooShort)?;
    Ok((rings, nodes))
}

/// The ring of a record, with its node numbers behind those taken before; or number 15.
fn taken(record: &Record, nodes: &mut Vec<u16>) -> Result<Ring, Refusal> {
    let (head, own) = record.body.split_at(RING_HEAD);
    let number = |at: usize| u16::from_le_bytes([head[at], head[at + 1]]);
    let count = usize::from(number(2));
    demand(count > 0 && own.len() == 2 * count, Refusal::BadRing)?;
    let ring = Ring {
        first: nodes.len(),
        length: count,
        face: number(0),
        doubled: i64::from_le_bytes(head[4..].try_into().expect("eight bytes")),
    };
    let pairs = own.chunks_exact(2);
    nodes.extend(pairs.map(|pair| u16::from_le_bytes([pair[0], pair[1]])));
    Ok(ring)
}
