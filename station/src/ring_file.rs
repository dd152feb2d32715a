//! Ring files: a finished map, kept and opened again.

use crate::entries::{self, FileLists, FileRoom, READ_LENGTH, WRITTEN_LENGTH};
use crate::graph::{FaceId, NodeId};
use crate::{Refusal, Rings};

/// What a ring takes in a file besides its nodes: a length, a kind, a face number, a count and a doubled area.
const HEAD_BYTES: usize = 4 + 2 + 2 + 2 + 8;

/// What each of its nodes takes.
const NODE_BYTES: usize = 2;

/// The rings of a file, in its order. See [`read_rings`].
#[derive(Clone, Debug, Default, PartialEq, Eq)]
pub struct FileRings {
    first: Vec<usize>,
    length: Vec<usize>,
    face: Vec<u16>,
    doubled: Vec<i64>,
    nodes: Vec<NodeId>,
}

/// A ring of a file.
#[derive(Clone, Copy, Debug, PartialEq, Eq)]
pub struct FileRing<'a> {
    /// The number of its face.
    pub face: FaceId,
    /// Its area, doubled: above 0 where enclosed, below 0 where open, 0 where flat.
    pub doubled: i64,
    /// Its nodes, in their order. The first is not repeated at the end.
    pub nodes: &'a [NodeId],
}

/// The rings of a file that [`Rings::write`](crate::Rings::write), or any other writer of the same
/// records, has made. Segments and records of kinds 3 to 15 are passed over. Nothing ties face numbers,
/// areas and nodes to a graph: they are what the file says.
///
/// # Errors
///
/// The first record's refusal: 9, 10 or 11 for its length and kind, 15 for its count of nodes.
pub fn read_rings(bytes: &[u8]) -> Result<FileRings, Refusal> {
    // A ring has a node at least, so this room is always enough, and 14 never comes.
    let rings = bytes.len() / (HEAD_BYTES + NODE_BYTES);
    let mut first = vec![0; rings];
    let mut length = vec![0; rings];
    let mut face = vec![0; rings];
    let mut doubled = vec![0; rings];
    let mut nodes = vec![0; bytes.len() / NODE_BYTES];
    let mut reply = [0; READ_LENGTH];
    let mut room = FileRoom {
        first: &mut first,
        length: &mut length,
        face: &mut face,
        doubled: &mut doubled,
        nodes: &mut nodes,
    };
    entries::read_rings(bytes, &mut room, &mut reply)?;
    let [rings, count] = reply.map(|count| count as usize);
    first.truncate(rings);
    length.truncate(rings);
    face.truncate(rings);
    doubled.truncate(rings);
    Ok(FileRings {
        first,
        length,
        face,
        doubled,
        nodes: nodes[..count].iter().copied().map(NodeId).collect(),
    })
}

impl FileRings {
    /// How many rings there are.
    pub fn len(&self) -> usize {
        self.first.len()
    }

    /// Whether there is none.
    pub fn is_empty(&self) -> bool {
        self.first.is_empty()
    }

    /// The ring with this number, if there is one.
    pub fn get(&self, number: usize) -> Option<FileRing<'_>> {
        let first = *self.first.get(number)?;
        Some(FileRing {
            face: FaceId(self.face[number]),
            doubled: self.doubled[number],
            nodes: &self.nodes[first..first + self.length[number]],
        })
    }

    /// The rings by their numbers.
    pub fn iter(&self) -> impl ExactSizeIterator<Item = FileRing<'_>> {
        (0..self.len()).map(|number| self.get(number).expect("one of the rings"))
    }
}

impl Rings<'_> {
    /// The rings as a ring file, in ring order, each with its face number, its doubled area and its nodes.
    /// [`read_rings`] opens it again.
    pub fn write(&self) -> Vec<u8> {
        let (mut first, mut length, mut nodes) = (Vec::new(), Vec::new(), Vec::new());
        for ring in self.iter() {
            let start = nodes.len();
            nodes.extend(ring.nodes().map(|node| node.0));
            first.push(start);
            length.push(nodes.len() - start);
        }
        let face: Vec<u16> = self.iter().map(|ring| ring.face().0).collect();
        let doubled: Vec<i64> = self.iter().map(|ring| ring.doubled()).collect();
        let lists = FileLists {
            first: &first,
            length: &length,
            face: &face,
            doubled: &doubled,
            nodes: &nodes,
        };
        let mut file = vec![0; HEAD_BYTES * self.len() + NODE_BYTES * nodes.len()];
        let mut reply = [0; WRITTEN_LENGTH];
        let written = entries::write_rings(&lists, &mut file, &mut reply);
        written.expect("the rings of a map can be written");
        file
    }
}
