//! Ring files: a map is written and opened again, beside other records, and damaged files are refused.

use tukmiheb::entries::{self, FileLists, FileRoom, READ_LENGTH, WRITTEN_LENGTH};
use tukmiheb::{read_rings, segments, FileRings, Graph, NodeId, Refusal, Rings, TissueMap};

const WAIST: &[u8] = include_bytes!("../../samples/waist.seg");

/// Document 01's map: a triangle. Its file, worked by hand.
#[rustfmt::skip]
const TRIANGLE: [u8; 48] = [
    20, 0, 0, 0, 2, 0, 1, 0, 3, 0, 12, 0, 0, 0, 0, 0, 0, 0, 0, 0, 1, 0, 2, 0,
    20, 0, 0, 0, 2, 0, 0, 0, 3, 0, 0xf4, 0xff, 0xff, 0xff, 0xff, 0xff, 0xff, 0xff, 1, 0, 0, 0, 2, 0,
];

fn waist() -> TissueMap {
    Graph::polygonize(WAIST).expect("a sound file")
}

/// A record of this kind, with its length before it.
fn record(kind: u8, body: &[u8]) -> Vec<u8> {
    let length = 2 + body.len() as u32;
    [&length.to_le_bytes()[..], &[kind, 0], body].concat()
}

fn same(rings: Rings, kept: &FileRings) -> bool {
    rings.len() == kept.len()
        && rings.into_iter().zip(kept.iter()).all(|(ring, kept)| {
            ring.face() == kept.face
                && 2.0 * ring.area() == kept.doubled as f64
                && ring.nodes().eq(kept.nodes.iter().copied())
        })
}

/// What the program `polygonize` wrote for the sample is the map's own file.
#[test]
fn the_program() {
    const STORED: &[u8] = include_bytes!("../../crates/polygonize/stdout");
    assert_eq!(include_bytes!("../../crates/polygonize/stdin"), WAIST);
    let map = waist();
    let kept = read_rings(STORED).expect("a ring file");
    assert!(same(map.rings(), &kept));
    assert_eq!(map.rings().write(), STORED);
}

#[test]
fn the_triangle() {
    let kept = read_rings(&TRIANGLE).expect("a sound file");
    let found: Vec<_> = kept
        .iter()
        .map(|ring| (ring.face.0, ring.doubled))
        .collect();
    assert_eq!(found, [(1, 12), (0, -12)]);
    assert_eq!(kept.get(1).expect("two rings").nodes, [1, 0, 2].map(NodeId));
    assert_eq!(kept.get(2), None);
    let mut bytes = [7; 49];
    let mut written = [0; WRITTEN_LENGTH];
    let lists = FileLists {
        first: &[0, 3],
        length: &[3, 3],
        face: &[1, 0],
        doubled: &[12, -12],
        nodes: &[0, 1, 2, 1, 0, 2],
    };
    assert_eq!(
        entries::write_rings(&lists, &mut bytes, &mut written),
        Ok(())
    );
    assert_eq!((&bytes[..48], bytes[48], written), (&TRIANGLE[..], 7, [48]));
}

#[test]
fn a_map_opened_again() {
    let map = waist();
    let file = map.rings().write();
    let kept = read_rings(&file).expect("the map's own file");
    assert!(same(map.rings(), &kept));
    assert_eq!(kept.iter().map(|ring| ring.doubled).sum::<i64>(), 0);
    let nothing = Graph::polygonize(&[]).expect("no record");
    assert_eq!(nothing.rings().write(), []);
    assert!(read_rings(&[]).expect("no record").is_empty());
}

/// A tracing and its rings in one file, with a record of each kind that is skipped: each reader finds its own.
#[test]
fn one_file_for_both() {
    let map = waist();
    let mut file = map.rings().write();
    for kind in 3..16 {
        file.extend(record(kind, &vec![kind; usize::from(kind)]));
    }
    file.extend(WAIST);
    assert!(same(
        map.rings(),
        &read_rings(&file).expect("sound records")
    ));
    assert!(segments(&file).eq(segments(WAIST)));
    let again = Graph::polygonize(&file).expect("sound records");
    assert_eq!(again.rings().write(), map.rings().write());
    // The number of a refused record counts those passed over.
    let passed = map.rings().len() + 13;
    let refused = Graph::polygonize(&file[..file.len() - 1]).unwrap_err();
    assert_eq!(refused.record, passed + 25);
    assert_eq!(refused.refusal, Refusal::RecordShort);
    file.extend(record(16, &[]));
    assert_eq!(read_rings(&file), Err(Refusal::RecordKind));
    assert_eq!(segments(&file).last(), Some(Err(Refusal::RecordKind)));
}

#[test]
fn damaged_files() {
    let damaged = |place: usize, value: u8| {
        let mut file = TRIANGLE;
        file[place] = value;
        read_rings(&file).map(|kept| kept.len())
    };
    assert_eq!(damaged(24, 21), Err(Refusal::RecordShort));
    assert_eq!(damaged(0, 13), Err(Refusal::RecordLength));
    assert_eq!(damaged(4, 1), Err(Refusal::RecordLength));
    assert_eq!(damaged(4, 0), Err(Refusal::RecordKind));
    assert_eq!(damaged(5, 1), Err(Refusal::RecordKind));
    assert_eq!(damaged(8, 0), Err(Refusal::BadRing));
    assert_eq!(damaged(32, 2), Err(Refusal::BadRing));
    assert_eq!(damaged(28, 3), Ok(1));
    for end in [1, 3, 4, 23, 25, 47] {
        let cut = read_rings(&TRIANGLE[..end]);
        assert_eq!(cut, Err(Refusal::RecordShort), "{end} bytes");
    }
}

/// Too little room is refused before anything is written.
#[test]
fn too_little_room() {
    let mut lists = ([9; 2], [9; 2], [9; 2], [9; 2], [9; 6]);
    let mut reply = [9; READ_LENGTH];
    for [first, length, face, doubled, nodes] in [
        [1, 2, 2, 2, 6],
        [2, 1, 2, 2, 6],
        [2, 2, 1, 2, 6],
        [2, 2, 2, 1, 6],
        [2, 2, 2, 2, 5],
    ] {
        let mut room = FileRoom {
            first: &mut lists.0[..first],
            length: &mut lists.1[..length],
            face: &mut lists.2[..face],
            doubled: &mut lists.3[..doubled],
            nodes: &mut lists.4[..nodes],
        };
        let read = entries::read_rings(&TRIANGLE, &mut room, &mut reply);
        assert_eq!(read, Err(Refusal::OutputTooShort));
    }
    assert_eq!(lists, ([9; 2], [9; 2], [9; 2], [9; 2], [9; 6]));
    assert_eq!(reply, [9; READ_LENGTH]);
}
