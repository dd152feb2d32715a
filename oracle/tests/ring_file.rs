//! Ring files and files of mixed records, worked by hand (document 02, §4).

use oracle::records::{self, record, Record};
use oracle::ring_file::{read, write, Ring};
use oracle::rules::Refusal;

const fn ring(first: usize, length: usize, face: u16, doubled: i64) -> Ring {
    Ring {
        first,
        length,
        face,
        doubled,
    }
}

/// The rings of document 01's map, and their file.
const RINGS: [Ring; 2] = [ring(0, 3, 1, 12), ring(3, 3, 0, -12)];
const NODES: [u16; 6] = [0, 1, 2, 1, 0, 2];
#[rustfmt::skip]
const FILE: [u8; 48] = [
    20, 0, 0, 0, 2, 0, 1, 0, 3, 0, 12, 0, 0, 0, 0, 0, 0, 0, 0, 0, 1, 0, 2, 0,
    20, 0, 0, 0, 2, 0, 0, 0, 3, 0, 0xf4, 0xff, 0xff, 0xff, 0xff, 0xff, 0xff, 0xff, 1, 0, 0, 0, 2, 0,
];

#[test]
fn written_and_read_back() {
    assert_eq!(write(&RINGS, &NODES, 48), Ok(FILE.to_vec()));
    assert_eq!(write(&RINGS, &NODES, 47), Err(Refusal::OutputTooShort));
    assert_eq!(read(&FILE, [2, 6]), Ok((RINGS.to_vec(), NODES.to_vec())));
    for room in [[1, 6], [2, 5], [0, 0]] {
        assert_eq!(read(&FILE, room), Err(Refusal::OutputTooShort));
    }
    assert_eq!(write(&[], &[], 0), Ok(Vec::new()));
    assert_eq!(read(&[], [0, 0]), Ok((Vec::new(), Vec::new())));
}

/// Rings may overlap and leave gaps; read back, their places are closed up.
#[test]
fn places_closed_up() {
    let rings = [ring(4, 2, 7, -1), ring(3, 2, 7, 1)];
    let file = write(&rings, &NODES, 100).expect("two rings");
    let closed = vec![ring(0, 2, 7, -1), ring(2, 2, 7, 1)];
    assert_eq!(read(&file, [2, 4]), Ok((closed, vec![0, 2, 1, 0])));
}

#[test]
fn rings_that_cannot_be_written() {
    let many = vec![0; 65_536];
    for bad in [
        ring(0, 0, 0, 0),
        ring(0, 65_536, 0, 0),
        ring(65_535, 2, 0, 0),
        ring(usize::MAX, 1, 0, 0),
    ] {
        assert_eq!(write(&[RINGS[0], bad], &many, 0), Err(Refusal::BadRing));
    }
    assert!(write(&[ring(1, 65_535, 0, 0)], &many, 131_088).is_ok());
}

/// The last record that is looked at.
fn last(bytes: &[u8]) -> Result<Record<'_>, Refusal> {
    records::records(bytes).last().expect("a record")
}

#[test]
fn records_that_are_refused() {
    for (bytes, refusal) in [
        (&[20, 0, 0][..], Refusal::RecordShort),
        (&[1, 0, 0, 0], Refusal::RecordShort),
        (&[13, 0, 0, 0, 2, 0], Refusal::RecordShort),
        (&[0, 0, 0, 0], Refusal::RecordLength),
        (&[1, 0, 0, 0, 0], Refusal::RecordLength),
        (&[2, 0, 0, 0, 1, 0], Refusal::RecordLength),
        (&[2, 0, 0, 0, 2, 0], Refusal::RecordLength),
        (&[2, 0, 0, 0, 0, 0], Refusal::RecordKind),
        (&[2, 0, 0, 0, 16, 0], Refusal::RecordKind),
        (&[2, 0, 0, 0, 3, 1], Refusal::RecordKind),
    ] {
        assert_eq!(last(bytes), Err(refusal), "{bytes:?}");
        let behind = [&record(7, &[1, 255, 2]), bytes].concat();
        assert_eq!(records::records(&behind).count(), 2);
        assert_eq!(last(&behind), Err(refusal), "{bytes:?}");
    }
    for kind in 3..16 {
        assert!(last(&record(kind, &[])).is_ok());
    }
}

/// Number 15 is the ring reader's own: a reader that passes a ring over does not test it.
#[test]
fn rings_that_cannot_be_read() {
    let empty = record(2, &[0; 12]);
    let odd = record(2, &[0; 13]);
    let long = record(2, &[0, 0, 2, 0, 0, 0, 0, 0, 0, 0, 0, 0, 9, 9]);
    for bad in [empty, odd, long] {
        assert_eq!(read(&bad, [9, 9]), Err(Refusal::BadRing));
        assert!(records::records(&bad).all(|record| record.is_ok()));
        let before = [bad.as_slice(), &[1]].concat();
        assert_eq!(read(&before, [0, 0]), Err(Refusal::BadRing));
    }
    assert_eq!(
        read(&[&FILE[..], &[1]].concat(), [0, 0]),
        Err(Refusal::RecordShort)
    );
}

#[test]
fn records_passed_over() {
    let segment = record(1, &[0; 52]);
    let mixed = [&record(3, &[])[..], &FILE, &segment, &record(15, &[4])].concat();
    assert_eq!(read(&mixed, [2, 6]), Ok((RINGS.to_vec(), NODES.to_vec())));
    let segments = records::records(&mixed).map(|record| record.expect("a record").segment());
    let found: Vec<bool> = segments.map(|segment| segment.is_some()).collect();
    assert_eq!(found, [false, false, false, true, false]);
}
