//! Ring files: the library's writer and reader beside the oracle's second ones. Every list is lent with entries
//! past what is written, which have to stay, and after a refusal all of them.

use comparison::random::Random;
use oracle::records::record;
use oracle::ring_file::{self, Ring};
use tukmiheb::entries::{self, FileLists, FileRoom, READ_LENGTH, WRITTEN_LENGTH};
use tukmiheb::Refusal;

/// A list of rings as it is lent: four lists side by side, over one of node numbers.
#[derive(Clone, Debug, PartialEq)]
struct Lists {
    first: Vec<usize>,
    length: Vec<usize>,
    face: Vec<u16>,
    doubled: Vec<i64>,
    nodes: Vec<u16>,
}

impl Lists {
    fn of(rings: &[Ring], nodes: &[u16]) -> Self {
        Lists {
            first: rings.iter().map(|ring| ring.first).collect(),
            length: rings.iter().map(|ring| ring.length).collect(),
            face: rings.iter().map(|ring| ring.face).collect(),
            doubled: rings.iter().map(|ring| ring.doubled).collect(),
            nodes: nodes.to_vec(),
        }
    }

    /// Room that holds other things, with so many entries in each list.
    fn room([first, length, face, doubled, nodes]: [usize; 5]) -> Self {
        Lists {
            first: vec![usize::MAX - 7; first],
            length: vec![usize::MAX - 8; length],
            face: vec![0xdddd; face],
            doubled: vec![i64::MIN + 9; doubled],
            nodes: vec![0xeeee; nodes],
        }
    }

    fn count(&self) -> usize {
        let lengths = [self.length.len(), self.face.len(), self.doubled.len()];
        lengths.into_iter().fold(self.first.len(), usize::min)
    }

    fn rings(&self) -> Vec<Ring> {
        let ring = |place: usize| Ring {
            first: self.first[place],
            length: self.length[place],
            face: self.face[place],
            doubled: self.doubled[place],
        };
        (0..self.count()).map(ring).collect()
    }

    /// These rings and node numbers over the front of each list.
    fn overwrite(&mut self, rings: &[Ring], nodes: &[u16]) {
        let new = Lists::of(rings, nodes);
        self.first[..rings.len()].copy_from_slice(&new.first);
        self.length[..rings.len()].copy_from_slice(&new.length);
        self.face[..rings.len()].copy_from_slice(&new.face);
        self.doubled[..rings.len()].copy_from_slice(&new.doubled);
        self.nodes[..nodes.len()].copy_from_slice(nodes);
    }
}

fn numbered<T>(answer: Result<T, Refusal>) -> Result<T, u32> {
    answer.map_err(|refusal| refusal.number())
}

/// Both writers, with so many bytes of room; the file, or the number of the refusal.
fn write(lists: &Lists, room: usize) -> Result<Vec<u8>, u32> {
    let mut out = vec![0xab; room];
    let mut reply = [u64::MAX; WRITTEN_LENGTH];
    let lent = FileLists {
        first: &lists.first,
        length: &lists.length,
        face: &lists.face,
        doubled: &lists.doubled,
        nodes: &lists.nodes,
    };
    let answer = numbered(entries::write_rings(&lent, &mut out, &mut reply));
    let expected = ring_file::write(&lists.rings(), &lists.nodes, room);
    let expected = expected.map_err(|refusal| refusal.number());
    let mut left = vec![0xab; room];
    let mut count = [u64::MAX; WRITTEN_LENGTH];
    if let Ok(file) = &expected {
        left[..file.len()].copy_from_slice(file);
        count = [file.len() as u64];
    }
    assert_eq!(answer, expected.as_ref().map(|_| ()).map_err(|&n| n));
    assert!(out == left && reply == count, "{lists:?} in {room} bytes");
    expected
}

/// Both readers, with so many entries of room; how many rings and node numbers, or the number of the refusal.
fn read(bytes: &[u8], room: [usize; 5]) -> Result<[usize; 2], u32> {
    let mut lists = Lists::room(room);
    let mut reply = [u64::MAX; READ_LENGTH];
    let mut lent = FileRoom {
        first: &mut lists.first,
        length: &mut lists.length,
        face: &mut lists.face,
        doubled: &mut lists.doubled,
        nodes: &mut lists.nodes,
    };
    let answer = numbered(entries::read_rings(bytes, &mut lent, &mut reply));
    let mut left = Lists::room(room);
    let mut counts = [u64::MAX; READ_LENGTH];
    let expected = ring_file::read(bytes, [left.count(), room[4]]);
    let expected = expected.map_err(|refusal| refusal.number());
    let expected = expected.map(|(rings, nodes)| {
        left.overwrite(&rings, &nodes);
        [rings.len(), nodes.len()]
    });
    if let Ok(written) = expected {
        counts = written.map(|count| count as u64);
    }
    assert_eq!(answer, expected.map(|_| ()), "{bytes:?}");
    assert!(lists == left && reply == counts, "{bytes:?} in {room:?}");
    expected
}

/// Room for so many rings and node numbers.
fn room(rings: usize, nodes: usize) -> [usize; 5] {
    [rings, rings, rings, rings, nodes]
}

/// A ring that can be written, anywhere over so many nodes.
fn any_ring(nodes: usize, random: &mut Random) -> Ring {
    let length = 1 + random.below(nodes.min(5));
    Ring {
        first: random.below(nodes - length + 1),
        length,
        face: random.bits() as u16,
        doubled: random.bits() as i64 >> random.below(64),
    }
}

/// Rings that overlap and leave gaps; where `bad`, some cannot be written.
fn any_lists(bad: bool, random: &mut Random) -> Lists {
    let nodes: Vec<u16> = (0..1 + random.below(9))
        .map(|_| random.bits() as u16)
        .collect();
    let mut rings: Vec<Ring> = (0..random.below(5))
        .map(|_| any_ring(nodes.len(), random))
        .collect();
    if bad && !rings.is_empty() {
        let place = random.below(rings.len());
        let ring = &mut rings[place];
        match random.below(5) {
            0 => ring.length = 0,
            1 => ring.length = nodes.len() - ring.first + 1,
            2 => ring.first = nodes.len() - ring.length + 1,
            // With its length it comes to just below 2^64, to 2^64 or to just past it.
            3 => ring.first = usize::MAX - ring.length - 1 + random.below(4),
            _ => ring.length = usize::MAX - ring.first + random.below(2) * ring.first,
        }
    }
    Lists::of(&rings, &nodes)
}

/// Writes in rooms around the needed one, and reads back what was written in such rooms too.
#[test]
fn random_lists() {
    let mut random = Random::new(41);
    let mut refused = [0; 2];
    for turn in 0..40_000 {
        let lists = any_lists(turn % 3 == 0, &mut random);
        let file = match write(&lists, 500) {
            Ok(file) => file,
            Err(number) => {
                assert_eq!(number, 15);
                assert_eq!(write(&lists, 0), Err(15));
                refused[0] += 1;
                continue;
            }
        };
        assert_eq!(write(&lists, file.len()), Ok(file.clone()));
        let few = random.below(file.len() + 1);
        for small in [few, file.len().saturating_sub(1)] {
            let short = small < file.len();
            assert_eq!(write(&lists, small).err(), short.then_some(14));
        }
        let rings = lists.rings();
        let nodes: usize = rings.iter().map(|ring| ring.length).sum();
        assert_eq!(
            read(&file, room(rings.len(), nodes)),
            Ok([rings.len(), nodes])
        );
        for _ in 0..4 {
            let around =
                |needed: usize, random: &mut Random| (needed + random.below(4)).saturating_sub(1);
            let mut sizes = [0; 5].map(|_| around(rings.len(), &mut random));
            sizes[4] = around(nodes, &mut random);
            refused[1] += usize::from(read(&file, sizes).is_err());
        }
    }
    assert!(
        refused.into_iter().all(|count| count > 5_000),
        "{refused:?}"
    );
}

/// The ring list to write is as long as the shortest of its four lists.
#[test]
fn lists_of_unequal_lengths() {
    let mut random = Random::new(42);
    for _ in 0..20_000 {
        let mut lists = any_lists(random.once_in(3), &mut random);
        let all = lists.first.len();
        let cut = |random: &mut Random| random.below(all + 1);
        match random.below(5) {
            0 => lists.first.truncate(cut(&mut random)),
            1 => lists.length.truncate(cut(&mut random)),
            2 => lists.face.truncate(cut(&mut random)),
            3 => lists.doubled.truncate(cut(&mut random)),
            _ => lists.nodes.truncate(random.below(lists.nodes.len())),
        }
        let _ = write(&lists, 500);
    }
}

/// A ring has at most 65,535 nodes; of so many the record takes 131,088 bytes.
#[test]
fn the_longest_rings() {
    let nodes: Vec<u16> = (0..65_537).map(|node| node as u16).collect();
    let ring = |first: usize, length: usize| Ring {
        first,
        length,
        face: 65_535,
        doubled: i64::MIN,
    };
    let written = |rings: &[Ring], bytes: usize| write(&Lists::of(rings, &nodes), bytes);
    for first in 0..3 {
        let file = written(&[ring(first, 65_535)], 131_088).expect("a ring");
        assert_eq!(file.len(), 131_088);
        assert_eq!(read(&file, room(1, 65_535)), Ok([1, 65_535]));
        assert_eq!(read(&file, room(1, 65_534)), Err(14));
    }
    assert_eq!(written(&[ring(0, 65_535)], 131_087), Err(14));
    for length in [65_536, 65_537, 65_538, 131_071, usize::MAX] {
        assert_eq!(written(&[ring(0, 1), ring(0, length)], 0), Err(15));
    }
    // Closed up, the places of a few of them go past 65,535.
    let file = written(&[ring(2, 65_535); 3], 400_000).expect("rings");
    assert_eq!(read(&file, room(3, 196_605)), Ok([3, 196_605]));
}

/// A record that a ring reader passes over, or refuses.
fn any_record(random: &mut Random) -> Vec<u8> {
    let bytes: Vec<u8> = (0..random.below(20))
        .map(|_| random.pick(&[0, 1, 2, 3, 54, 255]))
        .collect();
    match random.below(6) {
        0 => record(1, &[7; 52]),
        1 => record(1, &bytes),
        2 => record(2, &bytes),
        3 => record(random.bits() as u16, &bytes),
        4 => record(random.pick(&[0, 16, 256, 258]), &bytes),
        _ => record(3 + random.below(13) as u16, &bytes),
    }
}

/// A file of a list's rings with other records between them.
fn mixed(lists: &Lists, random: &mut Random) -> Vec<u8> {
    let mut bytes = Vec::new();
    for ring in lists.rings() {
        if random.once_in(2) {
            bytes.extend(any_record(random));
        }
        let file = ring_file::write(&[ring], &lists.nodes, 500);
        bytes.extend(file.expect("a ring that can be written"));
    }
    if random.once_in(2) {
        bytes.extend(any_record(random));
    }
    bytes
}

/// Mixed files, whole, cut off or with bytes changed, in any room.
#[test]
fn mixed_and_damaged_files() {
    let mut random = Random::new(43);
    let mut answers = [0; 16];
    for turn in 0..200_000 {
        let lists = any_lists(false, &mut random);
        let mut bytes = mixed(&lists, &mut random);
        if turn % 2 == 0 {
            for _ in 0..random.below(4).min(bytes.len()) {
                let place = random.below(bytes.len());
                bytes[place] = random.bits() as u8;
            }
        }
        if random.once_in(4) {
            bytes.truncate(random.below(bytes.len() + 1));
        }
        let sizes =
            [4, 4, 4, 4, 20].map(|most| most - random.once_in(6) as usize * random.below(most));
        match read(&bytes, sizes) {
            Ok(_) => answers[0] += 1,
            Err(number) => answers[number as usize] += 1,
        }
    }
    for number in [0, 9, 10, 11, 14, 15] {
        assert!(answers[number] > 2_000, "{number}: {answers:?}");
    }
}

/// A small file with each of its bytes changed to each other value.
#[test]
fn every_change_of_a_byte() {
    let rings = [(0, 2, 0x0102, -3), (1, 1, 0, 1 << 40)];
    let rings = rings.map(|(first, length, face, doubled)| Ring {
        first,
        length,
        face,
        doubled,
    });
    let file = write(&Lists::of(&rings, &[513, 1027]), 100).expect("two rings");
    let file = [
        &file[..22],
        &record(15, &[2, 0, 9]),
        &record(1, &[3; 52]),
        &file[22..],
    ]
    .concat();
    assert_eq!(read(&file, room(2, 3)), Ok([2, 3]));
    let mut accepted = 0;
    for place in 0..file.len() {
        for value in 0..=255 {
            let mut changed = file.clone();
            changed[place] = value;
            accepted += usize::from(read(&changed, room(2, 3)).is_ok());
            if place % 8 == 0 {
                let _ = read(&changed, room(1, 2));
            }
        }
    }
    assert!(accepted > 10_000 && accepted < 256 * file.len());
}
