//! A segment file in one call of the library, beside the oracle that adds its records one by one.

use comparison::files::{compare, empty, records};
use comparison::full;
use comparison::inputs::{self, Segment, BOUND, STEPS};
use comparison::random::Random;
use oracle::original::Line3D;
use oracle::records::record;
use oracle::state::{Lent, Side, EDGE_LIMIT, NODE_LIMIT, TABLES};
use oracle::Oracle;

fn file(map: &[Segment]) -> Vec<u8> {
    records(
        map.iter()
            .zip(1..)
            .map(|(&segment, id)| inputs::segment_line(segment, id)),
    )
}

/// A line that may be bad. The bits of a NaN are not kept from a file, so z is none here.
fn any_line(random: &mut Random) -> Line3D {
    let mut line = inputs::any_line(4, random);
    for z in [&mut line.start.z, &mut line.end.z] {
        *z = if z.is_nan() { -1.5 } else { *z };
    }
    line
}

#[test]
fn maps() {
    let mut random = Random::new(12);
    for map in [
        Vec::new(),
        inputs::grid(22, 22, 1),
        full::dense(EDGE_LIMIT + 10),
        inputs::star(NODE_LIMIT),
        inputs::path(NODE_LIMIT as i32),
        inputs::overlaps(40),
        inputs::extremes(),
        inputs::random_map(1200, 60, 8, &mut random),
        inputs::random_map(EDGE_LIMIT * 9 / 8, NODE_LIMIT * 7 / 8, BOUND, &mut random),
    ] {
        let turned = map.iter().map(|&[a, b]| [b, a]);
        let twice: Vec<_> = map.iter().copied().chain(turned).collect();
        for map in [map, twice] {
            let (answer, _) = compare(&empty(), &file(&map), &Lent::FULL);
            assert!(answer.is_ok(), "an empty graph");
        }
    }
}

/// Full tables of each kind are taken to the file's end.
#[test]
fn full_maps() {
    for map in full::maps(&mut Random::new(61)) {
        let (answer, _) = compare(&empty(), &file(&map), &Lent::FULL);
        assert_eq!(answer, Ok([map.len() as u64, 0]));
    }
}

#[test]
fn repeats_and_the_end() {
    let map = inputs::grid(3, 2, 5);
    let (answer, state) = compare(&empty(), &file(&map.repeat(40)), &Lent::FULL);
    assert_eq!(answer, Ok([17 * 40, 0]));
    assert_eq!((state.nodes, state.edges), (12, 17));
    let (answer, same) = compare(&state, &[], &Lent::FULL);
    assert_eq!(answer, Ok([0, 0]));
    assert_eq!(same.difference(&state), None);
}

/// The file with one record replaced, so that the records before it are taken.
fn stopped(good: &[Segment], bad: &[u8]) -> u64 {
    let bytes = [file(good).as_slice(), bad].concat();
    let (answer, _) = compare(&empty(), &bytes, &Lent::FULL);
    let [taken, number] = answer.expect("an empty graph");
    assert_eq!(taken, good.len() as u64);
    number
}

#[test]
fn bad_records() {
    let separate = full::separate(NODE_LIMIT / 2);
    let dense = &full::dense(EDGE_LIMIT);
    let far = file(&[[[BOUND - 1, 5], [BOUND, 7]]]);
    let good = file(&[[[1, 0], [0, 1]]]);
    assert_eq!(stopped(&separate, &far), 3);
    assert_eq!(stopped(dense, &[far.as_slice(), &good].concat()), 4);
    for few in [&separate[..0], &separate[..3], &dense[..200]] {
        assert_eq!(stopped(few, &file(&[[[BOUND + 1, 0], [0, 0]]])), 1);
        assert_eq!(stopped(few, &file(&[[[7, 7], [7, 7]]])), 2);
        assert_eq!(stopped(few, &good[..57]), 9);
        assert_eq!(stopped(few, &good[..1]), 9);
        for (place, value, number) in [(0, 53, 10), (3, 1, 9), (4, 16, 11), (5, 1, 11)] {
            let mut bad = good.clone();
            bad[place] = value;
            assert_eq!(stopped(few, &bad), number);
            assert_eq!(stopped(few, &[bad, good.clone()].concat()), number);
        }
        // A length of 55: its bytes are there, or they are not.
        let mut long = good.clone();
        long[0] = 55;
        assert_eq!(stopped(few, &long), 9);
        assert_eq!(stopped(few, &[long, vec![0]].concat()), 10);
    }
}

/// A record that a segment reader passes over.
fn passed_over(random: &mut Random) -> Vec<u8> {
    let body: Vec<u8> = (0..random.below(90)).map(|_| random.bits() as u8).collect();
    match random.below(3) {
        // A ring, of which 15 is not tested.
        0 => record(2, &[&[0; 12], &body[..]].concat()),
        _ => record(3 + random.below(13) as u16, &body),
    }
}

/// Records passed over stand between the segments: they are counted, and change nothing.
#[test]
fn mixed_files() {
    let mut random = Random::new(14);
    let map = inputs::grid(4, 3, 1);
    let segments = file(&map);
    let segments = segments.chunks(58);
    let (_, plain) = compare(&empty(), &file(&map), &Lent::FULL);
    for kind in 2..16 {
        let body = [kind as u8; 20];
        let other = record(kind, &body);
        let mixed = segments
            .clone()
            .flat_map(|segment| [segment, &other].concat());
        let mixed: Vec<u8> = mixed.collect();
        let (answer, state) = compare(&empty(), &mixed, &Lent::FULL);
        assert_eq!(answer, Ok([2 * map.len() as u64, 0]));
        assert_eq!(state.difference(&plain), None);
    }
    for _ in 0..500 {
        let mut mixed = Vec::new();
        let mut passed = 0;
        for segment in segments.clone() {
            for _ in 0..random.below(3) {
                mixed.extend(passed_over(&mut random));
                passed += 1;
            }
            mixed.extend(segment);
        }
        let count = map.len() as u64 + passed;
        let (answer, state) = compare(&empty(), &mixed, &Lent::FULL);
        assert_eq!(answer, Ok([count, 0]));
        assert_eq!(state.difference(&plain), None);
        mixed.extend(record(random.pick(&[0, 16, 17, 65_535]), &[0; 52]));
        let (answer, _) = compare(&empty(), &mixed, &Lent::FULL);
        assert_eq!(answer, Ok([count, 11]));
    }
}

#[test]
fn refused_calls() {
    let lines = file(&inputs::grid(2, 2, 1));
    let (_, built) = compare(&empty(), &lines, &Lent::FULL);
    for bytes in [&lines[..], &lines[..50], &[]] {
        for table in 0..TABLES {
            let lent = Lent {
                short: Some(table),
                ..Lent::FULL
            };
            assert_eq!(compare(&built, bytes, &lent).0, Err(6));
        }
        let mut damaged = built.clone();
        damaged.tables.nodes_degree[3] += 1;
        assert_eq!(compare(&damaged, bytes, &Lent::FULL).0, Err(7));
        let mut steps = Oracle::over(built.clone());
        for step in STEPS {
            steps.call(&step, &Lent::FULL);
            assert_eq!(compare(steps.state(), bytes, &Lent::FULL).0, Err(5));
        }
    }
}

/// Files of any lines, one after another on the same graph, cut off or with a head that is changed.
#[test]
fn any_files() {
    let mut random = Random::new(13);
    let mut numbers = [0; 13];
    for _ in 0..3000 {
        let mut state = empty();
        for _ in 0..3 {
            let count = random.below(12);
            let mut bytes = Vec::new();
            let mut heads = Vec::new();
            for _ in 0..count {
                heads.push(bytes.len());
                let other = random.once_in(5);
                bytes.extend(match other {
                    true => passed_over(&mut random),
                    false => records([any_line(&mut random)]),
                });
            }
            if count > 0 && random.once_in(4) {
                let place = random.pick(&heads) + random.below(6);
                bytes[place] = random.bits() as u8 >> random.below(8);
            }
            if random.once_in(4) {
                bytes.truncate(random.below(bytes.len() + 1));
            }
            let (answer, after) = compare(&state, &bytes, &Lent::FULL);
            let [_, number] = answer.expect("a graph in stage 0");
            numbers[number as usize] += 1;
            state = after;
        }
    }
    println!("{numbers:?}");
    assert!([0, 1, 2, 9, 10, 11].iter().all(|&n| numbers[n] > 50));
}
