//! The functions beside the graph: the angular order, the least rotation, records of a segment
//! file. Each reply is lent with an entry past it, which has to stay.

use comparison::front;
use comparison::inputs::{self, BOUND};
use comparison::random::Random;
use oracle::rotation::{self, Rotation};
use oracle::stand_ins::Coord;
use oracle::{records, rules};
use tukmiheb::entries::{self, AT_END, A_SEGMENT, PASSED_OVER};
use tukmiheb::Refusal;

fn angular_order(points: [f64; 6]) {
    let [cx, cy, ax, ay, bx, by] = points;
    let at = |x: f64, y: f64| Coord { x, y };
    let expected = rules::compare_points(at(cx, cy), at(ax, ay), at(bx, by));
    let mut reply = [9, 9];
    let answered = entries::compare_angular(&points, front(&mut reply));
    let number = |refusal: Refusal| refusal.number();
    assert_eq!(
        answered.map_err(number),
        expected.map(|_| ()).map_err(|refusal| refusal.number()),
        "{points:?}"
    );
    let expected = expected.map_or(9, |order| (order as i8 + 1) as u8);
    assert_eq!(reply, [expected, 9], "{points:?}");
}

/// All three points of a small square; then far ones, either zero, and refused ones.
#[test]
fn angular_orders() {
    let small = [-2.0, -1.0, -0.0, 0.0, 1.0, 2.0];
    for code in 0..small.len().pow(6) {
        let digit = |place: u32| small[code / small.len().pow(place) % small.len()];
        angular_order([0, 1, 2, 3, 4, 5].map(digit));
    }
    let far = f64::from(BOUND);
    let values = [far, -far, far - 1.0, 1.0 - far, 1.0, 0.0, -0.0];
    let refused = [
        far + 1.0,
        -far - 1.0,
        0.5,
        f64::NAN,
        f64::INFINITY,
        5e-324,
        -1e300,
    ];
    let mut random = Random::new(8);
    for _ in 0..200_000 {
        let mut points = [0; 6].map(|_| match random.below(3) {
            0 => random.pick(&values),
            1 => random.below(2 * BOUND as usize + 1) as f64 - far,
            _ => random.below(9) as f64 - 4.0,
        });
        if random.once_in(8) {
            points[random.below(6)] = random.pick(&refused);
        }
        angular_order(points);
    }
}

fn least_rotation(keys: &[[u64; 2]]) {
    let xs: Vec<u64> = keys.iter().map(|key| key[0]).collect();
    let ys: Vec<u64> = keys.iter().map(|key| key[1]).collect();
    let mut reply = [usize::MAX; 3];
    assert_eq!(
        entries::minimum_rotation_index(&xs, &ys, front(&mut reply)),
        Ok(())
    );
    let Rotation { place, comparisons } = rotation::least_rotation(keys);
    assert_eq!(reply, [place, comparisons, usize::MAX], "{keys:?}");
}

/// All rings of up to nine keys of three kinds; then longer ones, periodic or not. The place and
/// the comparisons are those of the original's own search.
#[test]
fn least_rotations() {
    let kinds = [[1, 1], [1, 2], [2, 0]];
    for length in 0..10 {
        for code in 0..3usize.pow(length) {
            let key = |place: u32| kinds[code / 3usize.pow(place) % 3];
            least_rotation(&(0..length).map(key).collect::<Vec<_>>());
        }
    }
    let mut random = Random::new(9);
    for _ in 0..20_000 {
        let kinds: Vec<[u64; 2]> = (0..4).map(|_| [random.bits(), random.bits() % 2]).collect();
        let part: Vec<_> = (0..1 + random.below(40))
            .map(|_| random.pick(&kinds))
            .collect();
        let mut keys = part.repeat(1 + random.below(4));
        if random.once_in(2) {
            let last = keys.len() - 1;
            keys[last] = random.pick(&kinds);
        }
        least_rotation(&keys);
    }
}

#[test]
fn rotations_of_unequal_lengths() {
    let mut reply = [7; 2];
    for (xs, ys) in [(0, 1), (1, 0), (5, 4), (4, 5)] {
        let answered = entries::minimum_rotation_index(&[1; 9][..xs], &[1; 9][..ys], &mut reply);
        assert_eq!(answered, Err(Refusal::ListTooShort));
        assert_eq!(reply, [7; 2]);
    }
}

fn record_at(bytes: &[u8], at: usize) {
    let mut line = [7.0; 7];
    let mut reply = [7; 4];
    let answered = entries::read_record(bytes, at, front(&mut line), front(&mut reply));
    let left = bytes.get(at..).unwrap_or(&[]);
    let found = match records::next(left) {
        Ok(found) => found,
        Err(refusal) => {
            assert_eq!(answered.unwrap_err().number(), refusal.number());
            assert_eq!((line, reply), ([7.0; 7], [7; 4]));
            return;
        }
    };
    assert_eq!(answered, Ok(()));
    let Some((record, rest)) = found else {
        assert_eq!((line, reply), ([7.0; 7], [AT_END, 7, 7, 7]));
        return;
    };
    let next = (bytes.len() - rest.len()) as u64;
    match record.segment() {
        None => assert_eq!((line, reply), ([7.0; 7], [PASSED_OVER, 0, next, 7])),
        Some(expected) => {
            assert_eq!(reply, [A_SEGMENT, expected.line_id.into(), next, 7]);
            let (a, b) = (expected.start, expected.end);
            for (read, expected) in line.iter().zip([a.x, a.y, a.z, b.x, b.y, b.z, 7.0]) {
                // The bits of a NaN are not kept from a file.
                let same = read.to_bits() == expected.to_bits();
                assert!(same || read.is_nan() && expected.is_nan(), "{bytes:?}");
            }
        }
    }
}

/// Files of a few records, cut off or with bytes changed, read at any place.
#[test]
fn records() {
    let mut random = Random::new(10);
    for _ in 0..100_000 {
        let mut bytes = Vec::new();
        for _ in 0..random.below(4) {
            // Kinds 2 to 15 are passed over, 0 and 16 refused.
            let other = random.below(17) as u16;
            bytes.extend(match random.below(4) {
                0 => records::record(other, &[5; 52]),
                1 => records::record(other, &vec![6; random.below(20)]),
                _ => records::segment(&inputs::any_line(5, &mut random)),
            });
        }
        for _ in 0..random.below(4).min(bytes.len()) {
            let place = random.below(bytes.len());
            bytes[place] = random.bits() as u8;
        }
        if random.once_in(3) {
            bytes.truncate(random.below(bytes.len() + 1));
        }
        let any = random.below(bytes.len() + 3);
        for at in [0, 58, 116, bytes.len(), any, usize::MAX] {
            record_at(&bytes, at);
        }
    }
}
