//! The comparisons of the least-rotation search: those that the original's own search makes, beside
//! a second reading of the method, and what they come to for the rings of a map.

use oracle::rotation::{least_rotation, Rotation};
use oracle::{calls, Oracle};

/// The two-candidate method, written down from its description. Rings of fewer than two entries
/// need no case of their own: there a candidate has reached the end at the start.
fn by_description(ring: &[usize]) -> Rotation {
    let n = ring.len();
    let mut candidates = [0, 1];
    let (mut matched, mut comparisons) = (0, 0);
    while candidates.iter().all(|&candidate| candidate < n) && matched < n {
        let [a, b] = candidates.map(|candidate| ring[(candidate + matched) % n]);
        comparisons += 1;
        if a == b {
            matched += 1;
            continue;
        }
        let greater = usize::from(b > a);
        candidates[greater] += matched + 1;
        if candidates[0] == candidates[1] {
            candidates[greater] += 1;
        }
        matched = 0;
    }
    Rotation {
        place: candidates[0].min(candidates[1]),
        comparisons,
    }
}

/// The comparisons of a ring's search, where both readings agree and the bound holds.
fn comparisons(ring: &[usize]) -> usize {
    let rotation = least_rotation(ring);
    assert_eq!(rotation, by_description(ring), "{ring:?}");
    let (n, comparisons) = (ring.len(), rotation.comparisons);
    let bound = if n < 2 { 0 } else { 3 * n - 3 };
    assert!(comparisons <= bound, "{comparisons} for {ring:?}");
    comparisons
}

/// Every ring of so many entries of so many kinds.
fn rings(kinds: usize, length: u32) -> impl Iterator<Item = Vec<usize>> {
    let entry = move |code: usize, place: u32| code / kinds.pow(place) % kinds;
    (0..kinds.pow(length)).map(move |code| (0..length).map(|place| entry(code, place)).collect())
}

/// The most that a length takes is 3 n - 6, from n 3 on: the bound 3 n - 3 is near.
#[test]
fn all_small_rings() {
    for (kinds, lengths) in [(2, 0..14), (3, 0..10), (5, 0..7)] {
        for length in lengths {
            let found = rings(kinds, length).map(|ring| comparisons(&ring));
            let most = found.max().expect("a ring");
            let n = length as usize;
            assert_eq!(most, if n < 3 { [0, 0, 2][n] } else { 3 * n - 6 });
        }
    }
}

/// Longer rings: one part over and over, and the same with its last entry changed, which keeps the
/// candidates matching for long.
#[test]
fn long_rings() {
    let next = |seed: &u64| {
        let product = seed.wrapping_mul(6_364_136_223_846_793_005);
        Some(product.wrapping_add(1_442_695_040_888_963_407))
    };
    let seeds = std::iter::successors(Some(1), next);
    let mut numbers = seeds.map(|seed: u64| (seed >> 33) as usize);
    let mut below = |limit: usize| numbers.next().expect("there is no last one") % limit;
    for _ in 0..20_000 {
        let (kinds, length, times) = (1 + below(4), 1 + below(40), 1 + below(4));
        let part: Vec<usize> = (0..length).map(|_| below(kinds)).collect();
        let mut ring = part.repeat(times);
        comparisons(&ring);
        ring[length * times - 1] = below(kinds + 1);
        comparisons(&ring);
    }
}

/// The comparisons that extracting the rings of a triangle answers.
fn of_triangle([a, b, c]: [&str; 3]) -> String {
    let sides = [[a, b], [b, c], [c, a]].map(|[start, end]| format!("add {start} 0 {end} 0 1\n"));
    let list = format!("create\n{}sort\nprune\ncut\nrings\n", sides.concat());
    let printed = calls::run(&list, &mut Oracle::default()).expect("a call list");
    let line = printed.lines().find(|line| line.starts_with("rings "));
    let mut words = line.expect("the reply of rings").split(' ');
    words.find(|&word| word == "comparisons");
    words.next().expect("a number").to_string()
}

/// The figure depends on where a ring begins, which is its lowest half-edge. Worked by hand, with x
/// alone for a node: the inner rings 0 1 2, 1 2 0 and 2 0 1 take 2, 3 and 2, and the outer ones,
/// from the twin of the first side on, 1 0 2, 2 1 0 and 0 2 1 take 2 each.
#[test]
fn rings_from_their_lowest_half_edge() {
    let [a, b, c] = ["0 1", "1 0", "2 0"];
    assert_eq!(of_triangle([a, b, c]), "4");
    assert_eq!(of_triangle([b, c, a]), "5");
    assert_eq!(of_triangle([c, a, b]), "4");
}
