//! Document 01's tracings worked by hand, P1 to P10, and its listing.

use oracle::original::{Coord3D, Line3D};
use oracle::rotation::{least_rotation, Rotation};
use oracle::state::NODE_LIMIT;
use oracle::{calls, listing, records, Oracle};

/// What the oracle prints for a call list.
fn answers(list: &str) -> String {
    calls::run(list, &mut Oracle::default()).expect("a call list")
}

/// What it prints for lines of whole coordinates and then all stage steps, from pruning on.
fn traced(lines: &[[i32; 4]]) -> String {
    let mut list = String::from("create\n");
    for (number, [x1, y1, x2, y2]) in lines.iter().enumerate() {
        list += &format!("add {x1} {y1} 0 {x2} {y2} 0 {}\n", number + 1);
    }
    list += "sort\nprune\ncut\nrings\n";
    let printed = answers(&list);
    let steps = printed.lines().skip(lines.len() + 2);
    steps.map(|line| format!("{line}\n")).collect()
}

#[test]
fn p1_empty_graph() {
    assert_eq!(
        traced(&[]),
        "dangles 0\n\
         cuts 0 census 0 0 0 0 yes\n\
         rings 0 census 0 0 0 0 yes comparisons 0 halves 0 holes 0\n"
    );
}

#[test]
fn p2_one_segment() {
    let printed = answers("create\nadd 0 0 0 1 0 0 1\nsort\nprune\nshow\n");
    assert!(printed.contains("\ndangles 1 0\n"));
    assert!(printed.contains("node 0 0 0 0 degree 0 marked 0 "));
    assert!(printed.contains("node 1 1 0 0 degree 0 marked 1 "));
}

#[test]
fn p3_path() {
    let printed = traced(&[[0, 0, 1, 0], [1, 0, 2, 0]]);
    assert!(printed.starts_with("dangles 2 1 0\n"));
}

const LISTED: [[i32; 4]; 4] = [[0, 0, 4, 0], [4, 0, 0, 3], [0, 3, 0, 0], [4, 0, 6, 0]];

#[test]
fn p4_listing() {
    let point = |x: i32, y: i32| Coord3D::new(x.into(), y.into(), 0.0);
    let records = LISTED.iter().zip(1..).map(|(&[x1, y1, x2, y2], line_id)| {
        records::segment(&Line3D {
            start: point(x1, y1),
            end: point(x2, y2),
            line_id,
        })
    });
    let bytes: Vec<u8> = records.flatten().collect();
    let listed = |bytes: &[u8]| listing::listing(bytes, &mut Oracle::default());
    let expected = "nodes 4 edges 4 dangles 1 cuts 0 rings 2 euler yes\n\
                    ring 0 face 1 doubled 12 nodes 0 1 2\n\
                    ring 1 face 0 doubled -12 nodes 1 0 2\n";
    assert_eq!(listed(&bytes), expected);
    assert_eq!(listing::original_listing(&bytes), expected);
    assert_eq!(listed(&bytes[..200]), "refused 9 record 3\n");
    let mut other = bytes.clone();
    other[58] = 53;
    assert_eq!(listed(&other), "refused 10 record 1\n");
    other[58] = 54;
    other[62] = 16;
    assert_eq!(listed(&other), "refused 11 record 1\n");
    // a ring is passed over, and counted
    other[62] = 2;
    let without = "nodes 4 edges 3 dangles 3 cuts 0 rings 0 euler yes\n";
    assert_eq!(listed(&other), without);
    assert_eq!(listed(&other[..200]), "refused 9 record 3\n");
    // 4.0 with its bytes turned round is a tiny fraction.
    let mut turned = bytes;
    turned[34..42].reverse();
    assert_eq!(listed(&turned), "refused 1 record 0\n");
    assert_eq!(
        listed(&[]),
        "nodes 0 edges 0 dangles 0 cuts 0 rings 0 euler yes\n"
    );
}

#[test]
fn p5_triangles_at_a_point() {
    let printed = traced(&[
        [0, 0, 2, -1],
        [2, -1, 2, 1],
        [2, 1, 0, 0],
        [0, 0, -2, 1],
        [-2, 1, -2, -1],
        [-2, -1, 0, 0],
    ]);
    assert!(printed.contains("rings 4 census 5 6 3 1 yes comparisons 8 halves 12 holes 2\n"));
    let doubled: Vec<&str> = printed
        .lines()
        .filter(|line| line.starts_with("ring "))
        .filter_map(|line| line.split("doubled ").nth(1)?.split(' ').next())
        .collect();
    assert_eq!(doubled, ["4", "-4", "4", "-4"]);
}

#[test]
fn p6_square_with_diagonals() {
    let printed = traced(&[
        [0, 0, 2, 0],
        [2, 0, 2, 2],
        [2, 2, 0, 2],
        [0, 2, 0, 0],
        [0, 0, 2, 2],
        [2, 0, 0, 2],
    ]);
    let expected = "dangles 0\n\
                    cuts 2 4 5 census 4 6 2 1 no\n\
                    rings 2 census 4 4 2 1 yes comparisons 6 halves 8 holes 1\n\
                    ring 0 face 1 side enclosed doubled 8 halves 0 2 4 6\n\
                    ring 1 face 0 side open doubled -8 halves 1 7 5 3\n\
                    hole 1 holder 65535 doubled -8\n";
    assert_eq!(printed, expected);
}

#[test]
fn p7_minus_zero() {
    let printed = answers("create\nadd 0 0 0 1 0 0 1\nadd -0 0 0 0 1 0 2\nshow\n");
    assert!(printed.contains("graph 3 2 0\nnode 0 0 0 0 "));
}

#[test]
fn p8_reversed() {
    let printed = answers("create\nadd 0 0 0 1 0 0 1\nadd 1 0 5 0 0 5 9\nshow\n");
    assert!(printed.contains("edge 0 new\nedge 0 old\ngraph 2 1 0\n"));
    assert!(printed.contains("edge 0 line 0 0 0 1 0 0 id 1 "));
}

#[test]
fn p9_bound() {
    let printed = answers(
        "create\n\
         add 1048576 0 0 0 0 0 1\n\
         add 1048577 0 0 0 0 0 1\n\
         add x3fe0000000000000 0 0 0 0 0 1\n",
    );
    assert_eq!(printed, "created\nedge 0 new\nrefused 1\nrefused 1\n");
}

#[test]
fn p10_least_rotation() {
    let found = |place: usize, comparisons: usize| Rotation { place, comparisons };
    assert_eq!(least_rotation(&[2, 1, 2, 1]), found(1, 6));
    assert_eq!(least_rotation(&[5, 5]), found(0, 2));
    assert_eq!(least_rotation::<u64>(&[]), found(0, 0));
}

/// Disjoint segments, two nodes each, fill the nodes; one more with a new end gets 3, one between old
/// nodes passes.
#[test]
fn full_of_nodes() {
    let segments = NODE_LIMIT / 2;
    let mut list = String::from("create\n");
    for line in 0..segments {
        list += &format!("add 0 {line} 0 1 {line} 0 1\n");
    }
    list += "add 0 0 0 2 0 0 1\nadd 0 0 0 0 1 0 1\n";
    let last = segments - 1;
    let expected = format!("edge {last} new\nrefused 3\nedge {segments} new\n");
    assert!(answers(&list).ends_with(&expected));
}

#[test]
fn crossing_triangles_without_a_node() {
    let printed = traced(&[
        [0, 0, 6, 0],
        [6, 0, 3, 6],
        [3, 6, 0, 0],
        [0, 4, 6, 4],
        [6, 4, 3, -2],
        [3, -2, 0, 4],
    ]);
    assert!(printed.contains("rings 4 census 6 6 4 2 yes comparisons 8 halves 12 holes 2\n"));
}
