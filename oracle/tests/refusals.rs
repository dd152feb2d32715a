//! The order of refusals, and every kind of damage in the soundness list.

use oracle::state::{
    EDGE_LIMIT, HOLE_LIST_LENGTH, LIST_END, LIST_LENGTH, NODE_LIMIT, PAIR_LIMIT, TABLES,
};
use oracle::{calls, Oracle};

/// A triangle on three nodes.
const TRIANGLE: &str = "create\nadd 0 0 0 4 0 0 1\nadd 4 0 0 0 3 0 2\nadd 0 3 0 0 0 0 3\n";

/// The calls that test the state.
const CALLS: [&str; 6] = [
    "add 0 0 0 1 0 0 1",
    "sort",
    "prune",
    "cut",
    "rings",
    "reset",
];

/// The last line printed for the triangle and then these lines.
fn last(lines: &str) -> String {
    let printed = calls::run(&format!("{TRIANGLE}{lines}\n"), &mut Oracle::default());
    let printed = printed.expect("a call list");
    printed.lines().last().expect("a line").to_string()
}

#[test]
fn order_of_an_addition() {
    assert_eq!(
        last("sort\nset 3 0 9\nshort 0\nadd x7ff8000000000000 0 0 0 0 0 1"),
        "refused 6"
    );
    assert_eq!(
        last("sort\nset 3 0 9\nadd x7ff8000000000000 0 0 0 0 0 1"),
        "refused 7"
    );
    assert_eq!(last("sort\nadd x7ff8000000000000 0 0 0 0 0 1"), "refused 5");
    assert_eq!(last("add x7ff8000000000000 0 0 0 0 0 1"), "refused 1");
    assert_eq!(last("add 0 -0 0 -0 0 1 1"), "refused 2");
    assert_eq!(last("add 4 0 0 0 0 0 9"), "edge 0 old");
}

#[test]
fn order_of_a_step() {
    assert_eq!(last("set 3 0 9\nlist 0\nshort 10\nprune"), "refused 6");
    assert_eq!(last("set 3 0 9\nlist 0\nprune"), "refused 7");
    assert_eq!(last("list 0\nprune"), "refused 5");
    assert_eq!(last("sort\nlist 2\nprune"), "refused 8");
    assert_eq!(
        last("sort\nlist 3\nprune\ncut"),
        "cuts 0 census 3 3 2 1 yes"
    );
    assert_eq!(last("sort\nlist 3\nprune\ncut\nlist 5\nrings"), "refused 8");
    assert!(last("sort\nprune\ncut\nlist 6\nrings").starts_with("hole 1 "));
}

/// Number 13 comes after all others, and the length of the other lists is not the hole list's.
#[test]
fn order_of_ring_extraction() {
    let cut = "sort\nprune\ncut\n";
    let [all, all_holes] = [LIST_LENGTH, HOLE_LIST_LENGTH];
    let hole = "hole 1 holder 65535 doubled -12";
    for (lines, reply) in [
        ("set 9 0 1\nlist 0\nholes 0\nshort 10", "refused 6"),
        ("set 9 0 1\nlist 0\nholes 0", "refused 7"),
        ("list 5\nholes 0", "refused 8"),
        ("list 6\nholes 0", "refused 13"),
        (&format!("holes 0\nlist {all}"), "refused 13"),
        ("holes 1\nlist 6", hole),
        (&format!("holes 0\nholes {all_holes}"), hole),
    ] {
        assert_eq!(last(&format!("{cut}{lines}\nrings")), reply, "{lines}");
    }
    assert_eq!(last("list 0\nholes 0\nrings"), "refused 5");
    let again = format!("{cut}holes 0\nrings\nrings\nreset\n{cut}rings\nholes 1\nrings");
    assert!(last(&again).starts_with("hole 1 "));
}

#[test]
fn every_table_is_measured() {
    for table in 0..TABLES {
        for call in CALLS.into_iter().chain(["create"]) {
            assert_eq!(last(&format!("short {table}\n{call}")), "refused 6");
        }
    }
}

#[test]
fn every_damage_is_found() {
    for damage in [
        &format!("graph {} 3 0", NODE_LIMIT + 1),
        &format!("graph 3 {} 0", EDGE_LIMIT + 1),
        "graph 3 65535 0",
        "graph 3 3 5",
        "graph 3 3 256",
        "graph 2 3 0",
        "set 7 0 1",
        "set 7 0 3",
        "set 8 0 2",
        "set 8 5 65535",
        "set 9 0 1",
        "set 10 0 1",
        "set 10 5 6",
        "set 4 2 1",
        "set 3 1 1",
        "set 0 0 x3fe0000000000000",
        "set 1 2 1048577",
        "set 0 1 x7ff8000000000000",
        "set 9 0 1\nset 9 1 1",
    ] {
        for call in CALLS {
            assert_eq!(last(&format!("{damage}\n{call}")), "refused 7", "{damage}");
        }
        assert_eq!(last(&format!("{damage}\ncreate")), "created");
    }
}

/// The triangle's lists are one pair each, at places 0, 1 and 2. Each of these breaks one rule of theirs
/// and no other, but that a list which does not end cannot rise either.
#[test]
fn every_damaged_list_is_found() {
    let (end, past) = (LIST_END, PAIR_LIMIT);
    for damage in [
        // The first id is not the line id.
        "set 6 0 9".to_string(),
        "set 12 2 9".to_string(),
        // There is no list, or it begins past the table.
        format!("set 11 0 {end}"),
        format!("set 11 0 {past}"),
        format!("set 11 0 {}", end - 1),
        // It goes on past the table.
        format!("set 13 0 {past}"),
        format!("set 13 0 {}", end - 1),
        // It does not rise: an equal id, a lower one behind one that rises.
        format!("set 13 0 9\nset 12 9 1\nset 13 9 {end}"),
        format!("set 13 0 9\nset 12 9 7\nset 13 9 8\nset 12 8 6\nset 13 8 {end}"),
        // It does not end: one pair, and two.
        "set 13 0 0".to_string(),
        "set 13 0 9\nset 12 9 7\nset 13 9 0".to_string(),
        // Two lists are one, or the end of one is the other.
        "set 11 1 0\nset 6 1 1".to_string(),
        "set 13 0 1".to_string(),
    ] {
        for call in CALLS {
            assert_eq!(last(&format!("{damage}\n{call}")), "refused 7", "{damage}");
        }
        assert_eq!(last(&format!("{damage}\ncreate")), "created");
    }
}

/// Lists may lie anywhere in the table, and what is in no list may hold anything.
#[test]
fn sound_lists() {
    let (end, top) = (LIST_END, PAIR_LIMIT - 1);
    for sound in [
        format!("set 13 0 {top}\nset 12 {top} 9\nset 13 {top} {end}"),
        format!("set 11 0 9\nset 12 9 1\nset 13 9 0\nset 12 0 {}", u32::MAX),
        format!("set 11 3 {end}\nset 6 3 9\nset 12 3 0\nset 13 3 3"),
        "set 11 3 0\nset 13 4 0".to_string(),
    ] {
        assert_eq!(last(&format!("{sound}\nadd 0 0 0 9 9 0 1")), "edge 3 new");
        assert_eq!(last(&format!("{sound}\nadd 4 0 0 0 0 0 1")), "edge 0 old");
    }
}

#[test]
fn marks_and_degrees_are_free_from_stage_two_on() {
    let marked =
        "graph 3 3 2\nset 9 0 1\nset 9 1 1\nset 4 1 1\nset 3 2 77\nset 2 0 x7ff0000000000001\n";
    assert_eq!(
        last(&format!("{marked}cut")),
        "cuts 2 1 2 census 3 2 1 1 yes"
    );
}
