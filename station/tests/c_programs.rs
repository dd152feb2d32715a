//! The C header: programs over the archives are compiled and run, and its numbers are this crate's.

use std::fmt::Write as _;
use std::fs;
use std::io::Write as _;
use std::mem::{offset_of, size_of};
use std::path::{Path, PathBuf};
use std::process::{Command, Stdio};
use tukmiheb::entries::{
    HoleRecord, ADDED_LENGTH, AT_END, A_SEGMENT, CENSUS_LENGTH, COUNT_LENGTH, ENCLOSED,
    FILE_LENGTH, FLAT, OPEN, ORDER_LENGTH, PASSED_OVER, READ_LENGTH, RECORD_LENGTH, RINGS_LENGTH,
    ROTATION_LENGTH, STATE_LENGTH, WRITTEN_LENGTH,
};
use tukmiheb::{layout, Refusal, Stage};

const ARCHIVES: [&str; 7] = [
    "building",
    "files",
    "ring_files",
    "steps",
    "cuts",
    "rings",
    "questions",
];

fn folder() -> &'static Path {
    Path::new(env!("CARGO_MANIFEST_DIR"))
}

/// The compiler, with every warning an error.
fn compiler() -> Command {
    let mut compiler = Command::new("cc");
    compiler.args([
        "-std=c11",
        "-Wall",
        "-Wextra",
        "-Wpedantic",
        "-Werror",
        "-O2",
    ]);
    compiler.arg("-I").arg(folder().join("include"));
    compiler
}

fn succeeds(mut command: Command) {
    let run = command.output().expect("the program starts");
    let said = String::from_utf8_lossy(&run.stderr);
    assert!(run.status.success(), "{command:?}: {said}");
}

/// A program of c/, compiled and linked.
fn compiled(name: &str) -> PathBuf {
    let program = Path::new(env!("CARGO_TARGET_TMPDIR")).join(name);
    let mut command = compiler();
    command.arg(folder().join("c").join(name).with_extension("c"));
    command.arg("-o").arg(&program);
    command.arg("-L").arg(folder().join("../target/staticlib"));
    command.args(ARCHIVES.map(|theme| format!("-lstation_{theme}")));
    succeeds(command);
    program
}

/// What the listing program in C prints for a file.
fn listed(program: &Path, bytes: &[u8]) -> String {
    let mut command = Command::new(program);
    command.stdin(Stdio::piped()).stdout(Stdio::piped());
    let mut run = command.spawn().expect("the program starts");
    let mut input = run.stdin.take().expect("its input");
    input.write_all(bytes).expect("all is read");
    drop(input);
    let run = run.wait_with_output().expect("it ends");
    assert!(run.status.success());
    String::from_utf8(run.stdout).expect("text")
}

#[test]
fn the_listing_in_c() {
    let program = compiled("list");
    let bytes = include_bytes!("../../samples/waist.seg");
    let listing = include_str!("../../samples/waist.txt");
    assert_eq!(listed(&program, bytes), listing);
    assert_eq!(listed(&program, &bytes[..100]), "refused 9 record 1\n");
    let nothing = "nodes 0 edges 0 dangles 0 cuts 0 rings 0 euler yes\n";
    assert_eq!(listed(&program, &[]), nothing);
    // Records of other kinds are passed over, and counted.
    let skipped = [4, 0, 0, 0, 9, 0, 7, 7];
    let mixed = [&skipped[..], bytes, &skipped, &skipped[..7]].concat();
    assert_eq!(listed(&program, &mixed[..mixed.len() - 7]), listing);
    assert_eq!(listed(&program, &mixed), "refused 9 record 28\n");
    // Longer than what is read at once: the same passes again and again.
    assert_eq!(listed(&program, &bytes.repeat(200)), listing);
}

#[test]
fn the_other_calls_in_c() {
    succeeds(Command::new(compiled("calls")));
}

/// Every number of the header by its name, as it is in this crate.
fn numbers() -> Vec<(&'static str, usize)> {
    use layout::*;
    vec![
        ("NODE_LIMIT", NODE_LIMIT),
        ("EDGE_LIMIT", EDGE_LIMIT),
        ("HALF_EDGE_LIMIT", HALF_EDGE_LIMIT),
        ("PAIR_LIMIT", PAIR_LIMIT),
        ("STACK", STACK),
        ("SEGMENT_FLOATS", SEGMENT_FLOATS),
        ("NODES_X", NODES_X),
        ("NODES_Y", NODES_Y),
        ("NODES_Z", NODES_Z),
        ("SEGMENTS", SEGMENTS),
        ("FLOATS", FLOATS),
        ("SOURCES", SOURCES),
        ("TARGETS", TARGETS),
        ("LIST_PLACES", LIST_PLACES),
        ("LINKS", LINKS),
        ("NUMBERS", NUMBERS),
        ("OUTGOING", OUTGOING),
        ("DEGREES", DEGREES),
        ("STARS", STARS),
        ("NODE_MARKS", NODE_MARKS),
        ("HALF_EDGE_MARKS", HALF_EDGE_MARKS),
        ("MARKS", MARKS),
        ("LINE_IDS", LINE_IDS),
        ("PAIR_IDS", PAIR_IDS),
        ("IDS", IDS),
        ("LIST_END", LIST_END.into()),
        ("OUTSIDE", OUTSIDE.into()),
        ("STATE_LENGTH", STATE_LENGTH),
        ("ADDED_LENGTH", ADDED_LENGTH),
        ("COUNT_LENGTH", COUNT_LENGTH),
        ("CENSUS_LENGTH", CENSUS_LENGTH),
        ("RINGS_LENGTH", RINGS_LENGTH),
        ("FILE_LENGTH", FILE_LENGTH),
        ("RECORD_LENGTH", RECORD_LENGTH),
        ("WRITTEN_LENGTH", WRITTEN_LENGTH),
        ("READ_LENGTH", READ_LENGTH),
        ("ORDER_LENGTH", ORDER_LENGTH),
        ("ROTATION_LENGTH", ROTATION_LENGTH),
        ("AT_END", AT_END as usize),
        ("A_SEGMENT", A_SEGMENT as usize),
        ("PASSED_OVER", PASSED_OVER as usize),
        ("FLAT", FLAT.into()),
        ("ENCLOSED", ENCLOSED.into()),
        ("OPEN", OPEN.into()),
        ("BUILDING", Stage::Building as usize),
        ("SORTED", Stage::Sorted as usize),
        ("PRUNED", Stage::Pruned as usize),
        ("CUT", Stage::Cut as usize),
        ("RINGED", Stage::Ringed as usize),
    ]
}

#[test]
fn the_numbers_of_the_header() {
    let mut source = String::from("#include \"tukmiheb.h\"\n");
    let mut ensure = |what: &str, number: usize| {
        let _ = writeln!(source, "_Static_assert({what} == {number}, \"{what}\");");
    };
    for (name, number) in numbers() {
        ensure(&format!("TUKMIHEB_{name}"), number);
    }
    for &refusal in Refusal::ALL {
        let name = refusal.name().to_uppercase().replace(' ', "_");
        ensure(
            &format!("TUKMIHEB_REFUSED_{name}"),
            refusal.number() as usize,
        );
    }
    ensure("sizeof(tukmiheb_hole)", size_of::<HoleRecord>());
    let holder = offset_of!(HoleRecord, holder);
    ensure("offsetof(tukmiheb_hole, holder)", holder);
    let doubled = offset_of!(HoleRecord, doubled);
    ensure("offsetof(tukmiheb_hole, doubled)", doubled);
    let file = Path::new(env!("CARGO_TARGET_TMPDIR")).join("numbers.c");
    fs::write(&file, source).expect("a file of the test's own");
    let mut command = compiler();
    command.arg("-fsyntax-only").arg(file);
    succeeds(command);
}
