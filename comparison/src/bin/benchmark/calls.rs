//! The calls of a station, phase by phase.
//!
//! Each time is the median of many runs, the two sides by turns. The library is called as a station
//! calls it: every call tests all tables (numbers 6 and 7), cutting and ring extraction also count V,
//! E, cycles and C, and ring extraction finds the holders of open rings. The original tests nothing,
//! counts nothing and finds no holders here; its determinant is the stand-in's. "add" is a call for
//! each segment, "add file" one call for the bytes of all.

use crate::median;
use oracle::listing;
use oracle::original::{steps, Line3D, PlanarGraph};
use std::hint::black_box;
use std::time::{Duration, Instant};
use tukmiheb::{Coord3D, Graph};

const PHASES: [&str; 7] = [
    "add",
    "add file",
    "sort",
    "prune",
    "cut",
    "rings",
    "file to rings",
];

/// How long one input is measured, and how often at least.
const TIME: Duration = Duration::from_millis(600);
const LEAST_RUNS: usize = 9;

type Times = [Duration; PHASES.len()];

pub fn print_heading() {
    println!("medians in microseconds; ratio: library / original");
    println!("input            edges  phase             library    original   ratio");
}

/// Prints what each phase takes, and answers how long the library takes from a file to its rings.
pub fn measure(name: &str, lines: &[Line3D]) -> f64 {
    let bytes = crate::file(lines);
    let (mut library, mut original) = (Vec::new(), Vec::new());
    let mut graph = Graph::new();
    let start = Instant::now();
    while start.elapsed() < TIME || library.len() < LEAST_RUNS {
        let (times, rings) = run_library(&mut graph, lines, &bytes);
        library.push(times);
        let (times, original_rings) = run_original(lines, &bytes);
        original.push(times);
        assert_eq!(rings, original_rings, "rings of {name}");
    }
    let edges = lines.len();
    for (place, phase) in PHASES.iter().enumerate() {
        let of_phase = |runs: &[Times]| median(runs.iter().map(|run| run[place]).collect());
        let (library, original) = (of_phase(&library), of_phase(&original));
        let ratio = library / original;
        println!(
            "{name:<15} {edges:>6}  {phase:<14} {library:>10.1}  {original:>10.1}  {ratio:>6.2}"
        );
    }
    median(library.iter().map(|run| run[PHASES.len() - 1]).collect())
}

fn timed<T>(time: &mut Duration, work: impl FnOnce() -> T) -> T {
    let start = Instant::now();
    let made = black_box(work());
    *time = start.elapsed();
    made
}

fn run_library(graph: &mut Graph, lines: &[Line3D], bytes: &[u8]) -> (Times, usize) {
    const GRANTED: &str = "no call of a benchmark is refused";
    let mut times = Times::default();
    let [add, add_file, sort, prune, cut, rings, file] = &mut times;
    let lines: Vec<_> = lines.iter().map(station_line).collect();
    timed(add_file, || {
        graph.clear();
        let records = graph.add_records(bytes).expect(GRANTED);
        assert_eq!(records.whole(), Ok(lines.len()), "{GRANTED}");
    });
    graph.clear();
    timed(add, || {
        for line in &lines {
            graph.add_line(line).expect(GRANTED);
        }
    });
    timed(sort, || graph.sort_edges().expect(GRANTED));
    timed(prune, || graph.prune_dangles().expect(GRANTED));
    timed(cut, || graph.delete_cut_edges().expect(GRANTED));
    let count = timed(rings, || graph.extract_rings().expect(GRANTED).len());
    timed(file, || {
        graph.clear();
        let records = graph.add_records(bytes).expect(GRANTED);
        assert_eq!(records.whole(), Ok(lines.len()), "{GRANTED}");
        graph.sort_edges().expect(GRANTED);
        graph.prune_dangles().expect(GRANTED);
        graph.delete_cut_edges().expect(GRANTED);
        graph.extract_rings().expect(GRANTED).len()
    });
    (times, count)
}

fn run_original(lines: &[Line3D], bytes: &[u8]) -> (Times, usize) {
    let mut times = Times::default();
    let [add, add_file, sort, prune, cut, rings, file] = &mut times;
    timed(add_file, || read_original(bytes));
    let mut graph = PlanarGraph::new();
    timed(add, || {
        for &line in lines {
            graph.add_line(line);
        }
    });
    timed(sort, || graph.sort_edges());
    timed(prune, || graph.prune_dangles());
    timed(cut, || graph.delete_cut_edges());
    let count = timed(rings, || steps::count_rings(&mut graph));
    timed(file, || {
        let mut graph = read_original(bytes);
        graph.sort_edges();
        graph.prune_dangles();
        graph.delete_cut_edges();
        steps::count_rings(&mut graph)
    });
    (times, count)
}

fn read_original(bytes: &[u8]) -> PlanarGraph {
    let mut graph = PlanarGraph::new();
    for line in listing::segments(bytes) {
        graph.add_line(line.expect("a good record").expect("a segment"));
    }
    graph
}

fn station_line(line: &Line3D) -> tukmiheb::Line3D {
    let [start, end] = [line.start, line.end].map(|end| Coord3D::new(end.x, end.y, end.z));
    tukmiheb::Line3D::new(start, end, line.line_id)
}
