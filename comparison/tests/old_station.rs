//! Request §6: "An old station refuses a file of sound segments past 1,024 nodes or edges by 3 or 4, unless
//! 12 comes first." A second reading of a station, with its limits as numbers, stands beside the library:
//! with the library's limits it answers what the library does, and with the old ones the same up to the
//! record that it refuses.

use comparison::files;
use comparison::full;
use comparison::inputs::{self, any_passes, segment_line, Segment, BOUND};
use comparison::random::Random;
use oracle::original::{Coord3D, Line3D};
use oracle::state::{EDGE_LIMIT, NODE_LIMIT, PAIR_LIMIT};
use std::collections::{BTreeMap, HashMap, HashSet};
use tukmiheb::Graph;

// ---- a station by its limits

/// How many nodes, edges, and pairs of an edge and a line id there is space for.
#[derive(Clone, Copy)]
struct Limits {
    nodes: usize,
    edges: usize,
    pairs: usize,
}

const OLD: Limits = Limits {
    nodes: 1024,
    edges: 1024,
    pairs: PAIR_LIMIT,
};

const NEW: Limits = Limits {
    nodes: NODE_LIMIT,
    edges: EDGE_LIMIT,
    pairs: PAIR_LIMIT,
};

const NONE: Limits = Limits {
    nodes: usize::MAX,
    edges: usize::MAX,
    pairs: usize::MAX,
};

/// The edge of an addition and whether it is new, or the number of the refusal.
type Reply = Result<(usize, bool), u32>;

/// A point by its whole coordinates.
type Key = [i64; 2];

fn key(end: Coord3D) -> Key {
    [end.x as i64, end.y as i64]
}

/// What a station has taken: points, the edges between them by their two ends, lower end first, and the
/// line ids of each edge.
struct Station {
    limits: Limits,
    nodes: HashSet<Key>,
    edges: HashMap<[Key; 2], usize>,
    pairs: HashSet<(usize, u32)>,
}

fn demand(holds: bool, number: u32) -> Result<(), u32> {
    if holds {
        Ok(())
    } else {
        Err(number)
    }
}

impl Station {
    fn new(limits: Limits) -> Self {
        Station {
            limits,
            nodes: HashSet::new(),
            edges: HashMap::new(),
            pairs: HashSet::new(),
        }
    }

    /// Takes a sound segment: 3 and 4 of a new edge, and 12 last.
    fn add(&mut self, line: &Line3D) -> Reply {
        let ends = [key(line.start), key(line.end)];
        let [a, b] = ends;
        let between = [a.min(b), a.max(b)];
        let found = self.edges.get(&between).copied();
        if found.is_none() {
            let missing = ends.iter().filter(|end| !self.nodes.contains(*end));
            let nodes = self.nodes.len() + missing.count();
            demand(nodes <= self.limits.nodes, 3)?;
            demand(self.edges.len() < self.limits.edges, 4)?;
        }
        let edge = found.unwrap_or(self.edges.len());
        let pair = (edge, line.line_id);
        let space = self.pairs.len() < self.limits.pairs;
        demand(self.pairs.contains(&pair) || space, 12)?;
        self.nodes.extend(ends);
        self.edges.insert(between, edge);
        self.pairs.insert(pair);
        Ok((edge, found.is_none()))
    }

    /// Nodes and edges.
    fn counts(&self) -> [usize; 2] {
        [self.nodes.len(), self.edges.len()]
    }
}

/// Whether so many nodes or edges are more than the old station has space for.
fn is_past([nodes, edges]: [usize; 2]) -> bool {
    nodes > OLD.nodes || edges > OLD.edges
}

// ---- a file's answers

/// The answers to the records that were taken, and the number of what ended the file, 0 at its end.
#[derive(Debug, PartialEq)]
struct Answers {
    taken: Vec<(usize, bool)>,
    number: u32,
}

/// The answers of one who takes lines, up to the first that is refused.
fn answers(lines: &[Line3D], mut add: impl FnMut(&Line3D) -> Reply) -> Answers {
    let mut taken = Vec::new();
    for line in lines {
        match add(line) {
            Ok(edge) => taken.push(edge),
            Err(number) => return Answers { taken, number },
        }
    }
    Answers { taken, number: 0 }
}

fn of_station(limits: Limits, lines: &[Line3D]) -> Answers {
    let mut station = Station::new(limits);
    answers(lines, |line| station.add(line))
}

/// The library's, line by line; the whole file in one call takes as many, and ends the same way.
fn of_library(lines: &[Line3D]) -> Answers {
    let mut graph = Graph::new();
    let one_by_one = answers(lines, |line| {
        let [start, end] =
            [line.start, line.end].map(|end| tukmiheb::Coord3D::new(end.x, end.y, end.z));
        let added = graph.add_line(&tukmiheb::Line3D::new(start, end, line.line_id));
        let added = added.map_err(|refusal| refusal.number())?;
        Ok((added.edge.0.into(), added.new))
    });
    let bytes = files::records(lines.iter().copied());
    let at_once = Graph::new().add_records(&bytes).expect("a new graph");
    assert_eq!(at_once.taken, one_by_one.taken.len());
    let number = at_once.stopped.map_or(0, |refusal| refusal.number());
    assert_eq!(number, one_by_one.number);
    one_by_one
}

/// The numbers by which the old station and the library end a file of sound segments.
fn compared(lines: &[Line3D]) -> [u32; 2] {
    let new = of_library(lines);
    assert_eq!(of_station(NEW, lines), new);
    let old = of_station(OLD, lines);
    let (count, number) = (old.taken.len(), old.number);
    assert_eq!(old.taken, new.taken[..count]);
    assert_eq!(number, due(lines, count), "record {count}");
    [number, new.number]
}

/// The number that the sentence says for the record behind so many that an old station took, 0 at the
/// file's end. A station without limits shows what that record would bring.
fn due(lines: &[Line3D], count: usize) -> u32 {
    let mut whole = Station::new(NONE);
    answers(&lines[..count], |line| whole.add(line));
    assert!(!is_past(whole.counts()) && whole.pairs.len() <= OLD.pairs);
    let Some(next) = lines.get(count) else {
        return 0;
    };
    answers(&[*next], |line| whole.add(line));
    match whole.counts() {
        [nodes, _] if nodes > OLD.nodes => 3,
        [_, edges] if edges > OLD.edges => 4,
        _ => {
            assert!(whole.pairs.len() > OLD.pairs, "nothing is too many");
            12
        }
    }
}

// ---- files

/// A map with an id for each segment, those without length left out.
fn traced(map: Vec<Segment>) -> Vec<Line3D> {
    let sound = map.into_iter().filter(|[a, b]| a != b);
    sound
        .zip(1..)
        .map(|(segment, id)| segment_line(segment, id))
        .collect()
}

/// How often each two numbers came: the old station's, and the library's.
#[derive(Default)]
struct Tally(BTreeMap<[u32; 2], usize>);

impl Tally {
    fn add(&mut self, lines: &[Line3D]) {
        *self.0.entry(compared(lines)).or_default() += 1;
    }

    fn has(&self, numbers: &[[u32; 2]]) -> bool {
        println!("{:?}", self.0);
        numbers.iter().all(|numbers| self.0.contains_key(numbers))
    }
}

/// Grids, stars, dense maps, paths and separate segments, of sizes around both limits; and all full maps.
#[test]
fn built_files() {
    let mut random = Random::new(62);
    let mut tally = Tally::default();
    for limit in [OLD.nodes, NODE_LIMIT] {
        for size in [limit - 1, limit, limit + 1] {
            tally.add(&traced(full::grid(size)));
            tally.add(&traced(full::dense(size)));
            tally.add(&traced(inputs::star(size)));
            tally.add(&traced(inputs::path(size as i32)));
            tally.add(&traced(full::separate(size / 2 + size % 2)));
        }
    }
    for map in full::maps(&mut random) {
        tally.add(&traced(inputs::shuffled(map, &mut random)));
    }
    assert!(tally.has(&[[0, 0], [3, 0], [4, 0], [3, 3], [4, 4]]));
}

/// Random maps from few points to many, so that now edges run out and now nodes.
#[test]
fn random_files() {
    let mut random = Random::new(63);
    let mut tally = Tally::default();
    for number in 0..40 {
        let (edges, points) = (500 + random.below(2000), 60 + random.below(3000));
        let size = [40, 1000, BOUND][number % 3];
        tally.add(&traced(inputs::random_map(
            edges,
            points,
            size,
            &mut random,
        )));
    }
    assert!(tally.has(&[[0, 0], [3, 0], [4, 0]]));
}

/// Passes over a map again and again, with few ids or many: pairs run out, or nodes or edges before.
#[test]
fn repeated_passes() {
    let mut random = Random::new(64);
    let mut tally = Tally::default();
    for number in 0..30 {
        let size = 50 + random.below(EDGE_LIMIT);
        let map = match number % 3 {
            0 => full::grid(size),
            1 => inputs::star(size),
            _ => full::dense(size),
        };
        let count = 1000 + random.below(5000);
        let ids = [2, 7, 1 << 20][random.below(3)];
        tally.add(&any_passes(count, &map, ids, &mut random));
    }
    assert!(tally.has(&[[0, 0], [3, 0], [4, 0], [12, 12]]));
}

/// All nodes, edges and pairs of an old station are in use: a record that needs more of several gets 3 or 4,
/// where the library, with space for nodes and edges, gets 12.
#[test]
fn full_of_everything() {
    let ring = full::ring(OLD.nodes);
    let passes = ring.iter().cycle().zip(0..OLD.pairs as u32);
    let full: Vec<Line3D> = passes.map(|(&side, id)| segment_line(side, id)).collect();
    let after = |segment: Segment, id: u32| {
        let next = segment_line(segment, id);
        compared(&[&full[..], &[next]].concat())
    };
    let ([corner, _], far) = (ring[0], [-5, -5]);
    assert_eq!(compared(&full), [0, 0]);
    assert_eq!(after([corner, far], 1), [3, 12]);
    assert_eq!(after([corner, [2, 1]], 1), [4, 12]);
    assert_eq!(after(ring[0], 1), [12, 12]);
    assert_eq!(after(ring[1], 1), [0, 0]);
}
