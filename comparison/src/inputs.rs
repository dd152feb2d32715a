//! Inputs: maps as segments of whole coordinates, and call lists made of them.

use crate::random::Random;
use oracle::calls::Line;
use oracle::original::{Coord3D, Line3D};
use oracle::state::{
    Call, EDGE_LIMIT, HOLE_LIST_LENGTH, LIST_END, LIST_LENGTH, NODE_LIMIT, PAIR_LIMIT, TABLES,
};

/// The coordinate bound.
pub const BOUND: i32 = 1_048_576;

pub type Point = [i32; 2];
pub type Segment = [Point; 2];

// ---- maps

/// Segments from the centre to points on a square around it.
pub fn star(spokes: usize) -> Vec<Segment> {
    let side = (spokes as i32 + 7) / 8 * 2;
    let corner = side / 2;
    let around = (0..4 * side).map(|place| {
        let along = place % side - corner;
        match place / side {
            0 => [corner, along],
            1 => [-along, corner],
            2 => [-corner, -along],
            _ => [along, -corner],
        }
    });
    around.take(spokes).map(|end| [[0, 0], end]).collect()
}

pub fn path(length: i32) -> Vec<Segment> {
    (0..length)
        .map(|place| [[place, place % 2], [place + 1, (place + 1) % 2]])
        .collect()
}

/// Squares of side `step`, so many across and so many up.
pub fn grid(across: i32, up: i32, step: i32) -> Vec<Segment> {
    let mut segments = Vec::new();
    for x in 0..=across {
        for y in 0..=up {
            let corner = [x * step, y * step];
            if x < across {
                segments.push([corner, [(x + 1) * step, y * step]]);
            }
            if y < up {
                segments.push([corner, [x * step, (y + 1) * step]]);
            }
        }
    }
    segments
}

pub fn square([x, y]: Point, side: i32) -> Vec<Segment> {
    let corners = [[x, y], [x + side, y], [x + side, y + side], [x, y + side]];
    loop_through(&corners)
}

pub fn loop_through(points: &[Point]) -> Vec<Segment> {
    let next = points.iter().cycle().skip(1);
    points.iter().zip(next).map(|(&a, &b)| [a, b]).collect()
}

pub fn nested_squares(count: i32) -> Vec<Segment> {
    (1..=count)
        .flat_map(|size| square([-size, -size], 2 * size))
        .collect()
}

/// Squares that touch the next one at a corner.
pub fn touching_squares(count: i32) -> Vec<Segment> {
    (0..count)
        .flat_map(|number| square([2 * number, 2 * number], 2))
        .collect()
}

/// Triangles that share one corner, outside one another or inside a square that has it too.
pub fn touching_triangles(count: i32, in_square: bool) -> Vec<Segment> {
    let wide = 2 * count;
    let mut segments: Vec<Segment> = (0..count)
        .flat_map(|number| loop_through(&[[0, 0], [wide, 2 * number], [wide, 2 * number + 1]]))
        .collect();
    if in_square {
        segments.extend(square([0, 0], 2 * wide));
    }
    segments
}

/// All segments between so many points of a line: they overlap without nodes where they do.
pub fn overlaps(points: i32) -> Vec<Segment> {
    let pairs = (0..points).flat_map(|a| (a + 1..points).map(move |b| (a, b)));
    pairs.map(|(a, b)| [[3 * a, a], [3 * b, b]]).collect()
}

/// All segments between points of a parabola: they cross without nodes.
pub fn complete(points: i32) -> Vec<Segment> {
    let at = |place: i32| [place, place * place];
    let pairs = (0..points).flat_map(|a| (a + 1..points).map(move |b| (a, b)));
    pairs.map(|(a, b)| [at(a), at(b)]).collect()
}

/// Segments between the corners and the middles of the coordinate bound's sides.
pub fn extremes() -> Vec<Segment> {
    let values = [-BOUND, 0, BOUND];
    let points: Vec<Point> = values
        .iter()
        .flat_map(|&x| values.map(|y| [x, y]))
        .collect();
    pairs(&points)
}

pub fn pairs(points: &[Point]) -> Vec<Segment> {
    let mut pairs = Vec::new();
    for (number, &a) in points.iter().enumerate() {
        pairs.extend(points[number + 1..].iter().map(|&b| [a, b]));
    }
    pairs
}

/// The segments of a map for which the mask has a one, the lowest for the first.
pub fn chosen(mask: u32, map: &[Segment]) -> Vec<Segment> {
    let numbered = map.iter().enumerate();
    let chosen = numbered.filter(|(place, _)| mask >> place & 1 == 1);
    chosen.map(|(_, &segment)| segment).collect()
}

/// So many segments between random points of a square.
pub fn random_map(edges: usize, points: usize, size: i32, random: &mut Random) -> Vec<Segment> {
    let coordinate = |random: &mut Random| random.below(2 * size as usize + 1) as i32 - size;
    let points: Vec<Point> = (0..points)
        .map(|_| [coordinate(random), coordinate(random)])
        .collect();
    (0..edges)
        .map(|_| [random.pick(&points), random.pick(&points)])
        .collect()
}

/// The same segments in another order, some turned round.
pub fn shuffled(mut segments: Vec<Segment>, random: &mut Random) -> Vec<Segment> {
    random.shuffle(&mut segments);
    for segment in &mut segments {
        if random.once_in(2) {
            segment.reverse();
        }
    }
    segments
}

// ---- call lists

/// Tables by their numbers in a call list.
pub const NODES_X: usize = 0;
pub const NODES_Y: usize = 1;
pub const NODES_Z: usize = 2;
pub const DEGREES: usize = 3;
pub const NODE_MARKS: usize = 4;
pub const SEGMENTS: usize = 5;
pub const LINE_IDS: usize = 6;
pub const SOURCES: usize = 7;
pub const TARGETS: usize = 8;
pub const HALF_MARKS: usize = 9;
pub const STARS: usize = 10;
pub const LIST_PLACES: usize = 11;
pub const PAIR_IDS: usize = 12;
pub const LINKS: usize = 13;

pub const STEPS: [Call; 4] = [Call::Sort, Call::Prune, Call::Cut, Call::Rings];

pub fn segment_line([[x1, y1], [x2, y2]]: Segment, line_id: u32) -> Line3D {
    Line3D {
        start: Coord3D::new(x1.into(), y1.into(), 0.0),
        end: Coord3D::new(x2.into(), y2.into(), 0.0),
        line_id,
    }
}

pub fn addition(segment: Segment, line_id: u32) -> Call {
    Call::Add(segment_line(segment, line_id))
}

/// A whole number into an entry of a table.
pub fn set(table: usize, place: usize, value: usize) -> Line {
    Line::Set(table, place, value as f64)
}

/// A new graph, and these calls.
pub fn from_new(calls: impl IntoIterator<Item = Call>) -> Vec<Line> {
    let create = [Call::Create];
    create.into_iter().chain(calls).map(Line::Call).collect()
}

/// A new graph with these segments.
pub fn traced(segments: &[Segment]) -> Vec<Line> {
    let lines = segments.iter().zip(1..);
    from_new(lines.map(|(&segment, id)| addition(segment, id)))
}

/// So many passes over a map, either way round, with any ids below a limit.
pub fn any_passes(count: usize, map: &[Segment], ids: usize, random: &mut Random) -> Vec<Line3D> {
    let mut pass = || {
        let mut segment = random.pick(map);
        if random.once_in(2) {
            segment.reverse();
        }
        segment_line(segment, random.below(ids) as u32)
    };
    (0..count).map(|_| pass()).collect()
}

/// A new graph with these segments, all steps, a reset, and all steps again.
pub fn whole_run(segments: &[Segment]) -> Vec<Line> {
    let mut lines = traced(segments);
    lines.extend(STEPS.map(Line::Call));
    lines.push(Line::Call(Call::Reset));
    lines.extend(STEPS.map(Line::Call));
    lines
}

/// A z of any bits.
fn any_z(random: &mut Random) -> f64 {
    let special = [0.0, -0.0, f64::NAN, f64::INFINITY, f64::MIN_POSITIVE];
    match random.below(3) {
        0 => f64::from_bits(random.bits()),
        1 => f64::from_bits(0x7ff0_0000_0000_0001 + random.bits() % 0xf_ffff),
        _ => random.pick(&special),
    }
}

/// An x or y that number 1 refuses.
fn bad_coordinate(random: &mut Random) -> f64 {
    let above = f64::from(BOUND) + 1.0;
    let far = f64::from_bits(f64::from(BOUND).to_bits() + 1);
    let small = f64::from_bits(1);
    random.pick(&[
        0.5,
        above,
        -above,
        far,
        -far,
        small,
        -small,
        f64::NAN,
        f64::INFINITY,
        -f64::INFINITY,
        1e300,
        -1e300,
        f64::EPSILON - 1.0,
    ])
}

/// Any line id, mostly one of a few.
fn any_id(random: &mut Random) -> u32 {
    match random.below(4) {
        0 => random.bits() as u32,
        1 => random.pick(&[0, u32::MAX]),
        _ => random.below(6) as u32,
    }
}

/// A line between points of a small square, with any z, either zero and any id; now and then a bad
/// one.
pub fn any_line(size: usize, random: &mut Random) -> Line3D {
    let point = |random: &mut Random| {
        let whole = |random: &mut Random| match random.below(size + 1) {
            0 => -0.0,
            value => value as f64 - 1.0,
        };
        Coord3D::new(whole(random), whole(random), any_z(random))
    };
    let mut line = Line3D {
        start: point(random),
        end: point(random),
        line_id: any_id(random),
    };
    if random.once_in(16) {
        let bad = bad_coordinate(random);
        let place = random.below(4);
        *[
            &mut line.start.x,
            &mut line.start.y,
            &mut line.end.x,
            &mut line.end.y,
        ][place] = bad;
    }
    line
}

/// Any calls in any order, mostly the next step; short tables and lists now and then.
pub fn any_calls(length: usize, random: &mut Random) -> Vec<Line> {
    let mut lines = vec![
        Line::List(LIST_LENGTH),
        Line::Holes(HOLE_LIST_LENGTH),
        Line::Call(Call::Create),
    ];
    let size = 1 + random.below(4);
    let mut stage = 0;
    for _ in 0..length {
        if random.once_in(25) {
            lines.push(Line::Short(random.below(TABLES)));
        }
        if random.once_in(25) {
            lines.push(Line::List(random.below(12)));
        }
        if random.once_in(25) {
            lines.push(Line::Holes(random.below(3)));
        }
        if random.once_in(10) {
            lines.extend([Line::List(LIST_LENGTH), Line::Holes(HOLE_LIST_LENGTH)]);
        }
        let call = match random.below(20) {
            0 => Call::Create,
            1 => Call::Reset,
            2 | 3 => random.pick(&STEPS),
            4..=9 if stage > 0 => STEPS[stage % 4],
            4 | 5 => Call::Sort,
            _ => Call::Add(any_line(size, random)),
        };
        stage = match call {
            Call::Create | Call::Reset => 0,
            Call::Add(_) => stage,
            _ => (stage + 1) % 5,
        };
        lines.push(Line::Call(call));
    }
    lines
}

/// The most ids that each of so many edges of sound tables has: four, or as many as there is space for.
fn ids_an_edge(edges: usize) -> usize {
    (PAIR_LIMIT / edges.max(1)).min(4)
}

/// A list of line ids for each of so many edges, its pairs anywhere in the part of the table that so
/// many edges can fill.
fn sound_lists(edges: usize, random: &mut Random) -> Vec<Line> {
    let mut lines = Vec::new();
    let most = ids_an_edge(edges);
    let mut places: Vec<usize> = (0..most * edges).collect();
    random.shuffle(&mut places);
    for edge in 0..edges {
        let count = 1 + random.below(most);
        let mut list = places.split_off(places.len() - count);
        let mut id = random.below(9);
        lines.extend([set(LINE_IDS, edge, id), set(LIST_PLACES, edge, list[0])]);
        list.push(LIST_END.into());
        for pair in list.windows(2) {
            lines.extend([set(PAIR_IDS, pair[0], id), set(LINKS, pair[0], pair[1])]);
            id += 1 + random.below(4);
        }
    }
    lines
}

/// Sound tables in any stage, such as additions may not make: nodes at one place, several edges
/// between two nodes, stars in any order, line ids anywhere in their table, any marks and degrees from
/// stage 2 on.
pub fn sound_tables(nodes: usize, edges: usize, random: &mut Random) -> Vec<Line> {
    let stage = random.below(5);
    let mut lines = vec![Line::Graph([nodes as u16, edges as u16, stage as u16])];
    let mut set =
        |table: usize, place: usize, value: f64| lines.push(Line::Set(table, place, value));
    let mut degrees = vec![0usize; nodes];
    let mut star: Vec<usize> = (0..2 * edges).collect();
    random.shuffle(&mut star);
    for edge in 0..edges {
        let a = random.below(nodes);
        let b = (a + 1 + random.below(nodes - 1)) % nodes;
        let marked = f64::from(u8::from(stage > 1 && random.once_in(4)));
        for (half, src, dst) in [(2 * edge, a, b), (2 * edge + 1, b, a)] {
            set(7, half, src as f64);
            set(8, half, dst as f64);
            set(9, half, marked);
            set(10, half, star[half] as f64);
            degrees[src] += 1;
        }
        for place in 6 * edge..6 * edge + 6 {
            set(5, place, any_z(random));
        }
    }
    for (node, &degree) in degrees.iter().enumerate() {
        let end = any_line(3, random).end;
        let point = if end.x.abs() < 3.0 && end.y.abs() < 3.0 {
            [end.x, end.y]
        } else {
            [0.0; 2]
        };
        set(0, node, point[0].trunc());
        set(1, node, point[1].trunc());
        set(2, node, end.z);
        let free = stage > 1;
        set(
            3,
            node,
            if free { random.below(65_536) } else { degree } as f64,
        );
        set(4, node, f64::from(u8::from(free && random.once_in(3))));
    }
    lines.extend(sound_lists(edges, random));
    lines
}

/// What can be damaged of the lists of line ids, for a graph of so many edges.
pub fn any_list_damage(edges: usize, random: &mut Random) -> Line {
    let edge = random.below(edges.max(1));
    let [pair, other] = [0; 2].map(|_| random.below(2 * edges.max(1)));
    let (any, end) = (random.below(65_536), usize::from(LIST_END));
    let link = random.pick(&[other, other, other, any, PAIR_LIMIT, end - 1, end, end]);
    let id = random.below(12);
    random.pick(&[
        set(LINE_IDS, edge, id),
        set(LIST_PLACES, edge, link),
        set(PAIR_IDS, pair, id),
        set(LINKS, pair, link),
    ])
}

/// What can be damaged, for a graph of these counts.
pub fn any_damage(nodes: usize, edges: usize, random: &mut Random) -> Vec<Line> {
    let node = random.below(nodes.max(1));
    let edge = random.below(edges.max(1));
    let half = 2 * edge + random.below(2);
    let number = |random: &mut Random| {
        let any = random.below(65_536);
        random.pick(&[0, 1, nodes, nodes + 1, 2 * edges, edge, half, any, 65_535]) as f64
    };
    let flag = random.below(2) as f64;
    let count = |limit: usize, random: &mut Random| {
        let any = random.below(65_536);
        random.pick(&[limit, limit + 1, 2 * limit, any, 65_535, 32_768]) as u16
    };
    let (n, e) = (nodes as u16, edges as u16);
    let any_stage = random.pick(&[0, 1, 2, 3, 4, 5, 255, 256, 257, 260, 512, 65_535]);
    match random.below(15) {
        0 => vec![Line::Graph([count(NODE_LIMIT, random), e, any_stage % 5])],
        1 => vec![Line::Graph([n, count(EDGE_LIMIT, random), any_stage % 5])],
        2 => vec![Line::Graph([n, e, any_stage])],
        3 => vec![Line::Graph([n.saturating_sub(1), e, any_stage % 5])],
        4 => vec![Line::Graph([n, e.saturating_sub(1), any_stage % 5])],
        5 => vec![Line::Set(7, half, number(random))],
        6 => vec![Line::Set(8, half, number(random))],
        7 => vec![Line::Set(9, half, flag)],
        8 => vec![
            Line::Set(9, 2 * edge, flag),
            Line::Set(9, 2 * edge + 1, flag),
        ],
        9 => vec![Line::Set(
            10,
            random.below(2 * edges.max(1)),
            number(random),
        )],
        10 => vec![Line::Set(3, node, number(random))],
        11 => vec![Line::Set(4, node, flag)],
        12 | 13 => vec![any_list_damage(edges, random)],
        _ => vec![Line::Set(random.below(2), node, bad_coordinate(random))],
    }
}
