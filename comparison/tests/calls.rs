//! Call lists: wrong stages, refusals, short tables and lists, full tables, damaged tables, and
//! sound tables that additions cannot make.

use comparison::full;
use comparison::inputs::{self, STEPS};
use comparison::random::Random;
use comparison::Comparison;
use oracle::calls::Line;
use oracle::state::{Call, Lent, Reply, State, EDGE_LIMIT, HOLES, NODE_LIMIT};

#[test]
fn any_calls() {
    let mut both = Comparison::default();
    let mut random = Random::new(4);
    for _ in 0..6000 {
        let length = 10 + random.below(60);
        both.run(&inputs::any_calls(length, &mut random));
    }
    println!("{:?}", both.tally);
}

/// Separate segments, half as many as there may be nodes, fill the nodes, a dense map the edges, a ring
/// both; then lines with new ends, between old nodes and along old edges, before and after a reset.
#[test]
fn full_tables() {
    let mut both = Comparison::default();
    let mut random = Random::new(5);
    for map in [
        full::separate(NODE_LIMIT / 2),
        full::dense(EDGE_LIMIT),
        full::ring(NODE_LIMIT.min(EDGE_LIMIT)),
        inputs::star(NODE_LIMIT - 1),
        inputs::path(NODE_LIMIT as i32 - 1),
    ] {
        for fewer in 0..3 {
            let mut lines = inputs::traced(&map[..map.len() - fewer]);
            for _ in 0..2 {
                for _ in 0..20 {
                    let [[a, _], [_, b]] = [random.pick(&map), random.pick(&map)];
                    let far = [inputs::BOUND - random.below(9) as i32, 7];
                    for segment in [[a, b], [a, far], [far, [far[0], 9]]] {
                        lines.push(Line::Call(Call::Add(inputs::segment_line(segment, 9))));
                    }
                }
                lines.extend(STEPS.map(Line::Call));
                lines.push(Line::Call(Call::Reset));
            }
            both.run(&lines);
        }
    }
    println!("{:?}", both.tally);
}

/// Every kind of damage, in every stage: what follows is refused, or the tables are still sound.
#[test]
fn damaged_tables() {
    let mut both = Comparison::default();
    let mut random = Random::new(6);
    let mut intact = 0;
    for number in 0..20_000 {
        let map = inputs::random_map(1 + number % 12, 2 + random.below(7), 2, &mut random);
        let mut lines = inputs::traced(&map);
        lines.extend(STEPS[..number % 5].iter().map(|&step| Line::Call(step)));
        both.run(&lines);
        let counts = both.counts();
        let mut lines = inputs::any_damage(counts[0], counts[1], &mut random);
        let line = inputs::any_line(3, &mut random);
        let mut calls = [
            Call::Add(line),
            Call::Reset,
            Call::Sort,
            Call::Prune,
            Call::Cut,
            Call::Rings,
        ];
        random.shuffle(&mut calls);
        lines.extend(calls.map(Line::Call));
        let refused = both.tally.refused;
        both.run(&lines);
        intact += usize::from(both.tally.refused < refused + calls.len());
    }
    println!("{:?}, {intact} without a refusal of all", both.tally);
    assert!(intact > 1000 && intact < 15_000);
}

/// Sound tables that additions cannot make: all steps that are left, then lines and all steps.
#[test]
fn sound_tables() {
    let mut both = Comparison::default();
    let mut random = Random::new(7);
    for number in 0..8000 {
        let (nodes, edges) = match number % 400 {
            0 => (NODE_LIMIT, EDGE_LIMIT),
            1 => (40, EDGE_LIMIT / 2),
            _ => (2 + random.below(8), random.below(16)),
        };
        let mut lines = inputs::sound_tables(nodes, edges, &mut random);
        lines.extend(STEPS.map(Line::Call));
        lines.push(Line::Call(Call::Reset));
        for _ in 0..random.below(6) {
            lines.push(Line::Call(Call::Add(inputs::any_line(3, &mut random))));
        }
        lines.extend(STEPS.map(Line::Call));
        both.run(&lines);
    }
    println!("{:?}", both.tally);
    assert!(both.tally.tied > 100);
}

/// Tables and lists that are longer than they need be: what lies past the limits stays. The last
/// table of a slice is lent longer, so that all slices are.
#[test]
fn longer_tables() {
    let mut state = State::default();
    let tables = &mut state.tables;
    for table in [
        &mut tables.nodes_x,
        &mut tables.nodes_y,
        &mut tables.nodes_z,
        &mut tables.edges_line,
    ] {
        table.extend([f64::NAN; 9]);
    }
    for table in [
        &mut tables.nodes_degree,
        &mut tables.dir_edges_src,
        &mut tables.dir_edges_dst,
        &mut tables.nodes_outgoing,
        &mut tables.edges_list_place,
        &mut tables.pairs_next,
    ] {
        table.extend([7; 9]);
    }
    tables.nodes_marked.extend([true; 9]);
    tables.dir_edges_marked.extend([true; 9]);
    tables.edges_line_id.extend([7; 9]);
    tables.pairs_id.extend([7; 9]);
    let mut both = Comparison::over(state);
    both.run(&inputs::whole_run(&full::grid(EDGE_LIMIT)));
    both.run(&inputs::whole_run(&full::dense(EDGE_LIMIT + 1)));
    both.run(&inputs::whole_run(&inputs::star(NODE_LIMIT)));
}

/// Each ring list alone one entry short, and each at its least length.
#[test]
fn each_list() {
    let mut both = Comparison::default();
    let mut lines = inputs::traced(&inputs::grid(2, 2, 1));
    lines.extend(STEPS[..3].iter().map(|&step| Line::Call(step)));
    both.run(&lines);
    for list in 1..HOLES {
        let mut lent = Lent::of_length(24);
        lent.lists[list] = 23;
        assert_eq!(both.call(&Call::Rings, &lent), Ok(Reply::Refused(8)));
    }
    let last = both.call(&Call::Rings, &Lent::of_length(24));
    assert!(matches!(last, Ok(Reply::Rings { count: 5, .. })));
}
