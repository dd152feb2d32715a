//! Prints the call lists of the stored sample: maps through all steps, any calls in any order, and
//! sound tables that additions cannot make, each followed by the state that it leaves. It prints the
//! same lists every time.

use comparison::inputs::{self, Segment, STEPS};
use comparison::islands::{self, segments};
use comparison::random::Random;
use oracle::calls::Line;
use oracle::state::{Call, HOLE_LIST_LENGTH, LIST_LENGTH};

fn print_list(name: &str, lines: &[Line]) {
    println!("# {name}");
    for line in lines {
        println!("{line}");
    }
    println!("show");
}

fn main() {
    let mut random = Random::new(20);
    let maps: [(&str, Vec<Segment>); 8] = [
        ("star", inputs::star(9)),
        ("path", inputs::path(6)),
        ("grid", inputs::grid(3, 2, 5)),
        ("nested squares", inputs::nested_squares(3)),
        ("squares that touch", inputs::touching_squares(3)),
        ("triangles that touch", inputs::touching_triangles(3, true)),
        ("overlaps", inputs::overlaps(4)),
        ("extremes", inputs::extremes()),
    ];
    for (name, map) in maps {
        print_list(
            name,
            &inputs::whole_run(&inputs::shuffled(map, &mut random)),
        );
    }
    print_islands(&mut random);
    for _ in 0..12 {
        let map = inputs::random_map(14, 9, 6, &mut random);
        print_list("random map", &inputs::whole_run(&map));
    }
    for _ in 0..30 {
        print_list("any calls", &inputs::any_calls(30, &mut random));
    }
    println!("{}", Line::List(LIST_LENGTH));
    println!("{}", Line::Holes(HOLE_LIST_LENGTH));
    for _ in 0..12 {
        let mut lines = inputs::sound_tables(5, 7, &mut random);
        lines.extend(STEPS.map(Line::Call));
        print_list("sound tables", &lines);
    }
}

/// Maps with holes: islands, and loops that touch, cross or lie on one another's sides.
fn print_islands(random: &mut Random) {
    let maps: [(&str, Vec<Segment>); 8] = [
        ("squares in squares", segments(&islands::nested(4))),
        (
            "triangles in triangles, at one corner",
            segments(&islands::nested_at_a_corner(4)),
        ),
        (
            "islands that touch their holder",
            segments(&islands::fan_in_a_square(3)),
        ),
        ("islands in islands", islands::islands_in_cells(2, 1)),
        ("corners on sides", segments(&islands::corners_on_sides())),
        ("slivers", segments(&islands::slivers(5))),
        (
            "a star that crosses itself",
            segments(&islands::pentagram([0, 0])),
        ),
        (
            "squares that cross",
            segments(&islands::crossing_squares(3)),
        ),
    ];
    for (name, map) in maps {
        print_list(name, &inputs::whole_run(&inputs::shuffled(map, random)));
    }
    for _ in 0..12 {
        let loops = islands::any_islands(6, 12, random);
        print_list("random islands", &with_short_lists(&segments(&loops)));
    }
    for _ in 0..8 {
        let loops = islands::any_loops(4, 7, random);
        print_list("random loops", &inputs::whole_run(&segments(&loops)));
    }
    for _ in 0..8 {
        let loops = islands::any_islands(4, 8, random);
        let mut lines = islands::apart(&loops, 2, random);
        lines.extend(STEPS.map(Line::Call));
        print_list("loops with nodes of their own", &lines);
    }
}

/// A map up to its rings, with a record for holes more at each try.
fn with_short_lists(map: &[Segment]) -> Vec<Line> {
    let mut lines = inputs::traced(map);
    lines.extend(STEPS[..3].iter().map(|&step| Line::Call(step)));
    for length in 0..4 {
        lines.extend([Line::Holes(length), Line::Call(Call::Rings)]);
    }
    lines.extend([Line::Holes(HOLE_LIST_LENGTH), Line::Call(Call::Rings)]);
    lines
}
