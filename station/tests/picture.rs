//! The picture of a map: the stored one of the sample, and that every part of a map is drawn once.

#[path = "../examples/picture/drawing.rs"]
mod drawing;
#[path = "../examples/picture/frame.rs"]
mod frame;
#[path = "../examples/picture/label.rs"]
mod label;

use drawing::picture;
use tukmiheb::{Coord3D, Graph, Line3D, TissueMap};

const WAIST: &[u8] = include_bytes!("../../samples/waist.seg");
const WAIST_PICTURE: &str = include_str!("../../samples/waist.svg");

type Point = [i32; 2];

/// The map of closed loops through these points.
fn map(loops: &[&[Point]]) -> TissueMap {
    let point = |&[x, y]: &Point| Coord3D::new(x.into(), y.into(), 0.0);
    let sides = loops.iter().flat_map(|corners| {
        let next = corners.iter().cycle().skip(1);
        let sides = corners.iter().zip(next);
        sides.map(|(a, b)| Line3D::new(point(a), point(b), 1))
    });
    Graph::polygonize_lines(sides).expect("a map")
}

/// How many shapes of each class there are: compartments, outsides, holes, flat rings, dangles, cut edges,
/// nodes. The key has one line for four of them.
fn shapes(svg: &str) -> [usize; 7] {
    assert!(!svg.contains("NaN") && !svg.contains("inf"), "{svg}");
    let count = |opening: &str| svg.matches(opening).count();
    let lines = |class: &str| count(&format!("<path class=\"{class}\""));
    [
        count("<path class=\"enclosed f"),
        lines("open") - 1,
        lines("hole") - 1,
        lines("flat"),
        lines("dangle") - 1,
        lines("cut") - 1,
        count("<circle"),
    ]
}

#[test]
fn the_waist_sample() {
    let map = Graph::polygonize(WAIST).expect("a sound file");
    let svg = picture(&map);
    assert!(svg == WAIST_PICTURE, "samples/waist.svg is another picture");
    assert_eq!(shapes(&svg), [6, 1, 1, 0, 1, 1, 21]);
    for area in [">6,325<", ">25,950<", ">750<"] {
        assert!(svg.contains(area), "{area}");
    }
}

#[test]
fn maps_of_every_kind() {
    assert_eq!(shapes(&picture(&map(&[]))), [0; 7]);
    // A segment, as a loop of two corners: a dangle.
    let segment: &[Point] = &[[0, 0], [5, 0]];
    assert_eq!(shapes(&picture(&map(&[segment]))), [0, 0, 0, 0, 1, 0, 2]);
    let upright: &[Point] = &[[0, 0], [0, 5]];
    assert_eq!(shapes(&picture(&map(&[upright]))), [0, 0, 0, 0, 1, 0, 2]);
    // Two crossing sides without a node: both rings are flat.
    let bow: &[Point] = &[[0, 0], [2, 2], [2, 0], [0, 2]];
    assert_eq!(shapes(&picture(&map(&[bow]))), [0, 0, 0, 2, 0, 0, 4]);
    let far = 1_048_576;
    let outer: &[Point] = &[[-far, -far], [far, -far], [far, far], [-far, far]];
    let inner: &[Point] = &[[0, 0], [1, 0], [0, 1]];
    let svg = picture(&map(&[outer, inner]));
    assert_eq!(shapes(&svg), [2, 1, 1, 0, 0, 0, 7]);
    assert!(svg.contains(">4,398,046,511,103.5<"), "{svg}");
}
