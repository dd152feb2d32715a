//! Request §2: which enclosed ring holds an open one. A second reading of its words, by another way than
//! the library's: where a side meets the level of a test point is a fraction, and every ring is asked
//! about every other.

use crate::state::{Hole, OUTSIDE};

/// A point with whole coordinates, in numbers that are wide enough for every product below.
pub type Point = [i128; 2];

/// A ring as its corners: the nodes at which its half-edges start, and where they lie.
pub struct Outline {
    nodes: Vec<usize>,
    points: Vec<Point>,
    face: usize,
    doubled: i128,
}

impl Outline {
    /// The ring with these corners and this face number.
    pub fn new(corners: impl IntoIterator<Item = (usize, Point)>, face: usize) -> Self {
        let (nodes, points): (Vec<usize>, Vec<Point>) = corners.into_iter().unzip();
        let cross = |[[x1, y1], [x2, y2]]: [Point; 2]| x1 * y2 - x2 * y1;
        let doubled = sides(&points).map(cross).sum();
        Outline {
            nodes,
            points,
            face,
            doubled,
        }
    }

    /// Its doubled area: above 0 where it is enclosed, below 0 where it is open.
    pub fn doubled(&self) -> i128 {
        self.doubled
    }

    /// Whether it is enclosed and has the test point of an open ring strictly inside.
    fn holds(&self, open: &Outline) -> bool {
        let inside = |point: Point| is_inside(&self.points, point);
        self.doubled > 0 && self.test_point(open).is_some_and(inside)
    }

    /// An open ring's node of least x, then least y, among those that this ring does not pass.
    fn test_point(&self, open: &Outline) -> Option<Point> {
        let corners = open.nodes.iter().zip(&open.points);
        let free = corners.filter(|(node, _)| !self.nodes.contains(node));
        free.map(|(_, &point)| point).min()
    }
}

/// The record of each open ring, in ring order.
pub fn holes(rings: &[Outline]) -> Vec<Hole> {
    let numbered = rings.iter().enumerate();
    let open = numbered.filter(|(_, ring)| ring.doubled < 0);
    let record = |(number, ring): (usize, &Outline)| Hole {
        ring: number as u16,
        holder: holder(ring, rings).map_or(OUTSIDE, |holder| holder as u16),
        doubled: ring.doubled as i64,
    };
    open.map(record).collect()
}

/// Of the rings that hold an open one, that with the smallest doubled area, then the lower face number.
fn holder(open: &Outline, rings: &[Outline]) -> Option<usize> {
    let numbers = 0..rings.len();
    let holders = numbers.filter(|&number| rings[number].holds(open));
    holders.min_by_key(|&number| (rings[number].doubled, rings[number].face))
}

/// The sides of a ring through these points.
fn sides(points: &[Point]) -> impl Iterator<Item = [Point; 2]> + '_ {
    let next = points.iter().cycle().skip(1);
    points.iter().zip(next).map(|(&a, &b)| [a, b])
}

/// Whether a point is strictly inside a ring: on none of its sides, and an odd number of them meet its
/// level to the left of it.
pub fn is_inside(ring: &[Point], point: Point) -> bool {
    let on_line = sides(ring).any(|side| is_on(side, point));
    let left = sides(ring).filter(|&side| meets_left(side, point));
    !on_line && left.count() % 2 == 1
}

/// Whether a point is on a side, ends included: the ways to the two ends lie on one line (cross product),
/// and they are not in one direction (dot product).
fn is_on(side: [Point; 2], [x, y]: Point) -> bool {
    let [[x1, y1], [x2, y2]] = side.map(|[end_x, end_y]| [end_x - x, end_y - y]);
    x1 * y2 == x2 * y1 && x1 * x2 + y1 * y2 <= 0
}

/// Whether a side meets the level of a point to the left of it. A side has its upper end and not its lower
/// one: a corner on the level counts once where the ring goes through the level, and twice or not at all
/// where it turns back. The place is low x + (y - low y) (high x - low x) / rise, and it is compared with
/// x as fractions over the rise, which is above 0.
fn meets_left([a, b]: [Point; 2], [x, y]: Point) -> bool {
    let [low, high] = if a[1] < b[1] { [a, b] } else { [b, a] };
    let rise = high[1] - low[1];
    let met = low[0] * rise + (y - low[1]) * (high[0] - low[0]);
    low[1] < y && y <= high[1] && met < x * rise
}
