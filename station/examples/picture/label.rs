//! Where a compartment's label goes: as far from its borders as can be found by trying.

use crate::frame::Place;

/// How many places are tried along each side of a compartment's box: an odd number, so that its middle is one.
const TRIED: usize = 49;

/// The place with most space around it within some closed borders, by the even-odd rule, and how much space.
/// Other lines take space too. Of places that are as good the one nearest to the middle is taken.
pub fn roomiest(borders: &[Vec<Place>], lines: &[(Place, Place)]) -> Option<(Place, f64)> {
    let sides: Vec<(Place, Place)> = borders.iter().flat_map(|border| sides(border)).collect();
    let tried: Vec<Place> = grid(borders.first()?).collect();
    let middle = tried[tried.len() / 2];
    let inside = tried.into_iter().filter(|&at| is_inside(at, &sides));
    let rooms = inside.map(|at| {
        let distances = sides.iter().chain(lines).map(|&side| distance(at, side));
        (at, distances.fold(f64::INFINITY, f64::min))
    });
    let worth = |&(at, room): &(Place, f64)| room - FAR * length(at, middle);
    rooms.max_by(|one, other| worth(one).total_cmp(&worth(other)))
}

/// How much space a pixel away from the middle is worth.
const FAR: f64 = 0.02;

fn sides(border: &[Place]) -> impl Iterator<Item = (Place, Place)> + '_ {
    let next = border.iter().cycle().skip(1);
    border.iter().copied().zip(next.copied())
}

/// Places all over the box of an outline.
fn grid(outline: &[Place]) -> impl Iterator<Item = Place> {
    let reach = |(low, high): (f64, f64), value: f64| (low.min(value), high.max(value));
    let nothing = (f64::INFINITY, f64::NEG_INFINITY);
    let (left, right) = outline.iter().map(|at| at.0).fold(nothing, reach);
    let (top, bottom) = outline.iter().map(|at| at.1).fold(nothing, reach);
    let part = |number: usize| (number as f64 + 0.5) / TRIED as f64;
    (0..TRIED * TRIED).map(move |number| {
        let (across, down) = (part(number % TRIED), part(number / TRIED));
        (left + across * (right - left), top + down * (bottom - top))
    })
}

/// Whether a ray to the right crosses the sides an odd number of times.
fn is_inside((x, y): Place, sides: &[(Place, Place)]) -> bool {
    let crossed = sides.iter().filter(|((x1, y1), (x2, y2))| {
        (*y1 > y) != (*y2 > y) && x < x1 + (y - y1) * (x2 - x1) / (y2 - y1)
    });
    crossed.count() % 2 == 1
}

fn distance((x, y): Place, ((x1, y1), (x2, y2)): (Place, Place)) -> f64 {
    let (dx, dy) = (x2 - x1, y2 - y1);
    let along = ((x - x1) * dx + (y - y1) * dy) / (dx * dx + dy * dy);
    let along = along.clamp(0.0, 1.0);
    length((x, y), (x1 + along * dx, y1 + along * dy))
}

fn length((x1, y1): Place, (x2, y2): Place) -> f64 {
    (x2 - x1).hypot(y2 - y1)
}
