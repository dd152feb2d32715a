//! Where a point of the map lies in the picture.

use tukmiheb::Coord3D;

/// A place in the picture, in pixels from the upper left corner.
pub type Place = (f64, f64);

/// The longest sides that a map is drawn with, and the space around it.
const WIDTH: f64 = 720.0;
const HEIGHT: f64 = 520.0;
const MARGIN: f64 = 36.0;

/// The map's place in the picture, and its scale. The map's y goes up, the picture's goes down.
pub struct Frame {
    left: f64,
    top: f64,
    scale: f64,
    /// The picture's sides.
    pub width: f64,
    pub height: f64,
}

impl Frame {
    /// The frame of a map that has these points.
    pub fn around(points: impl Iterator<Item = Coord3D> + Clone) -> Self {
        let (left, right) = ends(points.clone().map(|point| point.x));
        let (bottom, top) = ends(points.map(|point| point.y));
        // A map may be as flat as a line, or empty.
        let [across, up] = [right - left, top - bottom].map(|side| side.max(1.0));
        let scale = (WIDTH / across).min(HEIGHT / up);
        Frame {
            left,
            top,
            scale,
            width: WIDTH + 2.0 * MARGIN,
            height: (up * scale).max(1.0) + 2.0 * MARGIN,
        }
        .centred(across)
    }

    fn centred(mut self, across: f64) -> Self {
        self.left -= (WIDTH / self.scale - across) / 2.0;
        self
    }

    pub fn place(&self, point: Coord3D) -> Place {
        let right = (point.x - self.left) * self.scale;
        let down = (self.top - point.y) * self.scale;
        (MARGIN + right, MARGIN + down)
    }
}

/// The least and the greatest of some values, 0 where there are none.
fn ends(values: impl Iterator<Item = f64> + Clone) -> (f64, f64) {
    let least = values.clone().reduce(f64::min);
    let greatest = values.reduce(f64::max);
    (least.unwrap_or(0.0), greatest.unwrap_or(0.0))
}
