//! Small stand-ins for what the original's text names and does not hold: foreign crates, types of
//! other files, and the policy that is left out. Each says what of the original it stands for.

/// For `geo_types::Coord`.
#[derive(Clone, Copy, Debug, PartialEq)]
pub struct Coord<T> {
    pub x: T,
    pub y: T,
}

/// For `robust::Coord`.
pub type RobustCoord = Coord<f64>;

/// For `robust::orient2d`: above 0 where a, b, c turn counterclockwise. The exact determinant, for
/// coordinates that are whole numbers within 64 bits; document 01 lets no others in.
pub fn orient2d(a: RobustCoord, b: RobustCoord, c: RobustCoord) -> f64 {
    let whole = |value: f64| i128::from(value as i64);
    let left = (whole(a.x) - whole(c.x)) * (whole(b.y) - whole(c.y));
    let right = (whole(a.y) - whole(c.y)) * (whole(b.x) - whole(c.x));
    (left - right) as f64
}

/// For `types::EdgeSources`: the line ids of an edge, rising and without repeats, as the original's own
/// check wants them.
#[derive(Clone, Debug)]
pub struct EdgeSources {
    pub line_ids: Vec<u32>,
}

impl EdgeSources {
    pub fn from_line_id(line_id: u32) -> Self {
        Self {
            line_ids: vec![line_id],
        }
    }

    pub fn merge_line_id(&mut self, line_id: u32) {
        if let Err(place) = self.line_ids.binary_search(&line_id) {
            self.line_ids.insert(place, line_id);
        }
    }
}

/// For `types::LocalFaceRef`.
#[derive(Clone)]
pub struct LocalFaceRef {
    pub component_id: usize,
    pub face_id: usize,
}

/// For `options::ExecutionPolicy`, which is left out: there is no value of this type, so every
/// method runs without a policy.
pub enum ExecutionPolicy {}

impl ExecutionPolicy {
    pub fn check_cancelled_every(&self, _stage: &str, _work_items: usize) -> Result<()> {
        match *self {}
    }

    pub fn check_cancelled(&self, _stage: &str) -> Result<()> {
        match *self {}
    }

    pub fn check_uncancellable_sort(&self, _stage: &str, _items: usize) -> Result<()> {
        match *self {}
    }
}

/// For `error::PolygonizeError`, with the one case that the carried-over methods make.
#[derive(Debug)]
pub enum PolygonizeError {
    InternalInvariantViolation { reason: String },
}

/// For `error::Result`.
pub type Result<T> = std::result::Result<T, PolygonizeError>;
