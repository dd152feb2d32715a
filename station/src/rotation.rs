//! The least rotation of a ring of keys, by which faces are named.

use crate::entries::{self, ROTATION_LENGTH};
use crate::Refusal;

/// Where the least rotation of a ring of keys starts, and how often the search compared two keys.
/// For n keys, n at least 2, that is never more than 3 n - 3 times; for fewer it is 0.
#[derive(Clone, Copy, Debug, PartialEq, Eq)]
pub struct Rotation {
    /// The lowest place at which it starts.
    pub place: usize,
    /// How often two keys were compared.
    pub comparisons: usize,
}

/// The least rotation of a ring of keys; key i is (`xs[i]`, `ys[i]`). Of several places at which it
/// starts it is the lowest.
///
/// # Errors
///
/// 8 where the lengths differ.
pub fn least_rotation(xs: &[u64], ys: &[u64]) -> Result<Rotation, Refusal> {
    let mut reply = [0; ROTATION_LENGTH];
    entries::minimum_rotation_index(xs, ys, &mut reply)?;
    let [place, comparisons] = reply;
    Ok(Rotation { place, comparisons })
}
