//! The original Rust methods, run beside the library on the same calls.
//!
//! [`Oracle`] answers every call of the library: document 01's refusals come from [`rules`], the
//! places of line ids from [`line_ids`], the holders of open rings from [`holes`], all else from the
//! original's own methods in [`original`]. Files are read and written by [`records`] and
//! [`ring_file`]. Its state has the library's tables and lists ([`state`]), so that these and the
//! replies can be compared entry by entry.
//!
//! Build it in release: the original checks more in debug builds, and document 01 compares release
//! builds.

pub mod calls;
pub mod holes;
pub mod line_ids;
pub mod listing;
pub mod oracle;
pub mod original;
pub mod records;
pub mod ring_file;
mod rings;
pub mod rotation;
pub mod rules;
pub mod stand_ins;
pub mod state;

pub use oracle::Oracle;
// The original's text names these two by the crate's root.
pub use stand_ins::{PolygonizeError, Result};
