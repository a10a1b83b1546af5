//! Persistent ordered maps, sequences and interval sets of `u64`, and maps from signed keys and from byte strings to `u64`, with the
//! sum and the greatest of any part in O(log n).
//!
//! They are those of the proved library `libpam_c`. A clone costs O(1) and shares all memory; no change of one is seen in the
//! other. Names and meanings are those of the standard library's `BTreeMap` and `Vec` where these have them, but that what takes
//! memory answers a `Result`, and leaves everything as it was where it is [`NoMemory`].
//!
//! ```
//! use pam::Map;
//!
//! let mut sales = Map::from([(540, 12), (541, 7), (545, 30)]);
//! let before = sales.clone(); // O(1)
//! sales.insert(541, 100)?;
//! assert_eq!(sales.fold_range(540..546).sum, 142);
//! assert_eq!(before.fold_range(540..=545).sum, 49);
//! # Ok::<(), pam::NoMemory>(())
//! ```
//!
//! A handle may move to another thread (`Send`), and is used by one thread at a time (not `Sync`); a clone is for another thread.
#![warn(missing_docs)]

mod chunks;
mod intervals;
mod map;
mod raw;
mod seq;
mod signed_map;
mod text_map;

pub use intervals::{IntervalIter, Intervals};
pub use map::{Iter, Map, Resolve};
pub use seq::{SeqIter, Seq};
pub use signed_map::{SignedIter, SignedMap};
pub use text_map::{TextIter, TextMap};

use std::fmt;
use std::ops::{Bound, RangeBounds};

/// There was no memory; nothing has changed.
#[derive(Clone, Copy, Debug, PartialEq, Eq)]
pub struct NoMemory;

impl fmt::Display for NoMemory {
    fn fmt(&self, f: &mut fmt::Formatter<'_>) -> fmt::Result {
        f.write_str("no memory for a change; nothing has changed")
    }
}

impl std::error::Error for NoMemory {}

/// The bytes are not those of a map.
#[derive(Clone, Copy, Debug, PartialEq, Eq)]
pub enum FromBytesError {
    /// No map has these bytes.
    NotAMap,
    /// There was no memory.
    NoMemory,
}

impl fmt::Display for FromBytesError {
    fn fmt(&self, f: &mut fmt::Formatter<'_>) -> fmt::Result {
        f.write_str(match self {
            FromBytesError::NotAMap => "not the bytes of a map",
            FromBytesError::NoMemory => "no memory for the map",
        })
    }
}

impl std::error::Error for FromBytesError {}

/// What is stored of some values: their sum, which stays at `u64::MAX` where it would be more, and the greatest of them. Both are
/// 0 where there are no values.
#[derive(Clone, Copy, Debug, Default, PartialEq, Eq)]
pub struct Fold {
    /// The saturating sum.
    pub sum: u64,
    /// The greatest.
    pub greatest: u64,
}

/// A range of numbers by its first and its last one, none where it has no number.
fn closed(range: &impl RangeBounds<u64>) -> Option<(u64, u64)> {
    let first = match range.start_bound() {
        Bound::Included(&first) => first,
        Bound::Excluded(before) => before.checked_add(1)?,
        Bound::Unbounded => 0,
    };
    let last = match range.end_bound() {
        Bound::Included(&last) => last,
        Bound::Excluded(after) => after.checked_sub(1)?,
        Bound::Unbounded => u64::MAX,
    };
    (first <= last).then_some((first, last))
}

#[cfg(doctest)]
#[doc = include_str!("../README.md")]
struct Readme;
