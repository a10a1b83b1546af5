//! Sets of closed intervals.
use crate::raw::{self, done, no_memory, there, Handle, IntervalsKind};
use crate::NoMemory;
use std::fmt;
use std::iter::FusedIterator;
use std::ops::RangeInclusive;

const ROOM: usize = 64;
const CHUNK: usize = 256;

/// A set of closed intervals of `u64`.
///
/// ```
/// # use pam::Intervals;
/// let mut rooms = Intervals::new()?;
/// rooms.insert(9..=12)?;
/// rooms.insert(11..=14)?;
/// assert_eq!(rooms.stab(10)?, [9..=12]);
/// assert!(!rooms.covers(15));
/// # Ok::<(), pam::NoMemory>(())
/// ```
pub struct Intervals(Handle<IntervalsKind>);

impl Intervals {
    /// The empty set. It takes memory, for the handle.
    pub fn new() -> Result<Intervals, NoMemory> {
        Ok(Intervals(Handle::new()?))
    }

    /// A set of the same intervals in O(1), as `clone`, which panics where this is refused.
    pub fn try_clone(&self) -> Result<Intervals, NoMemory> {
        Ok(Intervals(self.0.share()?))
    }

    /// How many intervals there are. O(1).
    pub fn len(&self) -> usize {
        self.0.len() as usize
    }

    /// Whether there are no intervals. O(1).
    pub fn is_empty(&self) -> bool {
        self.len() == 0
    }

    /// Adds an interval, which may be there. O(log n).
    ///
    /// # Panics
    /// Where its left end is greater than its right one.
    pub fn insert(&mut self, interval: RangeInclusive<u64>) -> Result<(), NoMemory> {
        let (left, right) = interval.into_inner();
        assert!(left <= right, "an interval has its left end first");
        // SAFETY: an open handle.
        done(unsafe { raw::pam_intervals_add(self.0.as_ptr(), left, right) })
    }

    /// Removes an interval, and answers whether it was there. O(log n).
    pub fn remove(&mut self, interval: RangeInclusive<u64>) -> Result<bool, NoMemory> {
        let (left, right) = interval.into_inner();
        // SAFETY: an open handle.
        match unsafe { raw::pam_intervals_del(self.0.as_ptr(), left, right) } {
            raw::NOT_THERE => Ok(false),
            status => done(status).map(|()| true),
        }
    }

    /// Whether an interval is there. O(log n).
    pub fn contains(&self, interval: RangeInclusive<u64>) -> bool {
        let (left, right) = interval.into_inner();
        self.chunk((left, right), 1).first() == Some(&(left, right))
    }

    /// Whether an interval has a point in it. O(log n).
    pub fn covers(&self, point: u64) -> bool {
        // SAFETY: an open handle.
        there(unsafe { raw::pam_intervals_any(self.0.as_ptr(), point) })
    }

    /// The intervals that have a point in them, in order. O(log n + m log n) for m of them.
    pub fn stab(&self, point: u64) -> Result<Vec<RangeInclusive<u64>>, NoMemory> {
        self.listed(|s, lefts, rights, count| {
            // SAFETY: an open handle, and slices by their lengths.
            unsafe { raw::pam_intervals_stab(s, point, lefts.as_mut_ptr(), lefts.len(), rights.as_mut_ptr(), rights.len(), count) }
        })
    }

    /// The intervals that have a number of a range in them, in order; none where the range is empty. O(log n + m log n) for m of
    /// them.
    pub fn overlapping(&self, range: RangeInclusive<u64>) -> Result<Vec<RangeInclusive<u64>>, NoMemory> {
        if range.is_empty() {
            return Ok(Vec::new());
        }
        let (lo, hi) = range.into_inner();
        self.listed(|s, lefts, rights, count| {
            // SAFETY: an open handle, and slices by their lengths.
            unsafe { raw::pam_intervals_overlapping(s, lo, hi, lefts.as_mut_ptr(), lefts.len(), rights.as_mut_ptr(), rights.len(), count) }
        })
    }

    fn listed(&self, call: impl Fn(*mut raw::Raw, &mut [u64], &mut [u64], &mut usize) -> u8) -> Result<Vec<RangeInclusive<u64>>, NoMemory> {
        let (mut lefts, mut rights, mut count) = (vec![0; ROOM], vec![0; ROOM], 0);
        loop {
            let status = call(self.0.as_ptr(), &mut lefts, &mut rights, &mut count);
            if status != raw::NO_ROOM {
                done(status)?;
                return Ok(lefts.into_iter().zip(rights).take(count).map(|(left, right)| left..=right).collect());
            }
            lefts.resize(count, 0);
            rights.resize(count, 0);
        }
    }

    /// The first intervals at or after one, at most `count`.
    fn chunk(&self, (left, right): (u64, u64), count: usize) -> Vec<(u64, u64)> {
        let (mut lefts, mut rights, mut filled) = (vec![0; count], vec![0; count], 0);
        let (to, too) = (lefts.as_mut_ptr(), rights.as_mut_ptr());
        // SAFETY: an open handle, and slices by their lengths.
        raw::sure(unsafe { raw::pam_intervals_fill(self.0.as_ptr(), left, right, to, count, too, count, &mut filled) });
        lefts.into_iter().zip(rights).take(filled).collect()
    }

    /// The intervals by rising left ends, and of one left end by rising right ends.
    pub fn iter(&self) -> IntervalIter<'_> {
        IntervalIter { set: self, from: Some((0, 0)), fetched: Vec::new().into_iter() }
    }
}

impl Clone for Intervals {
    /// O(1).
    ///
    /// # Panics
    /// Where there is no memory; [`Intervals::try_clone`] answers it.
    fn clone(&self) -> Intervals {
        self.try_clone().expect("memory for a share of a set")
    }
}

impl Default for Intervals {
    fn default() -> Intervals {
        Intervals::new().expect("memory for a set")
    }
}

impl FromIterator<RangeInclusive<u64>> for Intervals {
    /// # Panics
    /// Where a left end is greater than its right one.
    fn from_iter<I: IntoIterator<Item = RangeInclusive<u64>>>(intervals: I) -> Intervals {
        let (lefts, rights): (Vec<u64>, Vec<u64>) = intervals.into_iter().map(RangeInclusive::into_inner).unzip();
        assert!(lefts.iter().zip(&rights).all(|(left, right)| left <= right), "an interval has its left end first");
        // SAFETY: a closed handle, and slices by their lengths.
        let call = |out| unsafe { raw::pam_intervals_build(out, lefts.as_ptr(), lefts.len(), rights.as_ptr(), rights.len()) };
        Handle::opened(call).map(Intervals).map_err(no_memory).expect("memory for a set")
    }
}

impl Extend<RangeInclusive<u64>> for Intervals {
    fn extend<I: IntoIterator<Item = RangeInclusive<u64>>>(&mut self, intervals: I) {
        for interval in intervals {
            self.insert(interval).expect("memory for an interval");
        }
    }
}

impl PartialEq for Intervals {
    fn eq(&self, other: &Intervals) -> bool {
        self.len() == other.len() && self.iter().eq(other)
    }
}

impl Eq for Intervals {}

impl fmt::Debug for Intervals {
    fn fmt(&self, f: &mut fmt::Formatter<'_>) -> fmt::Result {
        f.debug_set().entries(self).finish()
    }
}

/// The intervals of a set in order.
pub struct IntervalIter<'a> {
    set: &'a Intervals,
    from: Option<(u64, u64)>,
    fetched: std::vec::IntoIter<(u64, u64)>,
}

/// The least interval after one.
fn after((left, right): (u64, u64)) -> Option<(u64, u64)> {
    match right.checked_add(1) {
        Some(right) => Some((left, right)),
        None => Some((left.checked_add(1)?, 0)),
    }
}

impl Iterator for IntervalIter<'_> {
    type Item = RangeInclusive<u64>;

    fn next(&mut self) -> Option<RangeInclusive<u64>> {
        if self.fetched.len() == 0 {
            let chunk = self.set.chunk(self.from?, CHUNK);
            self.from = chunk.last().filter(|_| chunk.len() == CHUNK).copied().and_then(after);
            self.fetched = chunk.into_iter();
        }
        self.fetched.next().map(|(left, right)| left..=right)
    }
}

impl FusedIterator for IntervalIter<'_> {}

impl<'a> IntoIterator for &'a Intervals {
    type Item = RangeInclusive<u64>;
    type IntoIter = IntervalIter<'a>;

    fn into_iter(self) -> IntervalIter<'a> {
        self.iter()
    }
}
