//! Maps.
use crate::chunks::{Places, Walk};
use crate::raw::{self, done, no_memory, sure, there, Handle, MapKind};
use crate::{closed, Fold, FromBytesError, NoMemory};
use std::fmt;
use std::iter::FusedIterator;
use std::ops::RangeBounds;

/// Which value a key of both maps gets.
#[derive(Clone, Copy, Debug, PartialEq, Eq)]
pub enum Resolve {
    /// That of the first map.
    First,
    /// That of the second map.
    Second,
    /// The sum of both, `u64::MAX` where it would be more.
    Sum,
    /// The greater one.
    Max,
}

impl Resolve {
    pub(crate) fn code(self) -> u8 {
        match self {
            Resolve::First => 0,
            Resolve::Second => 1,
            Resolve::Sum => 2,
            Resolve::Max => 3,
        }
    }
}

/// A map from `u64` to `u64` in the order of keys, with the [`Fold`], the least and the mean of the values of any range of keys in
/// O(log n).
///
/// ```
/// # use pam::Map;
/// let mut map = Map::from([(3, 30), (1, 10)]);
/// map.insert(2, 20)?;
/// assert_eq!(map.get(2), Some(20));
/// assert_eq!(map.iter().collect::<Vec<_>>(), [(1, 10), (2, 20), (3, 30)]);
/// # Ok::<(), pam::NoMemory>(())
/// ```
pub struct Map(Handle<MapKind>);

impl Map {
    /// The map with no entries. Unlike the standard library's it takes memory, for the handle.
    pub fn new() -> Result<Map, NoMemory> {
        Ok(Map(Handle::new()?))
    }

    /// The map of keys and their values, put in order, so that a later value of a key wins. O(n log n), O(n) where the keys rise.
    ///
    /// # Panics
    /// Where there are not as many values as keys.
    pub fn from_slices(keys: &[u64], vals: &[u64]) -> Result<Map, NoMemory> {
        assert_eq!(keys.len(), vals.len(), "as many values as keys");
        // SAFETY: a closed handle, and slices by their lengths.
        let handle = Handle::opened(|out| unsafe { raw::pam_map_build(out, keys.as_ptr(), keys.len(), vals.as_ptr(), vals.len()) });
        handle.map(Map).map_err(no_memory)
    }

    /// The map of pairs, of which a later one of a key wins. O(n log n).
    pub fn from_pairs(pairs: impl IntoIterator<Item = (u64, u64)>) -> Result<Map, NoMemory> {
        let (keys, vals): (Vec<u64>, Vec<u64>) = pairs.into_iter().unzip();
        Map::from_slices(&keys, &vals)
    }

    /// A map of the same entries in O(1), as `clone`, which panics where this is refused.
    pub fn try_clone(&self) -> Result<Map, NoMemory> {
        Ok(Map(self.0.share()?))
    }

    /// How many entries there are. O(1).
    pub fn len(&self) -> usize {
        self.0.len() as usize
    }

    /// Whether there are no entries. O(1).
    pub fn is_empty(&self) -> bool {
        self.len() == 0
    }

    /// The value at a key. O(log n).
    pub fn get(&self, key: u64) -> Option<u64> {
        let mut val = 0;
        // SAFETY: an open handle.
        there(unsafe { raw::pam_map_get(self.0.as_ptr(), key, &mut val) }).then_some(val)
    }

    /// Whether a key is there. O(log n).
    pub fn contains_key(&self, key: u64) -> bool {
        self.get(key).is_some()
    }

    /// The values at keys. O(m log n) for m keys, and faster than m calls.
    ///
    /// ```
    /// # use pam::Map;
    /// assert_eq!(Map::from([(1, 10)]).get_many(&[1, 2]), [Some(10), None]);
    /// ```
    pub fn get_many(&self, keys: &[u64]) -> Vec<Option<u64>> {
        let (mut vals, mut present) = (vec![0; keys.len()], vec![0; keys.len()]);
        let (count, found, marks) = (keys.len(), vals.as_mut_ptr(), present.as_mut_ptr());
        // SAFETY: an open handle, and slices by their lengths.
        sure(unsafe { raw::pam_map_get_many(self.0.as_ptr(), keys.as_ptr(), count, found, count, marks, count) });
        vals.into_iter().zip(present).map(|(val, present)| (present != 0).then_some(val)).collect()
    }

    /// Sets a key to a value. O(log n).
    pub fn insert(&mut self, key: u64, val: u64) -> Result<(), NoMemory> {
        // SAFETY: an open handle.
        done(unsafe { raw::pam_map_put(self.0.as_ptr(), key, val) })
    }

    /// Sets keys to values, in order. O(m log(n + m)) for m of them.
    ///
    /// # Panics
    /// Where there are not as many values as keys.
    pub fn insert_many(&mut self, keys: &[u64], vals: &[u64]) -> Result<(), NoMemory> {
        assert_eq!(keys.len(), vals.len(), "as many values as keys");
        // SAFETY: an open handle, and slices by their lengths.
        done(unsafe { raw::pam_map_put_many(self.0.as_ptr(), keys.as_ptr(), keys.len(), vals.as_ptr(), vals.len()) })
    }

    /// Removes a key, and answers whether it was there. O(log n).
    pub fn remove(&mut self, key: u64) -> Result<bool, NoMemory> {
        // SAFETY: an open handle.
        match unsafe { raw::pam_map_del(self.0.as_ptr(), key) } {
            raw::NOT_THERE => Ok(false),
            status => done(status).map(|()| true),
        }
    }

    /// Removes keys, which need not be there. O(m log(n + m)) for m of them.
    pub fn remove_many(&mut self, keys: &[u64]) -> Result<(), NoMemory> {
        // SAFETY: an open handle, and a slice by its length.
        done(unsafe { raw::pam_map_del_many(self.0.as_ptr(), keys.as_ptr(), keys.len()) })
    }

    /// An entry that a call writes.
    fn entry(&self, call: impl FnOnce(*mut raw::Raw, *mut u64, *mut u64) -> u8) -> Option<(u64, u64)> {
        let (mut key, mut val) = (0, 0);
        there(call(self.0.as_ptr(), &mut key, &mut val)).then_some((key, val))
    }

    /// The entry with the least key. O(log n).
    pub fn first_key_value(&self) -> Option<(u64, u64)> {
        // SAFETY: an open handle.
        self.entry(|m, key, val| unsafe { raw::pam_map_first(m, key, val) })
    }

    /// The entry with the greatest key. O(log n).
    pub fn last_key_value(&self) -> Option<(u64, u64)> {
        // SAFETY: an open handle.
        self.entry(|m, key, val| unsafe { raw::pam_map_last(m, key, val) })
    }

    /// The entry with the least key greater than `key`. O(log n).
    pub fn next(&self, key: u64) -> Option<(u64, u64)> {
        // SAFETY: an open handle.
        self.entry(|m, found, val| unsafe { raw::pam_map_next(m, key, found, val) })
    }

    /// The entry with the greatest key less than `key`. O(log n).
    pub fn prev(&self, key: u64) -> Option<(u64, u64)> {
        // SAFETY: an open handle.
        self.entry(|m, found, val| unsafe { raw::pam_map_prev(m, key, found, val) })
    }

    /// The entry at a place in the order of keys, counted from 0. O(log n).
    pub fn select(&self, place: u64) -> Option<(u64, u64)> {
        // SAFETY: an open handle.
        self.entry(|m, key, val| unsafe { raw::pam_map_select(m, place, key, val) })
    }

    /// How many keys are less than `key`. O(log n).
    pub fn rank(&self, key: u64) -> u64 {
        let mut rank = 0;
        // SAFETY: an open handle.
        sure(unsafe { raw::pam_map_rank(self.0.as_ptr(), key, &mut rank) });
        rank
    }

    /// How many keys are in a range. O(log n).
    ///
    /// ```
    /// # use pam::Map;
    /// assert_eq!(Map::from([(1, 10), (2, 20), (3, 30)]).count(2..), 2);
    /// ```
    pub fn count(&self, range: impl RangeBounds<u64>) -> u64 {
        let mut count = 0;
        if let Some((lo, hi)) = closed(&range) {
            // SAFETY: an open handle.
            sure(unsafe { raw::pam_map_count(self.0.as_ptr(), lo, hi, &mut count) });
        }
        count
    }

    /// The sum and the greatest of all values. O(1).
    pub fn fold(&self) -> Fold {
        let mut fold = Fold::default();
        // SAFETY: an open handle.
        sure(unsafe { raw::pam_map_fold(self.0.as_ptr(), &mut fold.sum, &mut fold.greatest) });
        fold
    }

    /// The sum and the greatest of the values at the keys of a range. O(log n).
    ///
    /// ```
    /// # use pam::Map;
    /// let map = Map::from([(1, 10), (2, 20), (3, 5)]);
    /// assert_eq!((map.fold_range(2..).sum, map.fold_range(2..).greatest), (25, 20));
    /// ```
    pub fn fold_range(&self, range: impl RangeBounds<u64>) -> Fold {
        let mut fold = Fold::default();
        if let Some((lo, hi)) = closed(&range) {
            // SAFETY: an open handle.
            sure(unsafe { raw::pam_map_fold_range(self.0.as_ptr(), lo, hi, &mut fold.sum, &mut fold.greatest) });
        }
        fold
    }

    /// The least of all values, none where there are none. O(1).
    pub fn least(&self) -> Option<u64> {
        let mut least = 0;
        // SAFETY: an open handle.
        there(unsafe { raw::pam_map_least(self.0.as_ptr(), &mut least) }).then_some(least)
    }

    /// The least of the values at the keys of a range, none where there are none. O(log n).
    ///
    /// ```
    /// # use pam::Map;
    /// let map = Map::from([(1, 10), (2, 20), (3, 5)]);
    /// assert_eq!((map.least(), map.least_range(..3), map.least_range(4..)), (Some(5), Some(10), None));
    /// ```
    pub fn least_range(&self, range: impl RangeBounds<u64>) -> Option<u64> {
        let (lo, hi) = closed(&range)?;
        let mut least = 0;
        // SAFETY: an open handle.
        there(unsafe { raw::pam_map_least_range(self.0.as_ptr(), lo, hi, &mut least) }).then_some(least)
    }

    /// The mean of all values, none where there are none: their sum by their number. The sum is that of `fold`, which stays at
    /// `u64::MAX` where it would be more, so that the mean is too small then. O(1).
    pub fn mean(&self) -> Option<f64> {
        mean(self.fold().sum, self.0.len())
    }

    /// The mean of the values at the keys of a range, as `mean`. O(log n).
    ///
    /// ```
    /// # use pam::Map;
    /// let map = Map::from([(1, 10), (2, 20), (3, 5)]);
    /// assert_eq!((map.mean_range(..3), map.mean_range(4..)), (Some(15.0), None));
    /// ```
    pub fn mean_range(&self, range: impl RangeBounds<u64>) -> Option<f64> {
        let range = (range.start_bound().cloned(), range.end_bound().cloned());
        mean(self.fold_range(range).sum, self.count(range))
    }

    /// The entries in the order of keys, from either end, fetched in chunks: O(log n) for a chunk, and O(1) for each entry.
    pub fn iter(&self) -> Iter<'_> {
        Iter { map: self, walk: Walk::over(0, self.0.len()) }
    }

    /// The entries with the keys of a range, in order, from either end.
    ///
    /// ```
    /// # use pam::Map;
    /// let map = Map::from([(1, 10), (2, 20), (3, 30)]);
    /// assert_eq!(map.range(2..).rev().collect::<Vec<_>>(), [(3, 30), (2, 20)]);
    /// ```
    pub fn range(&self, range: impl RangeBounds<u64>) -> Iter<'_> {
        let (front, back) = closed(&range).map_or((0, 0), |(lo, hi)| {
            let back = hi.checked_add(1).map_or_else(|| self.0.len(), |after| self.rank(after));
            (self.rank(lo), back)
        });
        Iter { map: self, walk: Walk::over(front, back) }
    }

    /// The keys, in order.
    pub fn keys(&self) -> impl DoubleEndedIterator<Item = u64> + ExactSizeIterator + '_ {
        self.iter().map(|(key, _)| key)
    }

    /// The values in the order of keys.
    pub fn values(&self) -> impl DoubleEndedIterator<Item = u64> + ExactSizeIterator + '_ {
        self.iter().map(|(_, val)| val)
    }

    /// The map of the entries with the keys of a range, which shares memory with this one. O(log n).
    pub fn part(&self, range: impl RangeBounds<u64>) -> Result<Map, NoMemory> {
        let Some((lo, hi)) = closed(&range) else { return Map::new() };
        // SAFETY: an open handle, and a closed one.
        Handle::opened(|out| unsafe { raw::pam_map_range(self.0.as_ptr(), lo, hi, out) }).map(Map).map_err(no_memory)
    }

    /// Takes the entries with keys at least `key` out of the map, and answers them as a map of their own. O(log n).
    ///
    /// ```
    /// # use pam::Map;
    /// let mut map = Map::from([(1, 10), (2, 20)]);
    /// assert_eq!(map.split_off(2)?, Map::from([(2, 20)]));
    /// assert_eq!(map, Map::from([(1, 10)]));
    /// # Ok::<(), pam::NoMemory>(())
    /// ```
    pub fn split_off(&mut self, key: u64) -> Result<Map, NoMemory> {
        let mut below = Err(raw::NO_MEMORY);
        let from = Handle::opened(|from| {
            // SAFETY: an open handle, and two closed ones. An inner call that refuses leaves both closed.
            below = Handle::opened(|below| unsafe { raw::pam_map_split(self.0.as_ptr(), key, below, from) });
            below.as_ref().map_or_else(|&status| status, |_| raw::OK)
        });
        let from = from.map_err(no_memory)?;
        self.0 = below.map_err(no_memory)?;
        Ok(Map(from))
    }

    fn joined(call: impl FnOnce(*mut raw::Raw) -> u8) -> Result<Map, NoMemory> {
        Handle::opened(call).map(Map).map_err(no_memory)
    }

    /// The entries of either map. O(m log(n / m + 1)) for m and n entries, m at most n.
    ///
    /// ```
    /// # use pam::{Map, Resolve};
    /// let (a, b) = (Map::from([(1, 10), (2, 20)]), Map::from([(2, 5)]));
    /// assert_eq!(a.union(&b, Resolve::Sum)?, Map::from([(1, 10), (2, 25)]));
    /// # Ok::<(), pam::NoMemory>(())
    /// ```
    pub fn union(&self, other: &Map, how: Resolve) -> Result<Map, NoMemory> {
        // SAFETY: two open handles, and a closed one.
        Map::joined(|out| unsafe { raw::pam_map_union(self.0.as_ptr(), other.0.as_ptr(), how.code(), out) })
    }

    /// The entries whose keys both maps have, in the time of `union`.
    pub fn intersection(&self, other: &Map, how: Resolve) -> Result<Map, NoMemory> {
        // SAFETY: two open handles, and a closed one.
        Map::joined(|out| unsafe { raw::pam_map_intersection(self.0.as_ptr(), other.0.as_ptr(), how.code(), out) })
    }

    /// The entries whose keys `other` hasn't, in the time of `union`.
    pub fn difference(&self, other: &Map) -> Result<Map, NoMemory> {
        // SAFETY: two open handles, and a closed one.
        Map::joined(|out| unsafe { raw::pam_map_difference(self.0.as_ptr(), other.0.as_ptr(), out) })
    }

    /// The map as bytes; equal maps have equal bytes. O(n).
    pub fn to_bytes(&self) -> Result<Vec<u8>, NoMemory> {
        let mut bytes = vec![0; 64 + 20 * self.len()];
        let mut needed = 0;
        loop {
            // SAFETY: an open handle, and a slice by its length.
            let status = unsafe { raw::pam_map_bytes(self.0.as_ptr(), bytes.as_mut_ptr(), bytes.len(), &mut needed) };
            if status != raw::NO_ROOM {
                bytes.truncate(needed);
                return done(status).map(|()| bytes);
            }
            bytes.resize(needed, 0);
        }
    }

    /// The map of bytes that `to_bytes` made. O(n).
    ///
    /// ```
    /// # use pam::{FromBytesError, Map};
    /// let map = Map::from([(1, 10)]);
    /// assert_eq!(Map::from_bytes(&map.to_bytes()?), Ok(map));
    /// assert_eq!(Map::from_bytes(b"none"), Err(FromBytesError::NotAMap));
    /// # Ok::<(), pam::NoMemory>(())
    /// ```
    pub fn from_bytes(bytes: &[u8]) -> Result<Map, FromBytesError> {
        // SAFETY: a closed handle, and a slice by its length.
        match Handle::opened(|out| unsafe { raw::pam_map_from_bytes(out, bytes.as_ptr(), bytes.len()) }) {
            Ok(handle) => Ok(Map(handle)),
            Err(raw::NOT_A_MAP) => Err(FromBytesError::NotAMap),
            Err(status) => {
                no_memory(status);
                Err(FromBytesError::NoMemory)
            }
        }
    }
}

fn mean(sum: u64, count: u64) -> Option<f64> {
    (count > 0).then(|| sum as f64 / count as f64)
}

impl Clone for Map {
    /// O(1).
    ///
    /// # Panics
    /// Where there is no memory, as with the standard library's collections; [`Map::try_clone`] answers it.
    fn clone(&self) -> Map {
        self.try_clone().expect("memory for a share of a map")
    }
}

impl Default for Map {
    fn default() -> Map {
        Map::new().expect("memory for a map")
    }
}

impl<const N: usize> From<[(u64, u64); N]> for Map {
    fn from(pairs: [(u64, u64); N]) -> Map {
        pairs.into_iter().collect()
    }
}

impl FromIterator<(u64, u64)> for Map {
    fn from_iter<I: IntoIterator<Item = (u64, u64)>>(pairs: I) -> Map {
        Map::from_pairs(pairs).expect("memory for a map")
    }
}

impl Extend<(u64, u64)> for Map {
    fn extend<I: IntoIterator<Item = (u64, u64)>>(&mut self, pairs: I) {
        let (keys, vals): (Vec<u64>, Vec<u64>) = pairs.into_iter().unzip();
        self.insert_many(&keys, &vals).expect("memory for entries");
    }
}

impl PartialEq for Map {
    fn eq(&self, other: &Map) -> bool {
        self.len() == other.len() && self.iter().eq(other)
    }
}

impl Eq for Map {}

impl fmt::Debug for Map {
    fn fmt(&self, f: &mut fmt::Formatter<'_>) -> fmt::Result {
        f.debug_map().entries(self).finish()
    }
}

impl Places for Map {
    type Item = (u64, u64);

    fn chunk(&self, place: u64, count: usize) -> Vec<(u64, u64)> {
        let (mut keys, mut vals) = (vec![0; count], vec![0; count]);
        let from = self.select(place).map_or(0, |(key, _)| key);
        let mut filled = 0;
        // SAFETY: an open handle, and slices by their lengths.
        sure(unsafe { raw::pam_map_fill(self.0.as_ptr(), from, keys.as_mut_ptr(), count, vals.as_mut_ptr(), count, &mut filled) });
        keys.into_iter().zip(vals).take(filled).collect()
    }
}

/// Entries of a [`Map`] in the order of keys, from either end.
pub struct Iter<'a> {
    map: &'a Map,
    walk: Walk<(u64, u64)>,
}

impl Iterator for Iter<'_> {
    type Item = (u64, u64);

    fn next(&mut self) -> Option<(u64, u64)> {
        self.walk.next(self.map)
    }

    fn size_hint(&self) -> (usize, Option<usize>) {
        (self.walk.left(), Some(self.walk.left()))
    }
}

impl DoubleEndedIterator for Iter<'_> {
    fn next_back(&mut self) -> Option<(u64, u64)> {
        self.walk.next_back(self.map)
    }
}

impl ExactSizeIterator for Iter<'_> {}

impl FusedIterator for Iter<'_> {}

impl<'a> IntoIterator for &'a Map {
    type Item = (u64, u64);
    type IntoIter = Iter<'a>;

    fn into_iter(self) -> Iter<'a> {
        self.iter()
    }
}
