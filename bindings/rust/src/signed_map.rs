//! Maps with signed keys.
use crate::map::{Iter, Map, Resolve};
use crate::{Fold, FromBytesError, NoMemory};
use std::fmt;
use std::iter::FusedIterator;
use std::ops::{Bound, RangeBounds};

const TOP_BIT: u64 = 1 << 63;

/// The key that stands for a signed one. Keys are in the order of those for which they stand.
fn raw(key: i64) -> u64 {
    key as u64 ^ TOP_BIT
}

fn signed(raw: u64) -> i64 {
    (raw ^ TOP_BIT) as i64
}

fn all_raw(keys: &[i64]) -> Vec<u64> {
    keys.iter().map(|&key| raw(key)).collect()
}

fn entry((key, val): (u64, u64)) -> (i64, u64) {
    (signed(key), val)
}

fn raw_bound(bound: Bound<&i64>) -> Bound<u64> {
    match bound {
        Bound::Included(&key) => Bound::Included(raw(key)),
        Bound::Excluded(&key) => Bound::Excluded(raw(key)),
        Bound::Unbounded => Bound::Unbounded,
    }
}

fn raw_range(range: &impl RangeBounds<i64>) -> (Bound<u64>, Bound<u64>) {
    (raw_bound(range.start_bound()), raw_bound(range.end_bound()))
}

/// A map from `i64` to `u64` in the order of keys: a [`Map`] in which the keys are moved up by 2^63, with its costs.
///
/// ```
/// # use pam::SignedMap;
/// let mut map = SignedMap::from([(-3, 30), (1, 10)]);
/// map.insert(i64::MIN, 20)?;
/// assert_eq!(map.get(-3), Some(30));
/// assert_eq!(map.fold_range(..0).sum, 50);
/// assert_eq!(map.keys().collect::<Vec<_>>(), [i64::MIN, -3, 1]);
/// # Ok::<(), pam::NoMemory>(())
/// ```
#[derive(Clone, Default, PartialEq, Eq)]
pub struct SignedMap(Map);

impl SignedMap {
    /// The map with no entries. It takes memory, for the handle.
    pub fn new() -> Result<SignedMap, NoMemory> {
        Map::new().map(SignedMap)
    }

    /// The map of keys and their values, put in order, so that a later value of a key wins. O(n log n), O(n) where the keys rise.
    ///
    /// # Panics
    /// Where there are not as many values as keys.
    pub fn from_slices(keys: &[i64], vals: &[u64]) -> Result<SignedMap, NoMemory> {
        Map::from_slices(&all_raw(keys), vals).map(SignedMap)
    }

    /// The map of pairs, of which a later one of a key wins. O(n log n).
    pub fn from_pairs(pairs: impl IntoIterator<Item = (i64, u64)>) -> Result<SignedMap, NoMemory> {
        Map::from_pairs(pairs.into_iter().map(|(key, val)| (raw(key), val))).map(SignedMap)
    }

    /// A map of the same entries in O(1), as `clone`, which panics where this is refused.
    pub fn try_clone(&self) -> Result<SignedMap, NoMemory> {
        self.0.try_clone().map(SignedMap)
    }

    /// How many entries there are. O(1).
    pub fn len(&self) -> usize {
        self.0.len()
    }

    /// Whether there are no entries. O(1).
    pub fn is_empty(&self) -> bool {
        self.0.is_empty()
    }

    /// The value at a key. O(log n).
    pub fn get(&self, key: i64) -> Option<u64> {
        self.0.get(raw(key))
    }

    /// Whether a key is there. O(log n).
    pub fn contains_key(&self, key: i64) -> bool {
        self.0.contains_key(raw(key))
    }

    /// The values at keys. O(m log n) for m keys, and faster than m calls.
    pub fn get_many(&self, keys: &[i64]) -> Vec<Option<u64>> {
        self.0.get_many(&all_raw(keys))
    }

    /// Sets a key to a value. O(log n).
    pub fn insert(&mut self, key: i64, val: u64) -> Result<(), NoMemory> {
        self.0.insert(raw(key), val)
    }

    /// Sets keys to values, in order. O(m log(n + m)) for m of them.
    ///
    /// # Panics
    /// Where there are not as many values as keys.
    pub fn insert_many(&mut self, keys: &[i64], vals: &[u64]) -> Result<(), NoMemory> {
        self.0.insert_many(&all_raw(keys), vals)
    }

    /// Removes a key, and answers whether it was there. O(log n).
    pub fn remove(&mut self, key: i64) -> Result<bool, NoMemory> {
        self.0.remove(raw(key))
    }

    /// Removes keys, which need not be there. O(m log(n + m)) for m of them.
    pub fn remove_many(&mut self, keys: &[i64]) -> Result<(), NoMemory> {
        self.0.remove_many(&all_raw(keys))
    }

    /// The entry with the least key. O(log n).
    pub fn first_key_value(&self) -> Option<(i64, u64)> {
        self.0.first_key_value().map(entry)
    }

    /// The entry with the greatest key. O(log n).
    pub fn last_key_value(&self) -> Option<(i64, u64)> {
        self.0.last_key_value().map(entry)
    }

    /// The entry with the least key greater than `key`. O(log n).
    pub fn next(&self, key: i64) -> Option<(i64, u64)> {
        self.0.next(raw(key)).map(entry)
    }

    /// The entry with the greatest key less than `key`. O(log n).
    pub fn prev(&self, key: i64) -> Option<(i64, u64)> {
        self.0.prev(raw(key)).map(entry)
    }

    /// The entry at a place in the order of keys, counted from 0. O(log n).
    pub fn select(&self, place: u64) -> Option<(i64, u64)> {
        self.0.select(place).map(entry)
    }

    /// How many keys are less than `key`. O(log n).
    pub fn rank(&self, key: i64) -> u64 {
        self.0.rank(raw(key))
    }

    /// How many keys are in a range. O(log n).
    pub fn count(&self, range: impl RangeBounds<i64>) -> u64 {
        self.0.count(raw_range(&range))
    }

    /// The sum and the greatest of all values. O(1).
    pub fn fold(&self) -> Fold {
        self.0.fold()
    }

    /// The sum and the greatest of the values at the keys of a range. O(log n).
    pub fn fold_range(&self, range: impl RangeBounds<i64>) -> Fold {
        self.0.fold_range(raw_range(&range))
    }

    /// The least of all values, none where there are none. O(1).
    pub fn least(&self) -> Option<u64> {
        self.0.least()
    }

    /// The least of the values at the keys of a range, none where there are none. O(log n).
    pub fn least_range(&self, range: impl RangeBounds<i64>) -> Option<u64> {
        self.0.least_range(raw_range(&range))
    }

    /// The mean of all values, as [`Map::mean`]. O(1).
    pub fn mean(&self) -> Option<f64> {
        self.0.mean()
    }

    /// The mean of the values at the keys of a range, as [`Map::mean`]. O(log n).
    pub fn mean_range(&self, range: impl RangeBounds<i64>) -> Option<f64> {
        self.0.mean_range(raw_range(&range))
    }

    /// The entries in the order of keys, from either end, as those of [`Map::iter`].
    pub fn iter(&self) -> SignedIter<'_> {
        SignedIter(self.0.iter())
    }

    /// The entries with the keys of a range, in order, from either end.
    ///
    /// ```
    /// # use pam::SignedMap;
    /// let map = SignedMap::from([(-1, 10), (0, 20), (1, 30)]);
    /// assert_eq!(map.range(..=0).rev().collect::<Vec<_>>(), [(0, 20), (-1, 10)]);
    /// ```
    pub fn range(&self, range: impl RangeBounds<i64>) -> SignedIter<'_> {
        SignedIter(self.0.range(raw_range(&range)))
    }

    /// The keys, in order.
    pub fn keys(&self) -> impl DoubleEndedIterator<Item = i64> + ExactSizeIterator + '_ {
        self.0.keys().map(signed)
    }

    /// The values in the order of keys.
    pub fn values(&self) -> impl DoubleEndedIterator<Item = u64> + ExactSizeIterator + '_ {
        self.0.values()
    }

    /// The map of the entries with the keys of a range, which shares memory with this one. O(log n).
    pub fn part(&self, range: impl RangeBounds<i64>) -> Result<SignedMap, NoMemory> {
        self.0.part(raw_range(&range)).map(SignedMap)
    }

    /// Takes the entries with keys at least `key` out of the map, and answers them as a map of their own. O(log n).
    pub fn split_off(&mut self, key: i64) -> Result<SignedMap, NoMemory> {
        self.0.split_off(raw(key)).map(SignedMap)
    }

    /// The entries of either map. O(m log(n / m + 1)) for m and n entries, m at most n.
    pub fn union(&self, other: &SignedMap, how: Resolve) -> Result<SignedMap, NoMemory> {
        self.0.union(&other.0, how).map(SignedMap)
    }

    /// The entries whose keys both maps have, in the time of `union`.
    pub fn intersection(&self, other: &SignedMap, how: Resolve) -> Result<SignedMap, NoMemory> {
        self.0.intersection(&other.0, how).map(SignedMap)
    }

    /// The entries whose keys `other` hasn't, in the time of `union`.
    pub fn difference(&self, other: &SignedMap) -> Result<SignedMap, NoMemory> {
        self.0.difference(&other.0).map(SignedMap)
    }

    /// The bytes of the [`Map`] with the moved keys, which say nothing of signs; equal maps have equal bytes. O(n).
    pub fn to_bytes(&self) -> Result<Vec<u8>, NoMemory> {
        self.0.to_bytes()
    }

    /// The map of bytes that `to_bytes` made. O(n).
    ///
    /// ```
    /// # use pam::SignedMap;
    /// let map = SignedMap::from([(-1, 10)]);
    /// assert_eq!(SignedMap::from_bytes(&map.to_bytes()?), Ok(map));
    /// # Ok::<(), pam::NoMemory>(())
    /// ```
    pub fn from_bytes(bytes: &[u8]) -> Result<SignedMap, FromBytesError> {
        Map::from_bytes(bytes).map(SignedMap)
    }
}

impl<const N: usize> From<[(i64, u64); N]> for SignedMap {
    fn from(pairs: [(i64, u64); N]) -> SignedMap {
        pairs.into_iter().collect()
    }
}

impl FromIterator<(i64, u64)> for SignedMap {
    fn from_iter<I: IntoIterator<Item = (i64, u64)>>(pairs: I) -> SignedMap {
        SignedMap::from_pairs(pairs).expect("memory for a map")
    }
}

impl Extend<(i64, u64)> for SignedMap {
    fn extend<I: IntoIterator<Item = (i64, u64)>>(&mut self, pairs: I) {
        self.0.extend(pairs.into_iter().map(|(key, val)| (raw(key), val)));
    }
}

impl fmt::Debug for SignedMap {
    fn fmt(&self, f: &mut fmt::Formatter<'_>) -> fmt::Result {
        f.debug_map().entries(self).finish()
    }
}

/// Entries of a [`SignedMap`] in the order of keys, from either end.
pub struct SignedIter<'a>(Iter<'a>);

impl Iterator for SignedIter<'_> {
    type Item = (i64, u64);

    fn next(&mut self) -> Option<(i64, u64)> {
        self.0.next().map(entry)
    }

    fn size_hint(&self) -> (usize, Option<usize>) {
        self.0.size_hint()
    }
}

impl DoubleEndedIterator for SignedIter<'_> {
    fn next_back(&mut self) -> Option<(i64, u64)> {
        self.0.next_back().map(entry)
    }
}

impl ExactSizeIterator for SignedIter<'_> {}

impl FusedIterator for SignedIter<'_> {}

impl<'a> IntoIterator for &'a SignedMap {
    type Item = (i64, u64);
    type IntoIter = SignedIter<'a>;

    fn into_iter(self) -> SignedIter<'a> {
        self.iter()
    }
}
