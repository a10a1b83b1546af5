//! Maps from byte strings.
use crate::raw::{self, done, no_memory, sure, there, Handle, TextMapKind};
use crate::{Fold, NoMemory, Resolve};
use std::fmt;
use std::iter::FusedIterator;
use std::ops::{Bound, RangeBounds};

/// Bytes of a key that are fetched at once, entries of a chunk, and the bytes of its keys; the first and the last grow where they
/// have to.
const KEY_ROOM: usize = 64;
const CHUNK: usize = 256;
const CHUNK_ROOM: usize = 16 * CHUNK;

/// A map from byte strings to `u64` in the order of their bytes, with the [`Fold`] of the values of any range of keys in O(log n).
///
/// A key is handed in as anything with bytes (`&str`, `&[u8]`, `String`, `Vec<u8>`), and answered as a `Vec<u8>`. Bounds count
/// comparisons of keys.
///
/// ```
/// # use pam::TextMap;
/// let mut words = TextMap::from([("fig", 3), ("apple", 7)]);
/// words.insert("pear", 1)?;
/// assert_eq!(words.get("fig"), Some(3));
/// assert_eq!(words.fold_range("b"..).sum, 4);
/// assert_eq!(words.first_key_value(), Some((b"apple".to_vec(), 7)));
/// # Ok::<(), pam::NoMemory>(())
/// ```
///
/// # Panics
/// Calls that answer no [`NoMemory`] panic where they are refused the memory of a copy of a key, as the standard library's
/// collections abort.
pub struct TextMap(Handle<TextMapKind>);

/// The least key greater than one.
fn after(key: &[u8]) -> Vec<u8> {
    [key, &[0]].concat()
}

impl TextMap {
    /// The map with no entries. Unlike the standard library's it takes memory, for the handle.
    pub fn new() -> Result<TextMap, NoMemory> {
        Ok(TextMap(Handle::new()?))
    }

    /// The map of pairs, of which a later one of a key wins. O(n log n).
    pub fn from_pairs<K: AsRef<[u8]>>(pairs: impl IntoIterator<Item = (K, u64)>) -> Result<TextMap, NoMemory> {
        let mut map = TextMap::new()?;
        map.insert_many(pairs)?;
        Ok(map)
    }

    /// A map of the same entries in O(1), as `clone`, which panics where this is refused.
    pub fn try_clone(&self) -> Result<TextMap, NoMemory> {
        Ok(TextMap(self.0.share()?))
    }

    /// How many entries there are. O(1).
    pub fn len(&self) -> usize {
        self.0.len() as usize
    }

    /// Whether there are no entries. O(1).
    pub fn is_empty(&self) -> bool {
        self.len() == 0
    }

    /// The value at a key. O(log n).
    pub fn get(&self, key: impl AsRef<[u8]>) -> Option<u64> {
        let (key, mut val) = (key.as_ref(), 0);
        // SAFETY: an open handle, and a slice by its length.
        there(unsafe { raw::pam_text_map_get(self.0.as_ptr(), key.as_ptr(), key.len(), &mut val) }).then_some(val)
    }

    /// Whether a key is there. O(log n).
    pub fn contains_key(&self, key: impl AsRef<[u8]>) -> bool {
        let key = key.as_ref();
        // SAFETY: an open handle, and a slice by its length.
        there(unsafe { raw::pam_text_map_contains(self.0.as_ptr(), key.as_ptr(), key.len()) })
    }

    /// Sets a key to a value. O(log n).
    pub fn insert(&mut self, key: impl AsRef<[u8]>, val: u64) -> Result<(), NoMemory> {
        let key = key.as_ref();
        // SAFETY: an open handle, and a slice by its length.
        done(unsafe { raw::pam_text_map_put(self.0.as_ptr(), key.as_ptr(), key.len(), val) })
    }

    /// Sets keys to values, in order. O(m log(n + m)) for m of them.
    pub fn insert_many<K: AsRef<[u8]>>(&mut self, pairs: impl IntoIterator<Item = (K, u64)>) -> Result<(), NoMemory> {
        let (mut keys, mut ends, mut vals) = (Vec::new(), Vec::new(), Vec::new());
        for (key, val) in pairs {
            keys.extend_from_slice(key.as_ref());
            ends.push(keys.len());
            vals.push(val);
        }
        let count = ends.len();
        // SAFETY: an open handle, and slices by their lengths.
        done(unsafe { raw::pam_text_map_put_many(self.0.as_ptr(), keys.as_ptr(), keys.len(), ends.as_ptr(), count, vals.as_ptr(), count) })
    }

    /// Removes a key, and answers whether it was there. O(log n).
    pub fn remove(&mut self, key: impl AsRef<[u8]>) -> Result<bool, NoMemory> {
        let key = key.as_ref();
        // SAFETY: an open handle, and a slice by its length.
        match unsafe { raw::pam_text_map_del(self.0.as_ptr(), key.as_ptr(), key.len()) } {
            raw::NOT_THERE => Ok(false),
            status => done(status).map(|()| true),
        }
    }

    /// An entry that a call writes.
    fn entry(&self, call: impl Fn(*mut raw::Raw, *mut u8, usize, *mut usize, *mut u64) -> u8) -> Option<(Vec<u8>, u64)> {
        let (mut key, mut len, mut val) = (vec![0; KEY_ROOM], 0, 0);
        loop {
            let status = call(self.0.as_ptr(), key.as_mut_ptr(), key.len(), &mut len, &mut val);
            if status != raw::NO_ROOM {
                key.truncate(len);
                return there(status).then_some((key, val));
            }
            key.resize(len, 0);
        }
    }

    /// The entry with the least key. O(log n).
    pub fn first_key_value(&self) -> Option<(Vec<u8>, u64)> {
        // SAFETY: an open handle, and a slice by its length.
        self.entry(|m, key, room, len, val| unsafe { raw::pam_text_map_first(m, key, room, len, val) })
    }

    /// The entry with the greatest key. O(log n).
    pub fn last_key_value(&self) -> Option<(Vec<u8>, u64)> {
        // SAFETY: an open handle, and a slice by its length.
        self.entry(|m, key, room, len, val| unsafe { raw::pam_text_map_last(m, key, room, len, val) })
    }

    /// The entry with the least key greater than `key`. O(log n).
    pub fn next(&self, key: impl AsRef<[u8]>) -> Option<(Vec<u8>, u64)> {
        let than = key.as_ref();
        // SAFETY: an open handle, and slices by their lengths.
        self.entry(|m, key, room, len, val| unsafe { raw::pam_text_map_next(m, than.as_ptr(), than.len(), key, room, len, val) })
    }

    /// The entry with the greatest key less than `key`. O(log n).
    pub fn prev(&self, key: impl AsRef<[u8]>) -> Option<(Vec<u8>, u64)> {
        let than = key.as_ref();
        // SAFETY: an open handle, and slices by their lengths.
        self.entry(|m, key, room, len, val| unsafe { raw::pam_text_map_prev(m, than.as_ptr(), than.len(), key, room, len, val) })
    }

    /// The entry at a place in the order of keys, counted from 0. O(log n).
    pub fn select(&self, place: u64) -> Option<(Vec<u8>, u64)> {
        // SAFETY: an open handle, and a slice by its length.
        self.entry(|m, key, room, len, val| unsafe { raw::pam_text_map_select(m, place, key, room, len, val) })
    }

    /// How many keys are less than `key`. O(log n).
    pub fn rank(&self, key: impl AsRef<[u8]>) -> u64 {
        let (key, mut rank) = (key.as_ref(), 0);
        // SAFETY: an open handle, and a slice by its length.
        sure(unsafe { raw::pam_text_map_rank(self.0.as_ptr(), key.as_ptr(), key.len(), &mut rank) });
        rank
    }

    /// The sum and the greatest of all values. O(1).
    pub fn fold(&self) -> Fold {
        let mut fold = Fold::default();
        // SAFETY: an open handle.
        sure(unsafe { raw::pam_text_map_fold(self.0.as_ptr(), &mut fold.sum, &mut fold.greatest) });
        fold
    }

    /// The sum and the greatest of the values at the keys of a range. O(log n).
    ///
    /// ```
    /// # use pam::TextMap;
    /// let map = TextMap::from([("a", 10), ("b", 20), ("c", 5)]);
    /// assert_eq!(map.fold_range("a".."c").sum, 30);
    /// assert_eq!(map.fold_range("b"..="c").sum, 25);
    /// ```
    pub fn fold_range<K: AsRef<[u8]>>(&self, range: impl RangeBounds<K>) -> Fold {
        let (front, back) = self.places(&range);
        let mut fold = Fold::default();
        if front < back {
            let (lo, hi) = (self.at(front).0, self.at(back - 1).0);
            let (sum, greatest) = (&mut fold.sum, &mut fold.greatest);
            // SAFETY: an open handle, and slices by their lengths.
            sure(unsafe { raw::pam_text_map_fold_range(self.0.as_ptr(), lo.as_ptr(), lo.len(), hi.as_ptr(), hi.len(), sum, greatest) });
        }
        fold
    }

    /// The entry at a place that has one.
    fn at(&self, place: u64) -> (Vec<u8>, u64) {
        self.select(place).expect("an entry at a place before the end")
    }

    /// The places of the entries with the keys of a range: the first, and that behind the last.
    fn places<K: AsRef<[u8]>>(&self, range: &impl RangeBounds<K>) -> (u64, u64) {
        let front = match range.start_bound() {
            Bound::Included(first) => self.rank(first),
            Bound::Excluded(before) => self.rank(after(before.as_ref())),
            Bound::Unbounded => 0,
        };
        let back = match range.end_bound() {
            Bound::Included(last) => self.rank(after(last.as_ref())),
            Bound::Excluded(behind) => self.rank(behind),
            Bound::Unbounded => self.0.len(),
        };
        (front, back.max(front))
    }

    /// The entries in the order of keys, from either end: from the front in chunks, in O(log n) for a chunk and O(1) for each entry,
    /// and from the back in O(log n) for each.
    pub fn iter(&self) -> TextIter<'_> {
        TextIter { map: self, front: 0, back: self.0.len(), fetched: Vec::new().into_iter() }
    }

    /// The entries with the keys of a range, in order, from either end.
    ///
    /// ```
    /// # use pam::TextMap;
    /// let map = TextMap::from([("a", 10), ("b", 20), ("c", 30)]);
    /// assert_eq!(map.range("b"..).map(|(_, val)| val).collect::<Vec<_>>(), [20, 30]);
    /// ```
    pub fn range<K: AsRef<[u8]>>(&self, range: impl RangeBounds<K>) -> TextIter<'_> {
        let (front, back) = self.places(&range);
        TextIter { map: self, front, back, fetched: Vec::new().into_iter() }
    }

    /// The keys, in order.
    pub fn keys(&self) -> impl DoubleEndedIterator<Item = Vec<u8>> + ExactSizeIterator + '_ {
        self.iter().map(|(key, _)| key)
    }

    /// The values in the order of keys.
    pub fn values(&self) -> impl DoubleEndedIterator<Item = u64> + ExactSizeIterator + '_ {
        self.iter().map(|(_, val)| val)
    }

    /// The first entries from a key on, a chunk of them; none only where there are none.
    fn chunk(&self, from: &[u8]) -> Vec<(Vec<u8>, u64)> {
        let (mut keys, mut ends, mut vals, mut count) = (vec![0; CHUNK_ROOM], vec![0; CHUNK], vec![0; CHUNK], 0);
        loop {
            let (bytes, places, found) = (keys.as_mut_ptr(), ends.as_mut_ptr(), vals.as_mut_ptr());
            // SAFETY: an open handle, and slices by their lengths.
            let status = unsafe { raw::pam_text_map_fill(self.0.as_ptr(), from.as_ptr(), from.len(), bytes, keys.len(), places, CHUNK, found, CHUNK, &mut count) };
            if status != raw::NO_ROOM {
                sure(status);
                break;
            }
            keys.resize(count, 0);
        }
        let starts = std::iter::once(0).chain(ends.iter().copied());
        starts.zip(&ends).zip(vals).take(count).map(|((start, &end), val)| (keys[start..end].to_vec(), val)).collect()
    }

    /// Takes the entries with keys at least `key` out of the map, and answers them as a map of their own. O(log n).
    ///
    /// ```
    /// # use pam::TextMap;
    /// let mut map = TextMap::from([("a", 10), ("b", 20)]);
    /// assert_eq!(map.split_off("b")?, TextMap::from([("b", 20)]));
    /// assert_eq!(map, TextMap::from([("a", 10)]));
    /// # Ok::<(), pam::NoMemory>(())
    /// ```
    pub fn split_off(&mut self, key: impl AsRef<[u8]>) -> Result<TextMap, NoMemory> {
        let key = key.as_ref();
        let mut below = Err(raw::NO_MEMORY);
        let from = Handle::opened(|from| {
            // SAFETY: an open handle, and two closed ones. An inner call that refuses leaves both closed.
            below = Handle::opened(|below| unsafe { raw::pam_text_map_split(self.0.as_ptr(), key.as_ptr(), key.len(), below, from) });
            below.as_ref().map_or_else(|&status| status, |_| raw::OK)
        });
        let from = from.map_err(no_memory)?;
        self.0 = below.map_err(no_memory)?;
        Ok(TextMap(from))
    }

    fn joined(call: impl FnOnce(*mut raw::Raw) -> u8) -> Result<TextMap, NoMemory> {
        Handle::opened(call).map(TextMap).map_err(no_memory)
    }

    /// The entries of either map. O(m log(n / m + 1)) for m and n entries, m at most n.
    ///
    /// ```
    /// # use pam::{Resolve, TextMap};
    /// let (a, b) = (TextMap::from([("a", 10), ("b", 20)]), TextMap::from([("b", 5)]));
    /// assert_eq!(a.union(&b, Resolve::Sum)?, TextMap::from([("a", 10), ("b", 25)]));
    /// # Ok::<(), pam::NoMemory>(())
    /// ```
    pub fn union(&self, other: &TextMap, how: Resolve) -> Result<TextMap, NoMemory> {
        // SAFETY: two open handles, and a closed one.
        TextMap::joined(|out| unsafe { raw::pam_text_map_union(self.0.as_ptr(), other.0.as_ptr(), how.code(), out) })
    }

    /// The entries whose keys both maps have, in the time of `union`.
    pub fn intersection(&self, other: &TextMap, how: Resolve) -> Result<TextMap, NoMemory> {
        // SAFETY: two open handles, and a closed one.
        TextMap::joined(|out| unsafe { raw::pam_text_map_intersection(self.0.as_ptr(), other.0.as_ptr(), how.code(), out) })
    }

    /// The entries whose keys `other` hasn't, in the time of `union`.
    pub fn difference(&self, other: &TextMap) -> Result<TextMap, NoMemory> {
        // SAFETY: two open handles, and a closed one.
        TextMap::joined(|out| unsafe { raw::pam_text_map_difference(self.0.as_ptr(), other.0.as_ptr(), out) })
    }
}

impl Clone for TextMap {
    /// O(1).
    ///
    /// # Panics
    /// Where there is no memory, as with the standard library's collections; [`TextMap::try_clone`] answers it.
    fn clone(&self) -> TextMap {
        self.try_clone().expect("memory for a share of a map")
    }
}

impl Default for TextMap {
    fn default() -> TextMap {
        TextMap::new().expect("memory for a map")
    }
}

impl<K: AsRef<[u8]>, const N: usize> From<[(K, u64); N]> for TextMap {
    fn from(pairs: [(K, u64); N]) -> TextMap {
        pairs.into_iter().collect()
    }
}

impl<K: AsRef<[u8]>> FromIterator<(K, u64)> for TextMap {
    fn from_iter<I: IntoIterator<Item = (K, u64)>>(pairs: I) -> TextMap {
        TextMap::from_pairs(pairs).expect("memory for a map")
    }
}

impl<K: AsRef<[u8]>> Extend<(K, u64)> for TextMap {
    fn extend<I: IntoIterator<Item = (K, u64)>>(&mut self, pairs: I) {
        self.insert_many(pairs).expect("memory for entries");
    }
}

impl PartialEq for TextMap {
    fn eq(&self, other: &TextMap) -> bool {
        self.len() == other.len() && self.iter().eq(other)
    }
}

impl Eq for TextMap {}

impl fmt::Debug for TextMap {
    /// Keys that are no UTF-8 with signs in place of what isn't.
    fn fmt(&self, f: &mut fmt::Formatter<'_>) -> fmt::Result {
        f.debug_map().entries(self.iter().map(|(key, val)| (String::from_utf8_lossy(&key).into_owned(), val))).finish()
    }
}

/// Entries of a [`TextMap`] in the order of keys, from either end.
pub struct TextIter<'a> {
    map: &'a TextMap,
    front: u64,
    back: u64,
    fetched: std::vec::IntoIter<(Vec<u8>, u64)>,
}

impl Iterator for TextIter<'_> {
    type Item = (Vec<u8>, u64);

    fn next(&mut self) -> Option<(Vec<u8>, u64)> {
        if self.front == self.back {
            return None;
        }
        if self.fetched.len() == 0 {
            self.fetched = self.map.chunk(&self.map.at(self.front).0).into_iter();
        }
        self.front += 1;
        self.fetched.next()
    }

    fn size_hint(&self) -> (usize, Option<usize>) {
        let left = (self.back - self.front) as usize;
        (left, Some(left))
    }
}

impl DoubleEndedIterator for TextIter<'_> {
    fn next_back(&mut self) -> Option<(Vec<u8>, u64)> {
        if self.front == self.back {
            return None;
        }
        self.back -= 1;
        Some(self.map.at(self.back))
    }
}

impl ExactSizeIterator for TextIter<'_> {}

impl FusedIterator for TextIter<'_> {}

impl<'a> IntoIterator for &'a TextMap {
    type Item = (Vec<u8>, u64);
    type IntoIter = TextIter<'a>;

    fn into_iter(self) -> TextIter<'a> {
        self.iter()
    }
}
