//! Sequences.
use crate::chunks::{Places, Walk};
use crate::raw::{self, done, no_memory, sure, there, Handle, SeqKind};
use crate::{closed, Fold, NoMemory};
use std::fmt;
use std::iter::FusedIterator;
use std::ops::RangeBounds;

/// A sequence of `u64`, with the [`Fold`] of any run of items in O(log n), cut and appended in O(log n).
///
/// ```
/// # use pam::Seq;
/// let mut seq = Seq::from([3, 1, 2]);
/// seq.push(9)?;
/// assert_eq!((seq.get(3), seq.fold_range(1..).sum), (Some(9), 12));
/// # Ok::<(), pam::NoMemory>(())
/// ```
pub struct Seq(Handle<SeqKind>);

impl Seq {
    /// The sequence with no items. Unlike `Vec`'s it takes memory, for the handle.
    pub fn new() -> Result<Seq, NoMemory> {
        Ok(Seq(Handle::new()?))
    }

    /// The sequence of a slice's items. O(n).
    pub fn from_slice(items: &[u64]) -> Result<Seq, NoMemory> {
        // SAFETY: a closed handle, and a slice by its length.
        Seq::made(|out| unsafe { raw::pam_seq_build(out, items.as_ptr(), items.len()) })
    }

    fn made(call: impl FnOnce(*mut raw::Raw) -> u8) -> Result<Seq, NoMemory> {
        Handle::opened(call).map(Seq).map_err(no_memory)
    }

    /// A sequence of the same items in O(1), as `clone`, which panics where this is refused.
    pub fn try_clone(&self) -> Result<Seq, NoMemory> {
        Ok(Seq(self.0.share()?))
    }

    /// How many items there are. O(1).
    pub fn len(&self) -> usize {
        self.0.len() as usize
    }

    /// Whether there are no items. O(1).
    pub fn is_empty(&self) -> bool {
        self.len() == 0
    }

    /// The item at a place, counted from 0. O(log n).
    pub fn get(&self, place: usize) -> Option<u64> {
        let mut item = 0;
        // SAFETY: an open handle.
        there(unsafe { raw::pam_seq_get(self.0.as_ptr(), place as u64, &mut item) }).then_some(item)
    }

    /// Sets the item at a place, and answers whether there is one. O(log n).
    pub fn set(&mut self, place: usize, item: u64) -> Result<bool, NoMemory> {
        // SAFETY: an open handle.
        match unsafe { raw::pam_seq_set(self.0.as_ptr(), place as u64, item) } {
            raw::NOT_THERE => Ok(false),
            status => done(status).map(|()| true),
        }
    }

    /// Puts an item at the end. O(log n).
    pub fn push(&mut self, item: u64) -> Result<(), NoMemory> {
        // SAFETY: an open handle.
        done(unsafe { raw::pam_seq_push(self.0.as_ptr(), item) })
    }

    /// Puts a slice's items at the end. O(log n + m) for m of them.
    pub fn extend_from_slice(&mut self, items: &[u64]) -> Result<(), NoMemory> {
        // SAFETY: an open handle, and a slice by its length.
        done(unsafe { raw::pam_seq_push_many(self.0.as_ptr(), items.as_ptr(), items.len()) })
    }

    /// The items of both sequences, this one's first. O(log n).
    ///
    /// ```
    /// # use pam::Seq;
    /// assert_eq!(Seq::from([1]).concat(&Seq::from([2, 3]))?, Seq::from([1, 2, 3]));
    /// # Ok::<(), pam::NoMemory>(())
    /// ```
    pub fn concat(&self, other: &Seq) -> Result<Seq, NoMemory> {
        // SAFETY: two open handles, and a closed one.
        Seq::made(|out| unsafe { raw::pam_seq_append(self.0.as_ptr(), other.0.as_ptr(), out) })
    }

    /// The first `count` items, or all where there are fewer. O(log n).
    pub fn take(&self, count: usize) -> Result<Seq, NoMemory> {
        // SAFETY: an open handle, and a closed one.
        Seq::made(|out| unsafe { raw::pam_seq_take(self.0.as_ptr(), count as u64, out) })
    }

    /// The items after the first `count` ones. O(log n).
    pub fn skip(&self, count: usize) -> Result<Seq, NoMemory> {
        // SAFETY: an open handle, and a closed one.
        Seq::made(|out| unsafe { raw::pam_seq_skip(self.0.as_ptr(), count as u64, out) })
    }

    /// Takes the items from a place on out of the sequence, and answers them as one of their own. O(log n).
    pub fn split_off(&mut self, place: usize) -> Result<Seq, NoMemory> {
        let rest = self.skip(place)?;
        *self = self.take(place)?;
        Ok(rest)
    }

    /// The items in the other order. O(n).
    pub fn reversed(&self) -> Result<Seq, NoMemory> {
        // SAFETY: an open handle, and a closed one.
        Seq::made(|out| unsafe { raw::pam_seq_reverse(self.0.as_ptr(), out) })
    }

    /// The sum and the greatest of all items. O(1).
    pub fn fold(&self) -> Fold {
        let mut fold = Fold::default();
        // SAFETY: an open handle.
        sure(unsafe { raw::pam_seq_fold(self.0.as_ptr(), &mut fold.sum, &mut fold.greatest) });
        fold
    }

    /// The sum and the greatest of the items at the places of a range; places that have none add nothing. O(log n).
    pub fn fold_range(&self, places: impl RangeBounds<u64>) -> Fold {
        let mut fold = Fold::default();
        if let Some((from, last)) = closed(&places) {
            let count = (last - from).saturating_add(1);
            // SAFETY: an open handle.
            sure(unsafe { raw::pam_seq_fold_range(self.0.as_ptr(), from, count, &mut fold.sum, &mut fold.greatest) });
        }
        fold
    }

    /// The items, in order, from either end. O(1) for each.
    pub fn iter(&self) -> SeqIter<'_> {
        SeqIter { seq: self, walk: Walk::over(0, self.0.len()) }
    }
}

impl Clone for Seq {
    /// O(1).
    ///
    /// # Panics
    /// Where there is no memory; [`Seq::try_clone`] answers it.
    fn clone(&self) -> Seq {
        self.try_clone().expect("memory for a share of a sequence")
    }
}

impl Default for Seq {
    fn default() -> Seq {
        Seq::new().expect("memory for a sequence")
    }
}

impl<const N: usize> From<[u64; N]> for Seq {
    fn from(items: [u64; N]) -> Seq {
        Seq::from_slice(&items).expect("memory for a sequence")
    }
}

impl FromIterator<u64> for Seq {
    fn from_iter<I: IntoIterator<Item = u64>>(items: I) -> Seq {
        Seq::from_slice(&items.into_iter().collect::<Vec<_>>()).expect("memory for a sequence")
    }
}

impl Extend<u64> for Seq {
    fn extend<I: IntoIterator<Item = u64>>(&mut self, items: I) {
        self.extend_from_slice(&items.into_iter().collect::<Vec<_>>()).expect("memory for items");
    }
}

impl PartialEq for Seq {
    fn eq(&self, other: &Seq) -> bool {
        self.len() == other.len() && self.iter().eq(other)
    }
}

impl Eq for Seq {}

impl fmt::Debug for Seq {
    fn fmt(&self, f: &mut fmt::Formatter<'_>) -> fmt::Result {
        f.debug_list().entries(self).finish()
    }
}

impl Places for Seq {
    type Item = u64;

    fn chunk(&self, place: u64, count: usize) -> Vec<u64> {
        let mut items = vec![0; count];
        let mut filled = 0;
        // SAFETY: an open handle, and a slice by its length.
        sure(unsafe { raw::pam_seq_fill(self.0.as_ptr(), place, items.as_mut_ptr(), count, &mut filled) });
        items.truncate(filled);
        items
    }
}

/// Items of a [`Seq`] in order, from either end.
pub struct SeqIter<'a> {
    seq: &'a Seq,
    walk: Walk<u64>,
}

impl Iterator for SeqIter<'_> {
    type Item = u64;

    fn next(&mut self) -> Option<u64> {
        self.walk.next(self.seq)
    }

    fn size_hint(&self) -> (usize, Option<usize>) {
        (self.walk.left(), Some(self.walk.left()))
    }
}

impl DoubleEndedIterator for SeqIter<'_> {
    fn next_back(&mut self) -> Option<u64> {
        self.walk.next_back(self.seq)
    }
}

impl ExactSizeIterator for SeqIter<'_> {}

impl FusedIterator for SeqIter<'_> {}

impl<'a> IntoIterator for &'a Seq {
    type Item = u64;
    type IntoIter = SeqIter<'a>;

    fn into_iter(self) -> SeqIter<'a> {
        self.iter()
    }
}
