//! Intervals in a sorted vector, with the greatest right end of each half of a half, and in a `BTreeSet`.
use bench_common::{report, told, Checksum, Numbers};
use std::collections::BTreeSet;
use std::time::Instant;

/// Left ends are below this.
pub const WORD: u64 = 1 << 32;

/// An interval with something beside it.
pub trait Entry: Copy + Ord {
    fn ends(&self) -> (u64, u64);
    fn add_to(&self, checksum: &mut Checksum);
}

impl Entry for (u64, u64) {
    fn ends(&self) -> (u64, u64) {
        *self
    }

    fn add_to(&self, checksum: &mut Checksum) {
        checksum.add(self.0);
        checksum.add(self.1);
    }
}

/// Entries in order. Each stands in the middle of its part of the vector, and beside it the greatest right end of this part.
pub struct Sorted<E> {
    entries: Vec<E>,
    greatest: Vec<u64>,
}

impl<E: Entry> Sorted<E> {
    /// Of entries in order.
    pub fn of(entries: Vec<E>) -> Self {
        let mut greatest = vec![0; entries.len()];
        fill(&entries, &mut greatest);
        Sorted { entries, greatest }
    }

    pub fn entries(&self) -> &[E] {
        &self.entries
    }

    /// The entries that begin at most at `hi` and end at least at `lo`, in order.
    pub fn overlapping(&self, lo: u64, hi: u64) -> Vec<E> {
        let mut hits = Vec::new();
        let end = self.entries.partition_point(|entry| entry.ends().0 <= hi);
        search(&self.entries, &self.greatest, end, lo, &mut hits);
        hits
    }
}

/// The greatest right end of each part, and of the whole.
fn fill<E: Entry>(entries: &[E], greatest: &mut [u64]) -> u64 {
    if entries.is_empty() {
        return 0;
    }
    let mid = entries.len() / 2;
    let left = fill(&entries[..mid], &mut greatest[..mid]);
    let right = fill(&entries[mid + 1..], &mut greatest[mid + 1..]);
    greatest[mid] = left.max(right).max(entries[mid].ends().1);
    greatest[mid]
}

/// Adds those of the first `end` entries that end at least at `lo`.
fn search<E: Entry>(entries: &[E], greatest: &[u64], end: usize, lo: u64, hits: &mut Vec<E>) {
    let mid = entries.len() / 2;
    if end == 0 || greatest[mid] < lo {
        return;
    }
    search(&entries[..mid], &greatest[..mid], end.min(mid), lo, hits);
    if mid < end {
        if lo <= entries[mid].ends().1 {
            hits.push(entries[mid]);
        }
        search(&entries[mid + 1..], &greatest[mid + 1..], end - mid - 1, lo, hits);
    }
}

/// As many random intervals as are wanted, of which about four have a number.
pub fn random(numbers: &mut Numbers, count: u64) -> Vec<(u64, u64)> {
    let bound = (WORD / count.max(1)).saturating_mul(8);
    let interval = |_| {
        let left = numbers.below(WORD);
        (left, left.saturating_add(numbers.below(bound)))
    };
    (0..count).map(interval).collect()
}

/// The checksum of entries.
pub fn checksum_of<'a, E: Entry + 'a>(entries: impl IntoIterator<Item = &'a E>) -> u64 {
    let mut checksum = Checksum::default();
    entries.into_iter().for_each(|entry| entry.add_to(&mut checksum));
    checksum.sum()
}

fn sorted(mut intervals: Vec<(u64, u64)>) -> Sorted<(u64, u64)> {
    intervals.sort_unstable();
    intervals.dedup();
    Sorted::of(intervals)
}

pub fn at_once(numbers: &mut Numbers, size: u64) {
    let intervals = random(numbers, size);
    let start = Instant::now();
    let set = sorted(intervals.clone());
    told(start, || checksum_of(set.entries()));
}

pub fn added(numbers: &mut Numbers, size: u64) {
    let intervals = random(numbers, size);
    let start = Instant::now();
    let mut set = BTreeSet::new();
    for interval in intervals {
        set.insert(interval);
    }
    told(start, || checksum_of(&set));
}

pub fn stab(numbers: &mut Numbers, size: u64) {
    let set = sorted(random(numbers, size));
    let start = Instant::now();
    let mut checksum = Checksum::default();
    for _ in 0..size {
        let number = numbers.below(WORD);
        set.overlapping(number, number).iter().for_each(|entry| entry.add_to(&mut checksum));
    }
    report(checksum.sum(), start);
}
