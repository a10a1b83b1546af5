//! Intervals with values, in a sorted vector and in a `BTreeMap`.
use crate::intervals::{checksum_of, random, Entry, Sorted, WORD};
use bench_common::{report, told, Checksum, Numbers};
use std::collections::BTreeMap;
use std::time::Instant;

type Valued = ((u64, u64), u64);

impl Entry for Valued {
    fn ends(&self) -> (u64, u64) {
        self.0
    }

    fn add_to(&self, checksum: &mut Checksum) {
        self.0.add_to(checksum);
        checksum.add(self.1);
    }
}

/// As many random intervals as are wanted, each with its length.
fn valued(numbers: &mut Numbers, count: u64) -> Vec<Valued> {
    random(numbers, count).into_iter().map(|(left, right)| ((left, right), right - left)).collect()
}

/// The entries in order, of each interval the last one.
fn sorted(mut entries: Vec<Valued>) -> Sorted<Valued> {
    entries.sort_by_key(|entry| entry.0);
    entries.dedup_by(|later, kept| {
        let is_same = later.0 == kept.0;
        if is_same {
            kept.1 = later.1;
        }
        is_same
    });
    Sorted::of(entries)
}

pub fn at_once(numbers: &mut Numbers, size: u64) {
    let entries = valued(numbers, size);
    let start = Instant::now();
    let map = sorted(entries.clone());
    told(start, || checksum_of(map.entries()));
}

pub fn inserted(numbers: &mut Numbers, size: u64) {
    let entries = valued(numbers, size);
    let start = Instant::now();
    let mut map = BTreeMap::new();
    for (interval, val) in entries {
        map.insert(interval, val);
    }
    told(start, || checksum_of(&map.into_iter().collect::<Vec<Valued>>()));
}

pub fn overlapping(numbers: &mut Numbers, size: u64) {
    let map = sorted(valued(numbers, size));
    let width = WORD / size.max(1);
    let start = Instant::now();
    let mut checksum = Checksum::default();
    for _ in 0..size {
        let lo = numbers.below(WORD);
        map.overlapping(lo, lo.saturating_add(width)).iter().for_each(|entry| entry.add_to(&mut checksum));
    }
    report(checksum.sum(), start);
}
