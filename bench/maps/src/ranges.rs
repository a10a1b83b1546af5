//! Walks over ranges of keys.
use crate::combining::random;
use crate::map::Map;
use bench_common::{report, Checksum, Numbers};
use std::time::Instant;

/// How many keys a range spans, so that some 100 of them are there.
const WIDTH: u64 = 254;

/// Ranges from random keys on, one for a hundred pairs of the map.
pub fn time<M: Map>(size: u64, seed: u64) {
    let mut numbers = Numbers::new(seed);
    let map: M = random(&mut numbers, size, 2 * size);
    let start = Instant::now();
    let mut checksum = Checksum::default();
    for _ in 0..size / 100 {
        let lo = numbers.below(2 * size);
        checksum.add_entries(map.within(lo, lo + WIDTH - 1));
    }
    report(checksum.sum(), start);
}
