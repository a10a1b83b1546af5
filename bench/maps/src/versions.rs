//! What has changed between two versions of a map.
use crate::combining::random;
use crate::map::{Changed, Map};
use bench_common::{told, Checksum, Numbers};
use std::time::Instant;

fn checksum_of(changes: &[Changed]) -> u64 {
    let mut checksum = Checksum::default();
    for (key, old, new) in changes {
        checksum.add(*key);
        checksum.add(old.unwrap_or(0));
        checksum.add(new.unwrap_or(0));
    }
    checksum.sum()
}

/// The changes that ten puts of random pairs make.
pub fn time<M: Map>(size: u64, seed: u64) {
    let mut numbers = Numbers::new(seed);
    let map: M = random(&mut numbers, size, 2 * size);
    let mut newer = map.clone();
    for (key, val) in numbers.pairs(10, 2 * size) {
        newer.put(key, val);
    }
    let start = Instant::now();
    let changes = map.changes(&newer);
    told(start, || checksum_of(&changes));
}
