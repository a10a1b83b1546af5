//! Many entries put into one map.
use crate::combining::random;
use crate::map::Map;
use bench_common::{told, Checksum, Numbers};
use std::time::Instant;

/// A tenth as many random pairs as the map was made of, put into it one after another.
pub fn extend<M: Map>(size: u64, seed: u64) {
    let mut numbers = Numbers::new(seed);
    let mut map: M = random(&mut numbers, size, 2 * size);
    let pairs = numbers.pairs(size / 10, 2 * size);
    let start = Instant::now();
    for (key, val) in &pairs {
        map.put(*key, *val);
    }
    told(start, || Checksum::of(map.entries()));
}

/// 64 maps of as many random pairs in all, put into one after another.
pub fn union_all<M: Map>(size: u64, seed: u64) {
    let mut numbers = Numbers::new(seed);
    let maps: Vec<M> = (0..64).map(|_| random(&mut numbers, size / 64, 2 * size)).collect();
    let start = Instant::now();
    let mut all = M::default();
    for map in maps {
        all.put_all(map);
    }
    told(start, || Checksum::of(all.entries()));
}
