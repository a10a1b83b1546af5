//! Maps made of pairs.
use crate::map::Map;
use bench_common::{report, told, Checksum, Numbers};
use std::hint::black_box;
use std::time::Instant;

/// One put after another. Where each old map is kept for a moment, and the map can be shared, it is shared before each put.
pub fn puts<M: Map>(size: u64, seed: u64, keeps_old: bool) {
    let pairs = Numbers::new(seed).pairs(size, 2 * size);
    let start = Instant::now();
    let mut map = M::default();
    for (key, val) in &pairs {
        let old = if keeps_old { map.shared() } else { None };
        map.put(*key, *val);
        black_box(old);
    }
    report(map.size(), start);
    black_box(map);
}

pub fn build<M: Map>(size: u64, seed: u64) {
    let pairs = Numbers::new(seed).pairs(size, 2 * size);
    let start = Instant::now();
    let map: M = pairs.iter().copied().collect();
    told(start, || Checksum::of(map.entries()));
}

/// A map of random pairs with keys of 64 bits, whose memory the harness reads off the process.
pub fn coded<M: Map>(size: u64, seed: u64) {
    let mut numbers = Numbers::new(seed);
    held::<M>((0..size).map(|_| numbers.wide_pair()).collect());
}

/// The same of the keys from 0 on.
pub fn coded_rising<M: Map>(size: u64) {
    held::<M>((0..size).map(|key| (key, key % 100)).collect());
}

fn held<M: Map>(pairs: Vec<(u64, u64)>) {
    let start = Instant::now();
    let map: M = pairs.iter().copied().collect();
    report(map.size(), start);
    black_box((map, pairs));
}
