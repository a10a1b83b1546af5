//! Many keys asked of one map, one after another.
use crate::map::Map;
use bench_common::{report, Checksum, Numbers};
use std::time::Instant;

/// The order in which keys are asked for.
#[derive(Clone, Copy)]
pub enum Asked {
    AtRandom,
    Sorted,
}

pub fn time<M: Map>(asked: Asked, size: u64, seed: u64) {
    let mut numbers = Numbers::new(seed);
    let map: M = numbers.pairs(size, 2 * size).into_iter().collect();
    let mut keys: Vec<u64> = (0..size).map(|_| numbers.below(2 * size)).collect();
    if let Asked::Sorted = asked {
        keys.sort_unstable();
    }
    let start = Instant::now();
    let mut checksum = Checksum::default();
    for key in keys {
        checksum.add(map.at(key).unwrap_or(0));
    }
    report(checksum.sum(), start);
}
