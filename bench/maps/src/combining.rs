//! Operations on whole maps.
use crate::map::Map;
use bench_common::{report, told, Checksum, Numbers};
use std::time::Instant;

/// What is made of two maps.
pub enum Combined {
    Union,
    Intersection,
    Difference,
}

/// What is made of one map.
pub enum Whole {
    /// The entries with even values.
    Filter,
    /// The sum of all keys and values.
    MapReduce,
    /// All entries, one after another.
    Walk,
}

pub fn random<M: Map>(numbers: &mut Numbers, count: u64, bound: u64) -> M {
    numbers.pairs(count, bound).into_iter().collect()
}

/// Two maps, of a size and of another one.
pub fn two<M: Map>(combined: Combined, size: u64, other: u64, seed: u64) {
    let mut numbers = Numbers::new(seed);
    let a: M = random(&mut numbers, size, 2 * size);
    let b: M = random(&mut numbers, other, 2 * size);
    let start = Instant::now();
    let map = match combined {
        Combined::Union => a.united(&b),
        Combined::Intersection => a.intersected(&b),
        Combined::Difference => a.subtracted(&b),
    };
    told(start, || Checksum::of(map.entries()));
}

fn filtered<M: Map>(map: &M) -> M {
    let even = map.entries().filter(|(_, val)| **val % 2 == 0);
    even.map(|(key, val)| (*key, *val)).collect()
}

fn sum_of<M: Map>(map: &M) -> u64 {
    map.entries().fold(0, |sum: u64, (key, val)| sum.saturating_add(key.saturating_add(*val)))
}

pub fn one<M: Map>(whole: Whole, size: u64, seed: u64) {
    let map: M = random(&mut Numbers::new(seed), size, 2 * size);
    let start = Instant::now();
    match whole {
        Whole::Filter => {
            let kept = filtered(&map);
            told(start, || Checksum::of(kept.entries()));
        }
        Whole::MapReduce => report(sum_of(&map), start),
        Whole::Walk => report(Checksum::of(map.entries()), start),
    }
}
