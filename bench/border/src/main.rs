//! One operation on so many random pairs, of the crate pam or of `BTreeMap`: border_baseline OPERATION SIZE SEED pam|std.
//! Nanoseconds go to standard error, a checksum to standard output, as by border.c.
use pam::{Map, Resolve};
use std::collections::BTreeMap;
use std::env;
use std::hint::black_box;
use std::time::Instant;

struct Random(u64);

impl Random {
    fn number(&mut self) -> u64 {
        self.0 = self.0.wrapping_add(0x9e37_79b9_7f4a_7c15);
        let mut z = self.0;
        z = (z ^ z >> 30).wrapping_mul(0xbf58_476d_1ce4_e5b9);
        z = (z ^ z >> 27).wrapping_mul(0x94d0_49bb_1331_11eb);
        z ^ z >> 31
    }
}

fn timed<T>(call: impl FnOnce() -> T) -> T {
    let begun = Instant::now();
    let made = black_box(call());
    eprintln!("{}", begun.elapsed().as_nanos());
    made
}

fn total(numbers: impl Iterator<Item = u64>) -> u64 {
    numbers.fold(0, u64::wrapping_add)
}

/// The ranges that are summed: many short ones, or few wide ones.
fn bounds<'a>(operation: &str, keys: &'a [u64]) -> impl Iterator<Item = (u64, u64)> + 'a {
    let (count, wide) = if operation == "wide_sums" { (100, u64::MAX / 2) } else { (100_000, u64::MAX / keys.len() as u64 * 100) };
    (0..count).map(move |i| keys[i % keys.len()]).map(move |lo| (lo, lo.saturating_add(wide)))
}

fn by_pam(operation: &str, keys: &[u64], vals: &[u64]) -> Result<u64, pam::NoMemory> {
    let half = keys.len() / 2;
    let built = |from: usize, to: usize| Map::from_slices(&keys[from..to], &vals[from..to]);
    let all = || built(0, keys.len());
    Ok(match operation {
        "put" => timed(|| {
            let mut map = Map::new()?;
            for (&key, &val) in keys.iter().zip(vals) {
                map.insert(key, val)?;
            }
            Ok(map)
        })?
        .len() as u64,
        "get" => {
            let map = all()?;
            timed(|| total(keys.iter().filter_map(|&key| map.get(key))))
        }
        "build" => timed(all)?.len() as u64,
        "put_many" => {
            let mut map = built(0, half)?;
            timed(|| map.insert_many(&keys[half..], &vals[half..]))?;
            map.len() as u64
        }
        "get_many" => {
            let map = all()?;
            total(timed(|| map.get_many(keys)).into_iter().flatten())
        }
        "sums" | "wide_sums" => {
            let map = all()?;
            timed(|| total(bounds(operation, keys).map(|(lo, hi)| map.fold_range(lo..=hi).sum)))
        }
        "union" => {
            let (a, b) = (built(0, half)?, built(half, keys.len())?);
            timed(|| a.union(&b, Resolve::Second))?.fold().sum
        }
        "walk" => {
            let map = all()?;
            timed(|| total(map.iter().map(|(key, val)| key ^ val)))
        }
        _ => panic!("no such operation"),
    })
}

fn by_std(operation: &str, keys: &[u64], vals: &[u64]) -> u64 {
    let half = keys.len() / 2;
    let pairs = |from: usize, to: usize| keys[from..to].iter().copied().zip(vals[from..to].iter().copied());
    let all = || pairs(0, keys.len()).collect::<BTreeMap<u64, u64>>();
    match operation {
        "put" => {
            let mut map = BTreeMap::new();
            timed(|| {
                for (key, val) in pairs(0, keys.len()) {
                    map.insert(key, val);
                }
            });
            map.len() as u64
        }
        "get" => {
            let map = all();
            timed(|| total(keys.iter().filter_map(|key| map.get(key).copied())))
        }
        "build" => timed(all).len() as u64,
        "put_many" => {
            let mut map: BTreeMap<u64, u64> = pairs(0, half).collect();
            timed(|| map.extend(pairs(half, keys.len())));
            map.len() as u64
        }
        "get_many" => {
            let map = all();
            total(timed(|| keys.iter().map(|key| map.get(key).copied()).collect::<Vec<_>>()).into_iter().flatten())
        }
        "sums" | "wide_sums" => {
            let map = all();
            timed(|| total(bounds(operation, keys).map(|(lo, hi)| total(map.range(lo..=hi).map(|(_, &val)| val)))))
        }
        "union" => {
            // What pam's union does: both maps stay.
            let (a, b): (BTreeMap<u64, u64>, BTreeMap<u64, u64>) = (pairs(0, half).collect(), pairs(half, keys.len()).collect());
            let both = timed(|| {
                let (mut both, mut other) = (a.clone(), b.clone());
                both.append(&mut other);
                both
            });
            total(both.values().copied())
        }
        "walk" => {
            let map = all();
            timed(|| total(map.iter().map(|(key, val)| key ^ val)))
        }
        _ => panic!("no such operation"),
    }
}

fn main() -> Result<(), pam::NoMemory> {
    let words: Vec<String> = env::args().collect();
    let (size, seed) = (words[2].parse::<usize>().expect("a size"), words[3].parse().expect("a seed"));
    let mut random = Random(seed);
    let (keys, vals): (Vec<u64>, Vec<u64>) = (0..size).map(|_| (random.number(), random.number() >> 44)).unzip();
    let checksum = if words[4] == "pam" { by_pam(&words[1], &keys, &vals)? } else { by_std(&words[1], &keys, &vals) };
    println!("{checksum}");
    Ok(())
}
