//! Maps whose keys are texts.
use bench_common::{report, Checksum, Numbers};
use im_rc::OrdMap;
use std::collections::BTreeMap;
use std::time::Instant;

/// What the operations ask of such a map.
pub trait TextMap: Default {
    fn put(&mut self, key: String, val: u64);

    fn size(&self) -> u64;

    fn at(&self, key: &str) -> Option<u64>;
}

macro_rules! text_map {
    ($map:ty) => {
        impl TextMap for $map {
            fn put(&mut self, key: String, val: u64) {
                self.insert(key, val);
            }

            fn size(&self) -> u64 {
                self.len() as u64
            }

            fn at(&self, key: &str) -> Option<u64> {
                self.get(key).copied()
            }
        }
    };
}

text_map!(BTreeMap<String, u64>);
text_map!(OrdMap<String, u64>);

/// What is done to a map of texts.
pub enum TextWork {
    /// One key after another is asked for.
    Gets,
    /// One entry after another is put in place.
    Puts,
}

fn text_of(number: u64) -> String {
    format!("key {number}")
}

/// The map of pairs that are put one after another in place.
fn all_put<M: TextMap>(pairs: Vec<(String, u64)>) -> M {
    let mut map = M::default();
    for (key, val) in pairs {
        map.put(key, val);
    }
    map
}

/// The checksum of the values at keys.
fn answers<M: TextMap>(map: &M, keys: &[String]) -> u64 {
    let mut checksum = Checksum::default();
    for key in keys {
        checksum.add(map.at(key).unwrap_or(0));
    }
    checksum.sum()
}

pub fn time<M: TextMap>(work: TextWork, size: u64, seed: u64) {
    let mut numbers = Numbers::new(seed);
    let pairs = numbers.pairs(size, 2 * size).into_iter().map(|(key, val)| (text_of(key), val)).collect();
    match work {
        TextWork::Gets => {
            let map: M = all_put(pairs);
            let keys: Vec<String> = (0..size).map(|_| text_of(numbers.below(2 * size))).collect();
            let start = Instant::now();
            report(answers(&map, &keys), start);
        }
        TextWork::Puts => {
            let start = Instant::now();
            let map: M = all_put(pairs);
            report(map.size(), start);
        }
    }
}
