//! Clones of one map that are kept.
use bench_common::{last_line, Numbers};
use std::collections::BTreeMap;
use std::io::{self, Write};
use std::time::Instant;

type Map = BTreeMap<u64, u64>;

/// How many entries the map has, with the keys from 0 on, and what their values are below.
const ENTRIES: u64 = 100_000;
const VALUES: u64 = 1_000_000;

/// Changes the values of so many keys one after another, and keeps a clone of the map after each.
fn keep(map: &mut Map, numbers: &mut Numbers, count: usize) -> Vec<Map> {
    let mut kept = Vec::with_capacity(count);
    for _ in 0..count {
        map.insert(numbers.below(ENTRIES), numbers.below(VALUES));
        kept.push(map.clone());
    }
    kept
}

pub fn time(count: usize) {
    let mut numbers = Numbers::new(1);
    let entries: Vec<(u64, u64)> = (0..ENTRIES).map(|key| (key, numbers.below(VALUES))).collect();
    let mut map: Map = entries.iter().copied().collect();
    let start = Instant::now();
    let kept = keep(&mut map, &mut numbers, count);
    let taken = start.elapsed().as_nanos();
    // The last large block: where it is freed, in_use.c tells what all clones take.
    drop(entries);
    drop(kept);
    let mut last = Vec::new();
    last_line(&mut last, &map);
    io::stdout().write_all(&last).expect("an output");
    eprintln!("{taken}");
}
