//! The map that callers share, and the lines of the text.
use crate::records::{Op, Query};
use std::collections::BTreeMap;
use std::io::Write;

pub type Map = BTreeMap<u64, u64>;

fn wipe(map: &mut Map, lo: u64, hi: u64) {
    if lo <= hi {
        let keys: Vec<u64> = map.range(lo..=hi).map(|(key, _)| *key).collect();
        keys.iter().for_each(|key| {
            map.remove(key);
        });
    }
}

pub fn apply(map: &mut Map, op: &Op) {
    match *op {
        Op::Put(key, val) => {
            map.insert(key, val);
        }
        Op::Del(key) => {
            map.remove(&key);
        }
        Op::Add(key, val) => {
            map.entry(key).and_modify(|old| *old = old.saturating_add(val)).or_insert(val);
        }
        Op::Wipe(lo, hi) => wipe(map, lo, hi),
    }
}

/// The sum and the greatest of some values.
fn totals<'a>(vals: impl Iterator<Item = &'a u64>) -> (u64, u64) {
    vals.fold((0, 0), |(sum, greatest), val| (sum.saturating_add(*val), greatest.max(*val)))
}

fn totals_within(map: &Map, lo: u64, hi: u64) -> (u64, u64) {
    if hi < lo {
        return (0, 0);
    }
    totals(map.range(lo..=hi).map(|(_, val)| val))
}

/// The line of a read, by its record's number and the number of the batches so far.
pub fn reply_line(map: &Map, place: u64, number: usize, query: &Query) -> Vec<u8> {
    let mut line = Vec::new();
    write!(line, "r,{place},{number},").expect("memory");
    match *query {
        Query::Get(key) => match map.get(&key) {
            Some(val) => writeln!(line, "some,{val}"),
            None => writeln!(line, "none"),
        },
        Query::Sum(lo, hi) => {
            let (sum, greatest) = totals_within(map, lo, hi);
            writeln!(line, "aug,{sum},{greatest}")
        }
        Query::Rank(key) => writeln!(line, "rank,{}", map.range(..key).count()),
        Query::Size => writeln!(line, "size,{}", map.len()),
    }
    .expect("memory");
    line
}

/// The lines of the batches in their order.
pub fn order_lines(text: &mut Vec<u8>, order: &[u64]) {
    for (at, place) in (1..).zip(order) {
        let at: u64 = at;
        writeln!(text, "j,{at},{place}").expect("memory");
    }
}

/// The last line.
pub fn last_line(text: &mut Vec<u8>, map: &Map) {
    let (sum, greatest) = totals(map.values());
    writeln!(text, "final,{},{sum},{greatest}", map.len()).expect("memory");
}
