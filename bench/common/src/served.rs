//! A map that callers share: what changes it, what is asked of it, and the lines of the text.
use crate::fields::Fields;
use crate::replies::line;
use std::collections::BTreeMap;

type Map = BTreeMap<u64, u64>;

#[derive(Clone, Copy)]
pub enum Op {
    Put(u64, u64),
    Del(u64),
    Add(u64, u64),
    Wipe(u64, u64),
}

#[derive(Clone, Copy)]
pub enum Query {
    Get(u64),
    Sum(u64, u64),
    Rank(u64),
    Size,
}

/// The operation of a word, with the numbers behind it.
pub fn op(word: &[u8], fields: &mut Fields) -> Op {
    match word {
        b"put" => Op::Put(fields.next_number(), fields.next_number()),
        b"del" => Op::Del(fields.next_number()),
        b"add" => Op::Add(fields.next_number(), fields.next_number()),
        b"wipe" => Op::Wipe(fields.next_number(), fields.next_number()),
        _ => panic!("no operation"),
    }
}

/// The query of a word, with the numbers behind it.
pub fn query(word: &[u8], fields: &mut Fields) -> Query {
    match word {
        b"get" => Query::Get(fields.next_number()),
        b"sum" => Query::Sum(fields.next_number(), fields.next_number()),
        b"rank" => Query::Rank(fields.next_number()),
        b"size" => Query::Size,
        _ => panic!("no query"),
    }
}

fn wipe(map: &mut Map, lo: u64, hi: u64) {
    if lo <= hi {
        let keys: Vec<u64> = map.range(lo..=hi).map(|(key, _)| *key).collect();
        keys.iter().for_each(|key| {
            map.remove(key);
        });
    }
}

pub fn apply(map: &mut Map, op: &Op) {
    match *op {
        Op::Put(key, val) => {
            map.insert(key, val);
        }
        Op::Del(key) => {
            map.remove(&key);
        }
        Op::Add(key, val) => {
            map.entry(key).and_modify(|old| *old = old.saturating_add(val)).or_insert(val);
        }
        Op::Wipe(lo, hi) => wipe(map, lo, hi),
    }
}

/// The saturating sum and the greatest of some values.
pub fn totals<'a>(vals: impl Iterator<Item = &'a u64>) -> [u64; 2] {
    vals.fold([0, 0], |[sum, greatest], val| [sum.saturating_add(*val), greatest.max(*val)])
}

fn totals_within(map: &Map, lo: u64, hi: u64) -> [u64; 2] {
    if hi < lo {
        return [0, 0];
    }
    totals(map.range(lo..=hi).map(|(_, val)| val))
}

/// Writes the answer to a query, as a line.
pub fn answer(out: &mut Vec<u8>, map: &Map, query: &Query) {
    match *query {
        Query::Get(key) => match map.get(&key) {
            Some(val) => line(out, "some", [*val]),
            None => line(out, "none", []),
        },
        Query::Sum(lo, hi) => line(out, "aug", totals_within(map, lo, hi)),
        Query::Rank(key) => line(out, "rank", [map.range(..key).count() as u64]),
        Query::Size => line(out, "size", [map.len() as u64]),
    }
}

/// Writes the last line of a text.
pub fn last_line(out: &mut Vec<u8>, map: &Map) {
    let [sum, greatest] = totals(map.values());
    line(out, "final", [map.len() as u64, sum, greatest]);
}
