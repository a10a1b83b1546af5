//! Sixteen maps, and what commands do to them.
use crate::script::{Change, Command, How, Question, Register, REGISTERS};
use bench_common::{entry, line, list, merged, totals};
use std::collections::btree_map::{self, BTreeMap};
use std::ops::Bound::{Excluded, Unbounded};
use std::ops::{Index, IndexMut};

type Map = BTreeMap<u64, u64>;

struct Registers(Vec<Map>);

impl Index<Register> for Registers {
    type Output = Map;

    fn index(&self, register: Register) -> &Map {
        &self.0[usize::from(register.0)]
    }
}

impl IndexMut<Register> for Registers {
    fn index_mut(&mut self, register: Register) -> &mut Map {
        &mut self.0[usize::from(register.0)]
    }
}

/// The entries with keys from `lo` to `hi`.
fn within(map: &Map, lo: u64, hi: u64) -> btree_map::Range<'_, u64, u64> {
    if lo <= hi {
        map.range(lo..=hi)
    } else {
        btree_map::Range::default()
    }
}

fn above(map: &Map, key: u64) -> btree_map::Range<'_, u64, u64> {
    map.range((Excluded(key), Unbounded))
}

fn kept<'a>(entries: impl Iterator<Item = (&'a u64, &'a u64)>) -> Map {
    entries.map(|(key, val)| (*key, *val)).collect()
}

impl How {
    fn of(self, a: u64, b: u64) -> u64 {
        match self {
            How::First => a,
            How::Second => b,
            How::Sum => a.saturating_add(b),
            How::Greater => a.max(b),
        }
    }
}

fn union(a: &Map, b: &Map, how: How) -> Map {
    let vals = |v: Option<u64>, w: Option<u64>| v.zip(w).map(|(v, w)| how.of(v, w)).or(v).or(w);
    merged(a, b)
        .filter_map(|(k, v, w)| Some((k, vals(v, w)?)))
        .collect()
}

fn inter(a: &Map, b: &Map, how: How) -> Map {
    merged(a, b)
        .filter_map(|(k, v, w)| Some((k, how.of(v?, w?))))
        .collect()
}

fn diff(a: &Map, b: &Map) -> Map {
    merged(a, b)
        .filter_map(|(k, v, w)| if w.is_none() { Some((k, v?)) } else { None })
        .collect()
}

/// The entries of `a` followed by those of `b`, where no key of `b` comes before the end of `a`.
fn cat(a: &Map, b: &Map) -> Option<Map> {
    match (a.last_key_value(), b.first_key_value()) {
        (Some((last, _)), Some((first, _))) if last >= first => None,
        _ => Some(kept(a.iter().chain(b))),
    }
}

fn ask(map: &Map, question: Question, out: &mut Vec<u8>) {
    match question {
        Question::Get(k) => match map.get(&k) {
            Some(val) => line(out, "some", [*val]),
            None => line(out, "none", []),
        },
        Question::Size => line(out, "size", [map.len() as u64]),
        Question::Sum(lo, hi) => line(out, "aug", totals(within(map, lo, hi).map(|(_, v)| v))),
        Question::Fold => line(out, "aug", totals(map.values())),
        Question::Greatest(lo, hi) => {
            line(
                out,
                "max",
                within(map, lo, hi).map(|(_, v)| *v).max().or(Some(0)),
            );
        }
        Question::Rank(k) => line(out, "rank", [map.range(..k).count() as u64]),
        Question::Select(i) => entry(out, map.iter().nth(i.try_into().unwrap_or(usize::MAX))),
        Question::Next(k) => entry(out, above(map, k).next()),
        Question::Prev(k) => entry(out, map.range(..k).next_back()),
        Question::List(lo, hi) => {
            let found: Vec<_> = within(map, lo, hi).map(|(k, v)| [*k, *v]).collect();
            list(out, "list", found.into_iter());
        }
        Question::Count(lo, hi) => {
            let count = map.values().filter(|val| (lo..=hi).contains(val)).count();
            line(out, "count", [count as u64]);
        }
    }
}

/// Changes register `d`, and says whether that could be done.
fn change(registers: &mut Registers, d: Register, change: Change) -> bool {
    match change {
        Change::Put(k, v) => {
            registers[d].insert(k, v);
        }
        Change::Del(k) => {
            registers[d].remove(&k);
        }
        Change::Copy(m) => registers[d] = registers[m].clone(),
        Change::Clear => registers[d].clear(),
        Change::Build(pairs) => registers[d] = pairs.into_vec().into_iter().collect(),
        Change::PutAll(pairs) => registers[d].extend(pairs.into_vec()),
        Change::DelAll(keys) => {
            for k in keys.iter() {
                registers[d].remove(k);
            }
        }
        Change::Union(a, b, how) => registers[d] = union(&registers[a], &registers[b], how),
        Change::Inter(a, b, how) => registers[d] = inter(&registers[a], &registers[b], how),
        Change::Diff(a, b) => registers[d] = diff(&registers[a], &registers[b]),
        Change::Cat(a, b) => match cat(&registers[a], &registers[b]) {
            Some(map) => registers[d] = map,
            None => return false,
        },
        Change::Below(m, k) => registers[d] = kept(registers[m].range(..k)),
        Change::Above(m, k) => registers[d] = kept(above(&registers[m], k)),
        Change::Slice(m, lo, hi) => registers[d] = kept(within(&registers[m], lo, hi)),
        Change::AtLeast(m, t) => registers[d] = kept(registers[m].iter().filter(|(_, v)| **v >= t)),
        Change::Filter(m, lo, hi) => {
            registers[d] = kept(registers[m].iter().filter(|(_, v)| (lo..=hi).contains(v)));
        }
    }
    true
}

/// The replies of the commands, run in order over empty maps.
pub fn run(commands: Vec<Command>) -> Vec<u8> {
    let mut registers = Registers(vec![Map::new(); REGISTERS as usize]);
    let mut out = Vec::new();
    for command in commands {
        match command {
            Command::Ask(m, question) => ask(&registers[m], question, &mut out),
            Command::Change(d, made) => match change(&mut registers, d, made) {
                true => line(&mut out, "ok", [registers[d].len() as u64]),
                false => line(&mut out, "overlap", []),
            },
        }
    }
    out
}
