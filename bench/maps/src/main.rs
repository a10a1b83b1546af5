//! The operations of `pam_bench` in plain Rust, over `BTreeMap` and over `im_rc::OrdMap`.
//!
//! `maps_baseline OPERATION SIZE SEED [ordmap]` writes the checksum of the operation's answer to standard output
//! and the nanoseconds that it took, without making its input, to standard error.
mod asking;
mod combining;
mod making;
mod many;
mod map;
mod merging;
mod ranges;
mod texts;
mod versions;

use asking::Question;
use bench_common::{parsed, words};
use combining::{two, Combined, Whole};
use im_rc::OrdMap;
use many::Asked;
use map::Map;
use std::collections::BTreeMap;
use texts::TextWork;

fn run<M: Map>(operation: &str, size: u64, seed: u64) {
    match operation {
        "put" => making::puts::<M>(size, seed, true),
        "put_mut" => making::puts::<M>(size, seed, false),
        "build" => making::build::<M>(size, seed),
        "coded" => making::coded::<M>(size, seed),
        "coded_rising" => making::coded_rising::<M>(size),
        "get" => asking::time::<M>(Question::Get, size, seed),
        "get_many" => many::time::<M>(Asked::AtRandom, size, seed),
        "get_sorted" => many::time::<M>(Asked::Sorted, size, seed),
        "range_fold" => asking::time::<M>(Question::RangeFold, size, seed),
        "rank" => asking::time::<M>(Question::Rank, size, seed),
        "select" => asking::time::<M>(Question::Select, size, seed),
        "neighbours" => asking::time::<M>(Question::Neighbours, size, seed),
        "union" => two::<M>(Combined::Union, size / 2, size / 2, seed),
        "union_small" => two::<M>(Combined::Union, size / 2, size / 2000, seed),
        "intersect" => two::<M>(Combined::Intersection, size / 2, size / 2, seed),
        "difference" => two::<M>(Combined::Difference, size / 2, size / 2, seed),
        "filter" => combining::one::<M>(Whole::Filter, size, seed),
        "map_reduce" => combining::one::<M>(Whole::MapReduce, size, seed),
        "walk" => combining::one::<M>(Whole::Walk, size, seed),
        "ranges" => ranges::time::<M>(size, seed),
        "extend" => merging::extend::<M>(size, seed),
        "union_all" => merging::union_all::<M>(size, seed),
        "diff" => versions::time::<M>(size, seed),
        "get_text" => texts::time::<M::Texts>(TextWork::Gets, size, seed),
        "put_text" => texts::time::<M::Texts>(TextWork::Puts, size, seed),
        other => panic!("no operation {other}"),
    }
}

fn main() {
    let words = words();
    let (operation, size, seed) = (words[0].as_str(), parsed(&words[1]), parsed(&words[2]));
    match words.get(3).map(String::as_str) {
        Some("ordmap") => run::<OrdMap<u64, u64>>(operation, size, seed),
        _ => run::<BTreeMap<u64, u64>>(operation, size, seed),
    }
}
