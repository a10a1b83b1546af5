//! Many questions to one map.
use crate::map::Map;
use bench_common::{report, Checksum, Numbers};
use std::time::Instant;

/// What is asked of a map, about one random number after another.
#[derive(Clone, Copy)]
pub enum Question {
    /// The value at a key.
    Get,
    /// The sum and the greatest of the values from a key on, of about half of the map, by a walk.
    RangeFold,
    /// How many keys are below a key, by a walk.
    Rank,
    /// The key at a place, by a walk.
    Select,
    /// The keys on both sides of a key.
    Neighbours,
}

impl Question {
    /// How often it is asked of a map of a size.
    fn count(self, size: u64) -> u64 {
        match self {
            Question::Get | Question::Neighbours => size,
            Question::RangeFold | Question::Rank | Question::Select => (size / 10_000).max(1),
        }
    }

    /// Below which bound its random numbers are.
    fn bound(self, size: u64) -> u64 {
        match self {
            Question::Get | Question::Rank | Question::Neighbours => 2 * size,
            Question::RangeFold => size,
            Question::Select => size / 2,
        }
    }
}

fn add_range<'a>(checksum: &mut Checksum, entries: impl Iterator<Item = (&'a u64, &'a u64)>) {
    let (mut sum, mut greatest) = (0u64, 0u64);
    for (_, val) in entries {
        sum = sum.saturating_add(*val);
        greatest = greatest.max(*val);
    }
    checksum.add(sum);
    checksum.add(greatest);
}

/// Adds the answers to a question to a checksum.
fn ask<M: Map>(map: &M, question: Question, numbers: &mut Numbers, size: u64, checksum: &mut Checksum) {
    for _ in 0..question.count(size) {
        let number = numbers.below(question.bound(size));
        match question {
            Question::Get => checksum.add(map.at(number).unwrap_or(0)),
            Question::RangeFold => add_range(checksum, map.within(number, number + size)),
            Question::Rank => checksum.add(map.below(number).count() as u64),
            Question::Select => checksum.add(map.entries().nth(number as usize).map_or(0, |(key, _)| *key)),
            Question::Neighbours => {
                checksum.add(map.next_key(number).unwrap_or(0));
                checksum.add(map.prev_key(number).unwrap_or(0));
            }
        }
    }
}

pub fn time<M: Map>(question: Question, size: u64, seed: u64) {
    let mut numbers = Numbers::new(seed);
    let map: M = numbers.pairs(size, 2 * size).into_iter().collect();
    let start = Instant::now();
    let mut checksum = Checksum::default();
    ask(&map, question, &mut numbers, size, &mut checksum);
    report(checksum.sum(), start);
}
