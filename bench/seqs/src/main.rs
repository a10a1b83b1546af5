//! The operations of `seq_bench` in plain Rust, over `Vec` and over `im_rc::Vector`.
//!
//! `seqs_baseline OPERATION SIZE SEED vec|vector` writes the checksum of the operation's answer to standard output
//! and the nanoseconds that it took, without making its input, to standard error.
use bench_common::{parsed, report, told, words, Checksum, Numbers};
use im_rc::Vector;
use std::time::Instant;

/// How many sequences there are of which pairs are appended.
const PIECES: u64 = 100;

/// What the operations ask of a sequence, of which `push` and `set` alone change it.
trait Sequence: Sized {
    fn built(items: &[u64]) -> Self;
    fn size(&self) -> u64;
    fn at(&self, place: u64) -> Option<u64>;
    fn push(&mut self, item: u64);
    fn set(&mut self, place: u64, item: u64);
    fn appended(&self, other: &Self) -> Self;
    fn turned(&self) -> Self;
    fn run(&self, from: u64, count: u64) -> impl Iterator<Item = u64>;
}

impl Sequence for Vec<u64> {
    fn built(items: &[u64]) -> Self {
        items.to_vec()
    }

    fn size(&self) -> u64 {
        self.len() as u64
    }

    fn at(&self, place: u64) -> Option<u64> {
        self.get(place as usize).copied()
    }

    fn push(&mut self, item: u64) {
        Vec::push(self, item);
    }

    fn set(&mut self, place: u64, item: u64) {
        self[place as usize] = item;
    }

    fn appended(&self, other: &Self) -> Self {
        let mut both = Vec::with_capacity(self.len() + other.len());
        both.extend_from_slice(self);
        both.extend_from_slice(other);
        both
    }

    fn turned(&self) -> Self {
        self.iter().rev().copied().collect()
    }

    fn run(&self, from: u64, count: u64) -> impl Iterator<Item = u64> {
        self[from as usize..(from + count) as usize].iter().copied()
    }
}

impl Sequence for Vector<u64> {
    fn built(items: &[u64]) -> Self {
        Vector::from(items)
    }

    fn size(&self) -> u64 {
        self.len() as u64
    }

    fn at(&self, place: u64) -> Option<u64> {
        self.get(place as usize).copied()
    }

    fn push(&mut self, item: u64) {
        self.push_back(item);
    }

    fn set(&mut self, place: u64, item: u64) {
        Vector::set(self, place as usize, item);
    }

    fn appended(&self, other: &Self) -> Self {
        let mut both = self.clone();
        both.append(other.clone());
        both
    }

    fn turned(&self) -> Self {
        self.iter().rev().copied().collect()
    }

    fn run(&self, from: u64, count: u64) -> impl Iterator<Item = u64> {
        self.iter().skip(from as usize).take(count as usize).copied()
    }
}

/// Writes the time since a start, and the checksum of all items of what it took to make.
fn made<S: Sequence>(seq: &S, start: Instant) {
    told(start, || {
        let mut checksum = Checksum::default();
        seq.run(0, seq.size()).for_each(|item| checksum.add(item));
        checksum.sum()
    });
}

fn items(numbers: &mut Numbers, count: u64) -> Vec<u64> {
    (0..count).map(|_| numbers.item()).collect()
}

fn random<S: Sequence>(numbers: &mut Numbers, size: u64) -> S {
    S::built(&items(numbers, size))
}

fn build<S: Sequence>(numbers: &mut Numbers, size: u64) {
    let items = items(numbers, size);
    let start = Instant::now();
    made(&S::built(&items), start);
}

fn reverse<S: Sequence>(numbers: &mut Numbers, size: u64) {
    let seq: S = random(numbers, size);
    let start = Instant::now();
    made(&seq.turned(), start);
}

fn push<S: Sequence>(numbers: &mut Numbers, size: u64) {
    let items = items(numbers, size);
    let start = Instant::now();
    let mut seq = S::built(&[]);
    for item in items {
        seq.push(item);
    }
    made(&seq, start);
}

/// As many items at random places as there are.
fn set<S: Sequence>(numbers: &mut Numbers, size: u64) {
    let mut seq: S = random(numbers, size);
    let start = Instant::now();
    for item in 0..size {
        seq.set(numbers.below(size), item);
    }
    made(&seq, start);
}

fn append<S: Sequence>(numbers: &mut Numbers, size: u64) {
    let pieces: Vec<S> = (0..PIECES).map(|_| random(numbers, size / PIECES)).collect();
    let start = Instant::now();
    let mut checksum = Checksum::default();
    for _ in 0..size / 10 {
        let front = &pieces[numbers.below(PIECES) as usize];
        let back = &pieces[numbers.below(PIECES) as usize];
        let both = front.appended(back);
        checksum.add(both.at(numbers.below(both.size())).unwrap_or(0));
    }
    report(checksum.sum(), start);
}

fn at<S: Sequence>(numbers: &mut Numbers, size: u64) {
    let seq: S = random(numbers, size);
    let start = Instant::now();
    let mut checksum = Checksum::default();
    for _ in 0..seq.size() {
        checksum.add(seq.at(numbers.below(seq.size())).unwrap_or(0));
    }
    report(checksum.sum(), start);
}

/// Where the sum of the items first is at least a number, as many times as there are items: by a vector of the sums up to each item.
fn first_where<S: Sequence>(numbers: &mut Numbers, size: u64) {
    let seq: S = random(numbers, size);
    let start = Instant::now();
    let mut checksum = Checksum::default();
    let mut sum = 0;
    let mut up_to = |item| {
        sum += item;
        sum
    };
    let sums: Vec<u64> = seq.run(0, size).map(&mut up_to).collect();
    let mean = sums.last().unwrap_or(&0) / size.max(1);
    for _ in 0..size {
        let least = numbers.below(size) * mean;
        checksum.add(sums.partition_point(|sum| *sum < least) as u64);
    }
    report(checksum.sum(), start);
}

/// Sums of runs of half of the items.
fn fold<S: Sequence>(numbers: &mut Numbers, size: u64) {
    let seq: S = random(numbers, size);
    let start = Instant::now();
    let mut checksum = Checksum::default();
    let half = seq.size() / 2;
    for _ in 0..(seq.size() / 10_000).max(1) {
        let (mut sum, mut greatest) = (0u64, 0u64);
        for item in seq.run(numbers.below(half), half) {
            sum = sum.saturating_add(item);
            greatest = greatest.max(item);
        }
        checksum.add(sum);
        checksum.add(greatest);
    }
    report(checksum.sum(), start);
}

fn run<S: Sequence>(operation: &str, size: u64, seed: u64) {
    let mut numbers = Numbers::new(seed);
    match operation {
        "build" => build::<S>(&mut numbers, size),
        "push" => push::<S>(&mut numbers, size),
        "set" => set::<S>(&mut numbers, size),
        "append" => append::<S>(&mut numbers, size),
        "reverse" => reverse::<S>(&mut numbers, size),
        "at" => at::<S>(&mut numbers, size),
        "first_where" => first_where::<S>(&mut numbers, size),
        "fold" => fold::<S>(&mut numbers, size),
        other => panic!("no operation {other}"),
    }
}

fn main() {
    let words = words();
    let (operation, size, seed) = (words[0].as_str(), parsed(&words[1]), parsed(&words[2]));
    match words[3].as_str() {
        "vec" => run::<Vec<u64>>(operation, size, seed),
        "vector" => run::<Vector<u64>>(operation, size, seed),
        other => panic!("no sequence {other}"),
    }
}
