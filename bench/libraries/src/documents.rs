//! Documents in a `BTreeMap` of terms to `BTreeMap`s of documents to weights.
use bench_common::{merged, report, told, Checksum, Numbers};
use std::cmp::Reverse;
use std::collections::{BTreeMap, BTreeSet};
use std::time::Instant;

/// How many words a document has.
const LENGTH: u64 = 50;

/// How many of the most frequent terms are asked for.
const FREQUENT: u64 = 8;

/// How often the first documents of two terms are asked for.
const ASKED: u64 = 100;

type Postings = BTreeMap<u64, u64>;

#[derive(Default)]
struct Index {
    known: BTreeSet<u64>,
    terms: BTreeMap<Vec<u8>, Postings>,
}

impl Index {
    /// Adds a document that is not yet known. Its words are sorted, and a known term is looked up without a copy.
    fn add(&mut self, document: u64, text: &[u8]) {
        if !self.known.insert(document) {
            return;
        }
        let text = text.to_ascii_lowercase();
        let runs = text.split(|byte| !byte.is_ascii_alphanumeric()).filter(|run| !run.is_empty());
        let mut words: Vec<&[u8]> = runs.collect();
        words.sort_unstable();
        for run in words.chunk_by(|a, b| a == b) {
            self.postings(run[0]).insert(document, run.len() as u64);
        }
    }

    fn postings(&mut self, term: &[u8]) -> &mut Postings {
        if !self.terms.contains_key(term) {
            self.terms.insert(term.to_vec(), Postings::new());
        }
        self.terms.get_mut(term).expect("a term that is there")
    }

    /// The first ten documents of those that have both terms, by falling weight.
    fn top(&self, first: &[u8], second: &[u8]) -> Vec<(u64, u64)> {
        let (Some(first), Some(second)) = (self.terms.get(first), self.terms.get(second)) else {
            return Vec::new();
        };
        let both = merged(first, second).filter_map(|(document, a, b)| Some((document, a?.saturating_add(b?))));
        let mut both: Vec<_> = both.collect();
        both.sort_by_key(|hit| Reverse(hit.1));
        both.truncate(10);
        both
    }

    /// The checksum of all terms with their documents and weights.
    fn checksum(&self) -> u64 {
        let mut checksum = Checksum::default();
        for (term, postings) in &self.terms {
            term.iter().for_each(|byte| checksum.add(u64::from(*byte)));
            checksum.add_entries(postings);
        }
        checksum.sum()
    }
}

/// The number of one of so many words, of which the early ones come far more often.
fn random_word(numbers: &mut Numbers, words: u64) -> u64 {
    let chance = numbers.item();
    let square = (chance * chance) >> 20;
    let cube = (square * chance) >> 20;
    (cube * words) >> 20
}

/// As many texts as are wanted, of as many words.
fn random_texts(numbers: &mut Numbers, count: u64) -> Vec<String> {
    let mut text = || (0..LENGTH).map(|_| format!("w{} ", random_word(numbers, count))).collect();
    (0..count).map(|_| text()).collect()
}

fn index_of(texts: &[String]) -> Index {
    let mut index = Index::default();
    for (number, text) in (1..).zip(texts) {
        index.add(number, text.as_bytes());
    }
    index
}

pub fn added(numbers: &mut Numbers, size: u64) {
    let texts = random_texts(numbers, size);
    let start = Instant::now();
    let index = index_of(&texts);
    told(start, || index.checksum());
}

pub fn top(numbers: &mut Numbers, size: u64) {
    let index = index_of(&random_texts(numbers, size));
    let terms: Vec<_> = (0..FREQUENT).map(|number| format!("w{number}").into_bytes()).collect();
    let start = Instant::now();
    let mut checksum = Checksum::default();
    for _ in 0..ASKED {
        let first = &terms[numbers.below(FREQUENT) as usize];
        let second = &terms[numbers.below(FREQUENT) as usize];
        for (document, weight) in index.top(first, second) {
            checksum.add(document);
            checksum.add(weight);
        }
    }
    report(checksum.sum(), start);
}
