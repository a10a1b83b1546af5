//! The tool index over a `BTreeMap` of terms to `BTreeMap`s of documents to weights.
use bench_common::{line, list, number, records};
use std::collections::{BTreeMap, BTreeSet};

type Postings = BTreeMap<u64, u64>;

#[derive(Default)]
struct Index {
    documents: BTreeSet<u64>,
    terms: BTreeMap<String, Postings>,
}

fn small(field: &[u8]) -> String {
    String::from_utf8_lossy(field).to_ascii_lowercase()
}

impl Index {
    /// How many different terms a new document has; none where it is known.
    fn add(&mut self, document: u64, text: &[u8]) -> Option<u64> {
        if !self.documents.insert(document) {
            return None;
        }
        let runs = text.split(|byte| !byte.is_ascii_alphanumeric()).filter(|run| !run.is_empty());
        let mut weights = BTreeMap::new();
        for run in runs {
            *weights.entry(small(run)).or_insert(0u64) += 1;
        }
        let count = weights.len() as u64;
        for (term, weight) in weights {
            self.terms.entry(term).or_default().insert(document, weight);
        }
        Some(count)
    }

    fn postings(&self, term: &[u8]) -> Postings {
        self.terms.get(&small(term)).cloned().unwrap_or_default()
    }

    fn all_of(&self, terms: &[&[u8]]) -> Postings {
        let mut all = self.postings(terms[0]);
        for term in &terms[1..] {
            let other = self.terms.get(&small(term));
            all.retain(|document, weight| match other.and_then(|postings| postings.get(document)) {
                Some(more) => {
                    *weight = weight.saturating_add(*more);
                    true
                }
                None => false,
            });
        }
        all
    }

    fn any_of(&self, terms: &[&[u8]]) -> Postings {
        let mut any = self.postings(terms[0]);
        for term in &terms[1..] {
            for (document, more) in self.terms.get(&small(term)).into_iter().flatten() {
                let weight = any.entry(*document).or_insert(0);
                *weight = weight.saturating_add(*more);
            }
        }
        any
    }

    fn without(&self, has: &[u8], not: &[u8]) -> Postings {
        let mut rest = self.postings(has);
        if let Some(other) = self.terms.get(&small(not)) {
            rest.retain(|document, _| !other.contains_key(document));
        }
        rest
    }

    fn top(&self, count: u64, term: &[u8]) -> Vec<(u64, u64)> {
        let mut best: Vec<_> = self.postings(term).into_iter().collect();
        best.sort_by_key(|hit| std::cmp::Reverse(hit.1));
        best.truncate(usize::try_from(count).unwrap_or(usize::MAX));
        best
    }
}

fn documents(out: &mut Vec<u8>, hits: impl ExactSizeIterator<Item = (u64, u64)>) {
    list(out, "docs", hits.map(<[u64; 2]>::from));
}

/// The replies to a script.
pub fn run(input: &[u8]) -> Vec<u8> {
    let mut index = Index::default();
    let mut out = Vec::new();
    for record in records(input) {
        match record[0] {
            b"doc" => match index.add(number(record[1]), record[2]) {
                Some(count) => line(&mut out, "ok", [count]),
                None => line(&mut out, "known", []),
            },
            b"and" => documents(&mut out, index.all_of(&record[1..]).into_iter()),
            b"or" => documents(&mut out, index.any_of(&record[1..]).into_iter()),
            b"without" => documents(&mut out, index.without(record[1], record[2]).into_iter()),
            b"top" => documents(&mut out, index.top(number(record[1]), record[2]).into_iter()),
            _ => {}
        }
    }
    out
}
