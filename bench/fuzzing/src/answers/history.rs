//! Histories and their texts.
use super::served::{Records, Served};
use crate::reading::number;
use bench_common::{begun, order_lines};

/// A history: how many batches each read's version has, and the records' numbers of the batches in order.
#[derive(Clone, Debug, PartialEq, Eq)]
pub struct History {
    pub seen: Vec<u64>,
    pub order: Vec<u64>,
}

/// What a line tells behind its word: a number that is known, and one to be read, which this answers with what stands behind it.
fn told<'a>(line: &'a [u8], word: &str, known: u64) -> Option<&'a [u8]> {
    line.strip_prefix(format!("{word},{known},").as_bytes())
}

impl History {
    /// The history that a text names, if the text has the form of an answer to these records.
    pub fn named<S: Served>(records: &Records<S>, text: &[u8]) -> Option<History> {
        let lines: Vec<&[u8]> = text.strip_suffix(b"\n")?.split(|byte| *byte == b'\n').collect();
        let (last, lines) = lines.split_last()?;
        if !last.starts_with(b"final,") || lines.len() < records.reads.len() {
            return None;
        }
        let (replies, places) = lines.split_at(records.reads.len());
        let seen = |(line, read): (&&[u8], _)| {
            let rest = told(line, "r", read)?;
            let comma = rest.iter().position(|byte| *byte == b',')?;
            number(&rest[..comma])
        };
        let placed = |(line, place): (&&[u8], u64)| number(told(line, "j", place)?);
        Some(History {
            seen: replies.iter().zip(records.reads.iter().map(|read| read.record)).map(seen).collect::<Option<_>>()?,
            order: places.iter().zip(1..).map(placed).collect::<Option<_>>()?,
        })
    }
}

/// The text of a history. Batches that are not in the records do nothing, so that unlawful histories have texts too.
pub fn tell<S: Served>(records: &Records<S>, history: &History) -> Vec<u8> {
    let mut turns: Vec<usize> = (0..history.seen.len()).collect();
    turns.sort_by_key(|at| history.seen[*at]);
    let mut replies = vec![Vec::new(); history.seen.len()];
    let (mut state, mut ahead) = (S::default(), history.order.as_slice());
    let change = |state: &mut S, orders: &[u64]| {
        let batches = orders.iter().filter_map(|record| records.batch(*record));
        batches.flat_map(|batch| &batch.ops).for_each(|op| state.change(op));
    };
    for at in turns {
        let seen = usize::try_from(history.seen[at]).unwrap_or(usize::MAX);
        let done = history.order.len() - ahead.len();
        let (next, rest) = ahead.split_at(seen.saturating_sub(done).min(ahead.len()));
        change(&mut state, next);
        ahead = rest;
        replies[at] = begun(records.reads[at].record, seen);
        state.answer(&records.reads[at].query, &mut replies[at]);
    }
    change(&mut state, ahead);
    let mut text = replies.concat();
    order_lines(&mut text, &history.order);
    state.last_line(&mut text);
    text
}
