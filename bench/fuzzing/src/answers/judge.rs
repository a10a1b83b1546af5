//! Whether a text is that of a lawful history.
use super::history::{tell, History};
use super::served::{Batch, Records, Served};
use std::collections::HashMap;

/// Whether no caller's number is less than the one before it of the same caller.
fn never_falls(mut numbers: impl Iterator<Item = (usize, u64)>) -> bool {
    let mut last = HashMap::new();
    numbers.all(|(caller, number)| last.insert(caller, number).map_or(true, |before| before <= number))
}

/// The least point that a text fails, or none.
pub fn verdict<S: Served>(records: &Records<S>, text: &[u8]) -> Option<u8> {
    let Some(history) = History::named(records, text) else {
        return Some(0);
    };
    let mut sorted = history.order.clone();
    sorted.sort_unstable();
    if !sorted.iter().copied().eq(records.batches.iter().map(|batch| batch.record)) {
        return Some(1);
    }
    let order: Vec<&Batch<S::Op>> = history.order.iter().filter_map(|record| records.batch(*record)).collect();
    let seen = || records.reads.iter().zip(history.seen.iter().copied());
    let holds = [
        never_falls(order.iter().map(|batch| (batch.caller, batch.record))),
        order.windows(2).all(|two| two[0].round <= two[1].round),
        seen().all(|(read, seen)| (read.before as u64..=read.most as u64).contains(&seen)),
        never_falls(seen().map(|(read, seen)| (read.caller, seen))),
    ];
    let failed = (2..).zip(holds).find(|(_, holds)| !holds).map(|(point, _)| point);
    failed.or_else(|| (tell(records, &history) != text).then_some(6))
}

/// Whether two texts of one input agree: reads of versions that have the same batches have the same answers, and so has the last line.
pub fn agree<S: Served>(records: &Records<S>, one: &[u8], other: &[u8]) -> bool {
    let (Some(a), Some(b)) = (History::named(records, one), History::named(records, other)) else {
        return true;
    };
    let shared = a.order.iter().zip(&b.order).take_while(|(a, b)| a == b).count() as u64;
    let (ones, others) = (one.split(|byte| *byte == b'\n'), other.split(|byte| *byte == b'\n'));
    let mut reads = ones.zip(others).zip(a.seen.iter().zip(&b.seen));
    let is_same = reads.all(|((one, other), (m, n))| one == other || m != n || *m > shared);
    is_same && (a.order != b.order || last_line(one) == last_line(other))
}

fn last_line(text: &[u8]) -> Option<&[u8]> {
    text.split_inclusive(|byte| *byte == b'\n').next_back()
}
