//! Histories of records, lawful ones and others.
use crate::answers::{History, Records, Served};
use crate::dice::Dice;
use std::collections::{HashMap, VecDeque};

/// A history that is lawful for the records.
pub fn lawful_history<S: Served>(dice: &mut Dice, records: &Records<S>) -> History {
    let mut last = HashMap::new();
    let numbers = records.reads.iter().map(|read| {
        let seen = last.entry(read.caller).or_insert(0);
        let least = read.before.max(*seen);
        *seen = least + dice.up_to(read.most - least);
        *seen as u64
    });
    History { seen: numbers.collect(), order: lawful_order(dice, records) }
}

/// Callers take turns at random in each round, and each its batches in record order.
fn lawful_order<S: Served>(dice: &mut Dice, records: &Records<S>) -> Vec<u64> {
    let mut turns: Vec<_> = records.batches.iter().map(|batch| (batch.round, dice.any(), batch.caller)).collect();
    turns.sort_unstable();
    let mut waiting: HashMap<usize, VecDeque<u64>> = HashMap::new();
    for batch in &records.batches {
        waiting.entry(batch.caller).or_default().push_back(batch.record);
    }
    let next = |(_, _, caller)| waiting.get_mut(&caller).and_then(VecDeque::pop_front).expect("a turn for each batch");
    turns.into_iter().map(next).collect()
}

/// Changes a number, or the order, so that a point may fail.
pub fn spoil_history<S: Served>(dice: &mut Dice, records: &Records<S>, history: &mut History) {
    let change_numbers = history.order.is_empty() || dice.one_in(2);
    if change_numbers && !history.seen.is_empty() {
        let at = dice.place(&history.seen);
        let (read, seen) = (&records.reads[at], history.seen[at]);
        let (before, most) = (read.before as u64, read.most as u64);
        history.seen[at] =
            dice.pick(&[seen.saturating_sub(1), seen.saturating_add(1), before.saturating_sub(1), before, most, most + 1, u64::MAX]);
    } else if !history.order.is_empty() {
        spoil_order(dice, &mut history.order);
    }
}

fn spoil_order(dice: &mut Dice, order: &mut Vec<u64>) {
    let (at, to) = (dice.place(order), dice.place(order));
    let next = (at + 1) % order.len();
    match dice.below(6) {
        0 => drop(order.remove(at)),
        1 => order.insert(to, order[at]),
        2 => order[at] = order[to],
        3 => order[at] = dice.pick(&[0, 1, order[at].wrapping_add(1), u64::MAX]),
        4 => order.swap(at, to),
        _ => order.swap(at, next),
    }
}
