//! Lawful scripts of the tools that serve callers.
use super::scene::Scene;
use crate::dice::Dice;
use crate::reading::{Record, Words};

pub fn records(dice: &mut Dice, scene: &mut Scene, words: &Words) -> Vec<Record> {
    let most = dice.pick(&[1, 2, 3, 8, 64]);
    let callers = 1 + dice.below(most);
    let rounds = dice.pick(&[3, 10, 1000]);
    let count = scene.records(dice);
    let first = vec![b"serve".to_vec(), callers.to_string().into_bytes()];
    let later = |_| match dice.one_in(rounds) {
        true => vec![b"round".to_vec()],
        false => act(dice, scene, words, callers),
    };
    let records: Vec<Record> = (0..count).map(later).collect();
    match records.is_empty() {
        true => records,
        false => std::iter::once(first).chain(records).collect(),
    }
}

/// A batch or a read.
fn act(dice: &mut Dice, scene: &mut Scene, words: &Words, callers: u64) -> Record {
    let caller = dice.below(callers).to_string().into_bytes();
    let is_batch = dice.one_in(2);
    let (verb, known, times) = match is_batch {
        true => ("b", words.operations, scene.times(dice)),
        false => ("r", words.queries, 1),
    };
    let mut record = vec![verb.into(), caller];
    for _ in 0..times {
        let word = &known[dice.place(known)];
        record.push(word.name.into());
        record.extend(scene.fields(dice, word.numbers, false));
    }
    record
}
