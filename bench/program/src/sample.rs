//! The commands of the tool sample.
use crate::script::{Change, Command, How, Question, Register};
use bench_common::Numbers;

pub fn commands(size: u64, seed: u64) -> Vec<Command> {
    let mut numbers = Numbers::new(seed);
    let mut pairs = || numbers.pairs(size, 2 * size).into();
    let [a, b, union, inter, diff] = [0, 1, 2, 3, 4].map(Register);
    vec![
        Command::Change(a, Change::Build(pairs())),
        Command::Change(b, Change::Build(pairs())),
        Command::Change(union, Change::Union(a, b, How::Sum)),
        Command::Change(inter, Change::Inter(a, b, How::Greater)),
        Command::Change(diff, Change::Diff(a, b)),
        Command::Ask(union, Question::Fold),
        Command::Ask(inter, Question::Fold),
        Command::Ask(diff, Question::Fold),
    ]
}
