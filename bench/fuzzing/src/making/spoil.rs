//! Bad records.
use super::scripts;
use crate::dice::Dice;
use crate::reading::{Record, Tool};

/// Fields that are lawful nowhere, or where other things stand.
const FIELDS: [&str; 44] = [
    "", "01", "00", "+1", "-1", "-0", " 1", "1 ", "0x1", "1e3", "1.0", "1_0", "x", "18446744073709551616", "99999999999999999999",
    "340282366920938463463374607431768211456", "\u{661}", "1\0", "1\"", "16", "15", "015", "256", "4294967296", "0", "64", "65",
    "18446744073709551615", "first", "Sum", "second ", "max", "min", "a-b", "a b", "\u{e9}", "Put", "put", "wipe", "get", "degree", "bfs",
    "cut", "size",
];
const VERBS: [&str; 16] =
    ["", "put", "PUT", "put ", " put", "pu", "put\0", "frob", "serve", "round", "b", "r", "add", "size", "run", "\u{feff}put"];

/// The tools whose scripts are not part of others'.
const READING: [Tool; 8] = [Tool::Map, Tool::Seq, Tool::Interval, Tool::Points, Tool::Index, Tool::Graph, Tool::Serve, Tool::Gserve];

/// Makes one or two records bad, or perhaps otherwise lawful.
pub fn spoil(dice: &mut Dice, records: &mut Vec<Record>) {
    for _ in 0..dice.pick(&[1, 1, 1, 2]) {
        if records.is_empty() || dice.one_in(12) {
            let at = dice.up_to(records.len());
            records.insert(at, other(dice));
        } else {
            let at = if dice.one_in(8) { 0 } else { dice.place(records) };
            spoil_record(dice, &mut records[at]);
        }
    }
}

/// A record of any tool, or of none.
fn other(dice: &mut Dice) -> Record {
    let tool = dice.pick(&READING);
    match scripts::records(dice, tool).pop() {
        Some(record) => record,
        None => vec![dice.pick(&VERBS).into()],
    }
}

fn spoil_record(dice: &mut Dice, record: &mut Record) {
    let (at, last) = (dice.place(record), record.len() - 1);
    match dice.below(12) {
        0 => record[0] = dice.pick(&VERBS).into(),
        1 => drop(record.pop()),
        2 => drop(record.remove(at)),
        3 => record.push(dice.pick(&FIELDS).into()),
        4 => record.truncate(at + 1),
        5 => record.insert(at, dice.pick(&FIELDS).into()),
        6 | 7 => record[1..].reverse(),
        8 => record[at] = long(dice),
        9 | 10 => record[last] = dice.pick(&FIELDS).into(),
        _ => record[at] = dice.pick(&FIELDS).into(),
    }
    if record.is_empty() {
        record.push(Vec::new());
    }
}

/// A field of up to 60 KB.
fn long(dice: &mut Dice) -> Vec<u8> {
    let length = dice.pick(&[20, 21, 300, 60_000]);
    vec![dice.pick(b"019a\""); length]
}
