//! Inputs of `check`: a served input, the line `run`, and a text that is lawful or spoilt.
use super::histories::{lawful_history, spoil_history};
use super::{scripts, spoil, writing};
use crate::answers::{entries, tell, Entries};
use crate::dice::Dice;
use crate::reading::{fault, records, Tool};

pub fn input(dice: &mut Dice, is_bad: bool) -> Vec<u8> {
    let mut served = scripts::records(dice, Tool::Check);
    if is_bad {
        spoil::spoil(dice, &mut served);
    }
    let mut input = writing::written(dice, &served);
    let read = records(&input);
    let text = match fault(Tool::Check, &read) {
        Ok(()) => text(dice, &entries(&read)),
        Err(_) => b"final,0,0,0\n".to_vec(),
    };
    if !input.is_empty() && !input.ends_with(b"\n") {
        input.push(b'\n');
    }
    let line: &[u8] = match dice.below(40) {
        0 => b"",
        1 => b"run\r\n",
        2 => b"run\nrun\n",
        _ => b"run\n",
    };
    [input.as_slice(), line, &text].concat()
}

fn text(dice: &mut Dice, records: &Entries) -> Vec<u8> {
    let mut history = lawful_history(dice, records);
    if dice.one_in(3) {
        (0..dice.pick(&[1, 1, 2])).for_each(|_| spoil_history(dice, records, &mut history));
    }
    let text = tell(records, &history);
    match dice.one_in(5) {
        true => spoilt(dice, text),
        false => text,
    }
}

/// What may stand in the place of a number, or behind a line.
const FIELDS: [&[u8]; 10] = [b"0", b"1", b"2", b"01", b"", b"none", b"+1", b"18446744073709551615", b"18446744073709551616", b"1,"];
const TAILS: [&[u8]; 6] = [b"\r", b",", b" ", b"\0", b"\xff", b",1"];
const LINES: [&[u8]; 6] = [b"", b"x", b"j,1,2", b"r,2,0,none", b"final,0,0,0", b"run"];

/// A text with one or two changes, which may have no effect.
fn spoilt(dice: &mut Dice, mut text: Vec<u8>) -> Vec<u8> {
    for _ in 0..dice.pick(&[1, 1, 2]) {
        let mut lines: Vec<Vec<u8>> = text.split(|byte| *byte == b'\n').map(Into::into).collect();
        let (at, to) = (dice.place(&lines), dice.place(&lines));
        match dice.below(10) {
            0 => lines.swap(at, to),
            1 => drop(lines.remove(at)),
            2 => lines.insert(to, lines[at].clone()),
            3 => lines[at].extend(dice.pick(&TAILS)),
            4 => lines.insert(at, dice.pick(&LINES).into()),
            5 => return text[..dice.up_to(text.len())].to_vec(),
            6 => lines[at].clear(),
            _ => lines[at] = with_other_field(dice, &lines[at]),
        }
        text = lines.join(&b'\n');
    }
    text
}

fn with_other_field(dice: &mut Dice, line: &[u8]) -> Vec<u8> {
    let mut fields: Vec<&[u8]> = line.split(|byte| *byte == b',').collect();
    let at = dice.place(&fields);
    fields[at] = dice.pick(&FIELDS);
    fields.join(&b',')
}
