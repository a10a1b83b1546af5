//! Hostile bytes.
use crate::answers::LIMIT;
use crate::dice::Dice;
use crate::reading::{shapes, Tool, GSERVE, SERVE};

/// What is put among the bytes.
const BITS: [&[u8]; 24] = [
    b"\"", b"\"", b"\"\"", b"\"\"\"", b",", b",", b"\n", b"\r", b"\r\n", b"\n\r", b"\0", b"\xff", b"\xc3", b"\xef\xbb\xbf", b" ", b"\t",
    b"0", b"1", b"9", b"-", b"\"\n", b"\",", b",\"", b"run\n",
];

/// Sizes of the pieces that readers may take at a time.
const PIECES: [usize; 5] = [1024, 4096, 8192, 16384, 65536];

pub fn harmed(dice: &mut Dice, tool: Tool, input: Vec<u8>) -> Vec<u8> {
    match dice.below(20) {
        0..=3 => cut(dice, input),
        4 => (0..dice.up_to(300)).map(|_| dice.any() as u8).collect(),
        5 | 6 => mixture(dice, tool),
        7 => [filling(dice), input].concat(),
        8 => {
            let harmed = changed(dice, input);
            [filling(dice), harmed].concat()
        }
        _ => changed(dice, input),
    }
}

/// The bytes up to any one.
fn cut(dice: &mut Dice, mut input: Vec<u8>) -> Vec<u8> {
    input.truncate(dice.up_to(input.len()));
    input
}

/// Blank lines up to some bytes before the end of a piece or behind it; seldom about as many bytes as an input may have.
fn filling(dice: &mut Dice) -> Vec<u8> {
    let piece = if dice.one_in(400) { LIMIT } else { dice.pick(&PIECES) };
    let end: &[u8] = dice.pick(&[b"\n", b"\r", b"\r\n"]);
    end.iter().copied().cycle().take(piece + dice.up_to(3) - dice.up_to(40)).collect()
}

/// Words and bits of a tool in any order.
fn mixture(dice: &mut Dice, tool: Tool) -> Vec<u8> {
    let served = [&SERVE, &GSERVE].into_iter().flat_map(|words| words.operations.iter().chain(words.queries));
    let mut bits: Vec<&[u8]> = match tool {
        Tool::Serve | Tool::Gserve | Tool::Check => served.map(|word| word.name.as_bytes()).collect(),
        _ => shapes(tool).iter().map(|shape| shape.verb.as_bytes()).collect(),
    };
    if shapes(tool).is_empty() {
        bits.extend([&b"serve,2\n"[..], b"serve", b"b,0,", b"b,1,", b"r,0,", b"r,1,", b"round"]);
    }
    bits.extend([&b","[..], b",", b",", b"0", b"1", b"2", b"\n", b"\n", b"first"]);
    bits.extend(BITS);
    (0..dice.up_to(60)).flat_map(|_| dice.pick(&bits)).copied().collect()
}

/// Some bytes more, fewer, twice or others.
fn changed(dice: &mut Dice, mut input: Vec<u8>) -> Vec<u8> {
    for _ in 0..1 + dice.up_to(4) {
        let at = dice.up_to(input.len());
        let end = input.len().min(at + 1 + dice.up_to(30));
        let bit = match dice.below(40) {
            0 => vec![dice.pick(b"9A\",\n"); 60_000 + dice.up_to(6000)],
            1..=3 => (0..dice.up_to(20)).map(|_| dice.any() as u8).collect(),
            _ => dice.pick(&BITS).to_vec(),
        };
        match dice.below(8) {
            0 => drop(input.drain(at..end)),
            1 => drop(input.splice(end..end, input[at..end].to_vec())),
            2 | 3 => drop(input.splice(at..end.min(at + bit.len()), bit)),
            _ => drop(input.splice(at..at, bit)),
        }
    }
    input
}
