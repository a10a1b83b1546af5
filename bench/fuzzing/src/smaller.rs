//! Inputs made smaller.
use crate::answers::plain_script;
use crate::reading::records;
use std::time::{Duration, Instant};

/// How many inputs are tried at most, and for how long.
const TRIES: usize = 4000;
const TIME: Duration = Duration::from_secs(60);

/// An input of more bytes is not taken apart.
const MOST: usize = 1 << 22;

/// An input that is made smaller while a test holds of it.
struct Shrinking<F> {
    input: Vec<u8>,
    holds: F,
    tries: usize,
    start: Instant,
}

impl<F: FnMut(&[u8]) -> bool> Shrinking<F> {
    /// Takes this input instead if the test holds of it.
    fn takes(&mut self, input: Vec<u8>) -> bool {
        if self.tries == TRIES || self.start.elapsed() > TIME {
            return false;
        }
        self.tries += 1;
        let holds = (self.holds)(&input);
        if holds {
            self.input = input;
        }
        holds
    }

    /// Removes parts, first many at a time and at last one.
    fn remove(&mut self, parts_of: impl Fn(&[u8]) -> Vec<&[u8]>) {
        let whole = self.input.clone();
        let mut parts = parts_of(&whole);
        let mut size = parts.len();
        while size > 0 {
            let mut at = 0;
            while at < parts.len() {
                let end = parts.len().min(at + size);
                if self.takes([parts[..at].concat(), parts[end..].concat()].concat()) {
                    parts.drain(at..end);
                } else {
                    at = end;
                }
            }
            size /= 2;
        }
    }
}

/// The lines of an input, with their ends.
fn lines(input: &[u8]) -> Vec<&[u8]> {
    input.split_inclusive(|byte| *byte == b'\n' || *byte == b'\r').collect()
}

/// Its fields, each with the comma or the line end behind it.
fn fields(input: &[u8]) -> Vec<&[u8]> {
    input.split_inclusive(|byte| b",\n\r".contains(byte)).collect()
}

fn bytes(input: &[u8]) -> Vec<&[u8]> {
    input.chunks(1).collect()
}

/// A smaller input of which the test holds as it does of this one: without quotes, without lines, without fields, and without bytes.
pub fn smaller(input: Vec<u8>, holds: impl FnMut(&[u8]) -> bool) -> Vec<u8> {
    let mut shrinking = Shrinking { input, holds, tries: 0, start: Instant::now() };
    loop {
        let before = shrinking.input.len();
        let plain = plain_script(&records(&shrinking.input));
        if plain.len() < before {
            shrinking.takes(plain);
        }
        if shrinking.input.len() > MOST {
            return shrinking.input;
        }
        shrinking.remove(lines);
        shrinking.remove(fields);
        shrinking.remove(bytes);
        if shrinking.input.len() == before {
            return shrinking.input;
        }
    }
}
