//! Lines as fields and numbers, without quotes.
use std::slice;

/// What is left of a line's fields.
pub struct Fields<'a> {
    rest: slice::Split<'a, u8, fn(&u8) -> bool>,
}

impl<'a> Fields<'a> {
    pub fn of(line: &'a [u8]) -> Self {
        let rest = line.split((|byte| *byte == b',') as fn(&u8) -> bool);
        Fields { rest }
    }

    /// The number that the next field spells.
    pub fn next_number(&mut self) -> u64 {
        number(self.next().expect("a number"))
    }
}

impl<'a> Iterator for Fields<'a> {
    type Item = &'a [u8];

    fn next(&mut self) -> Option<&'a [u8]> {
        self.rest.next()
    }
}

/// The lines that are not empty.
pub fn lines(input: &[u8]) -> impl Iterator<Item = &[u8]> {
    input.split(|byte| *byte == b'\n').filter(|line| !line.is_empty())
}

/// These lines, each as its fields.
pub fn records(input: &[u8]) -> impl Iterator<Item = Vec<&[u8]>> {
    lines(input).map(|line| Fields::of(line).collect())
}

/// The number that the digits of a field spell.
pub fn number(field: &[u8]) -> u64 {
    field.iter().fold(0, |value, digit| value * 10 + u64::from(digit - b'0'))
}

/// The pairs of numbers that some fields spell.
pub fn pairs(fields: &[&[u8]]) -> Vec<(u64, u64)> {
    fields.chunks_exact(2).map(|pair| (number(pair[0]), number(pair[1]))).collect()
}
