//! What a program is given.
use std::io::{self, Read};
use std::{env, str};

/// The words behind the program's name.
pub fn words() -> Vec<String> {
    env::args().skip(1).collect()
}

/// What a word says.
pub fn parsed<T: str::FromStr>(word: &str) -> T {
    word.parse().unwrap_or_else(|_| panic!("{word} is no lawful word here"))
}

/// Standard input whole.
pub fn input() -> Vec<u8> {
    let mut bytes = Vec::new();
    io::stdin().lock().read_to_end(&mut bytes).expect("an input");
    bytes
}
