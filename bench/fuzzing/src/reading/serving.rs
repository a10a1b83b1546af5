//! The operations and queries of the tools that serve callers, and the checks of their records.
use super::faults::{kind_fault, Code};
use super::shapes::Kind::{self, High, Key, Low, Value};
use super::{number, Record};

/// A word with the numbers that stand behind it.
pub struct Word {
    pub name: &'static str,
    pub numbers: &'static [Kind],
}

/// The operations of a tool, and its queries.
pub struct Words {
    pub operations: &'static [Word],
    pub queries: &'static [Word],
}

const fn word(name: &'static str, numbers: &'static [Kind]) -> Word {
    Word { name, numbers }
}

pub const SERVE: Words = Words {
    operations: &[word("put", &[Key, Value]), word("del", &[Key]), word("add", &[Key, Value]), word("wipe", &[Low, High])],
    queries: &[word("get", &[Key]), word("sum", &[Low, High]), word("rank", &[Key]), word("size", &[])],
};

pub const GSERVE: Words = Words {
    operations: &[word("add", &[Key, Key]), word("cut", &[Key, Key])],
    queries: &[word("degree", &[Key]), word("bfs", &[Key]), word("size", &[])],
};

const MOST_CALLERS: u64 = 64;

fn named(words: &'static [Word], field: &[u8]) -> Result<&'static Word, Code> {
    words.iter().find(|word| word.name.as_bytes() == field).ok_or(Code::Op)
}

fn numbers(fields: &[Vec<u8>]) -> Result<(), Code> {
    fields.iter().try_for_each(|field| kind_fault(Key, field))
}

fn operations(words: &Words, mut fields: &[Vec<u8>]) -> Result<(), Code> {
    while let Some((name, rest)) = fields.split_first() {
        let count = named(words.operations, name)?.numbers.len();
        if rest.len() < count {
            return Err(Code::Fields);
        }
        numbers(&rest[..count])?;
        fields = &rest[count..];
    }
    Ok(())
}

fn query(words: &Words, name: &[u8], rest: &[Vec<u8>]) -> Result<(), Code> {
    let count = named(words.queries, name)?.numbers.len();
    if rest.len() != count {
        return Err(Code::Fields);
    }
    numbers(rest)
}

/// The number of callers that the first record says.
fn callers(record: &Record) -> Result<u64, Code> {
    match &record[..] {
        [verb, ..] if verb != b"serve" => Err(Code::Verb),
        [_, count] => number(count).filter(|count| (1..=MOST_CALLERS).contains(count)).ok_or(Code::Callers),
        _ => Err(Code::Fields),
    }
}

fn later(words: &Words, callers: u64, record: &Record) -> Result<(), Code> {
    let (verb, rest) = record.split_first().expect("a record has a field");
    match &verb[..] {
        b"round" if rest.is_empty() => return Ok(()),
        b"b" | b"r" if rest.len() >= 2 => {}
        b"round" | b"b" | b"r" => return Err(Code::Fields),
        _ => return Err(Code::Verb),
    }
    number(&rest[0]).filter(|caller| *caller < callers).ok_or(Code::Caller)?;
    match &verb[..] {
        b"b" => operations(words, &rest[1..]),
        _ => query(words, &rest[1], &rest[2..]),
    }
}

/// The first bad record of a served input, by its place from 0.
pub fn served_fault(words: &Words, records: &[Record]) -> Result<(), (usize, Code)> {
    let Some((first, rest)) = records.split_first() else {
        return Ok(());
    };
    let callers = callers(first).map_err(|code| (0, code))?;
    (1..).zip(rest).try_for_each(|(at, record)| later(words, callers, record).map_err(|code| (at, code)))
}
