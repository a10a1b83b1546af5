//! The records of serve, lawful and without quotes.
use std::slice;

pub enum Op {
    Put(u64, u64),
    Del(u64),
    Add(u64, u64),
    Wipe(u64, u64),
}

pub enum Query {
    Get(u64),
    Sum(u64, u64),
    Rank(u64),
    Size,
}

/// What a caller does.
pub enum Act {
    Submit(Vec<Op>),
    Read(Query),
}

/// A record: its number, its caller, its round, and what the caller does.
pub struct Record {
    pub place: u64,
    pub caller: usize,
    pub round: u64,
    pub act: Act,
}

/// What is left of a line's fields.
struct Fields<'a> {
    rest: slice::Split<'a, u8, fn(&u8) -> bool>,
}

impl<'a> Fields<'a> {
    fn of(line: &'a [u8]) -> Self {
        let rest = line.split((|byte| *byte == b',') as fn(&u8) -> bool);
        Fields { rest }
    }

    fn next_number(&mut self) -> u64 {
        let field = self.rest.next().expect("a number");
        field.iter().fold(0, |value, digit| value * 10 + u64::from(digit - b'0'))
    }

    fn op(&mut self, word: &[u8]) -> Op {
        match word {
            b"put" => Op::Put(self.next_number(), self.next_number()),
            b"del" => Op::Del(self.next_number()),
            b"add" => Op::Add(self.next_number(), self.next_number()),
            b"wipe" => Op::Wipe(self.next_number(), self.next_number()),
            _ => panic!("no operation"),
        }
    }

    fn ops(&mut self) -> Vec<Op> {
        let mut ops = Vec::new();
        while let Some(word) = self.rest.next() {
            ops.push(self.op(word));
        }
        ops
    }

    fn query(&mut self) -> Query {
        match self.rest.next() {
            Some(b"get") => Query::Get(self.next_number()),
            Some(b"sum") => Query::Sum(self.next_number(), self.next_number()),
            Some(b"rank") => Query::Rank(self.next_number()),
            Some(b"size") => Query::Size,
            _ => panic!("no query"),
        }
    }
}

/// How many callers there are, and the records of their batches and reads, with rounds from 0 on.
pub fn read(input: &[u8]) -> (usize, Vec<Record>) {
    let (mut callers, mut round, mut records) = (1, 0, Vec::new());
    let lines = input.split(|byte| *byte == b'\n').filter(|line| !line.is_empty());
    for (place, line) in (1..).zip(lines) {
        let mut fields = Fields::of(line);
        match fields.rest.next() {
            Some(b"serve") => callers = fields.next_number() as usize,
            Some(b"b") => {
                let caller = fields.next_number() as usize;
                records.push(Record { place, caller, round, act: Act::Submit(fields.ops()) });
            }
            Some(b"r") => {
                let caller = fields.next_number() as usize;
                records.push(Record { place, caller, round, act: Act::Read(fields.query()) });
            }
            Some(b"round") => round += 1,
            _ => panic!("no record"),
        }
    }
    (callers, records)
}
