//! Rounds of callers that share one thing.
use crate::fields::{lines, Fields};
use crate::replies::line;
use std::collections::VecDeque;
use std::io::Write;
use std::thread;

/// What a caller does.
pub enum Act<Op, Query> {
    Submit(Vec<Op>),
    Read(Query),
}

/// A record: its number from 1 on, its caller, and what the caller does.
pub struct Record<Op, Query> {
    pub place: u64,
    pub caller: usize,
    pub act: Act<Op, Query>,
}

/// How many callers there are, and their records by rounds.
pub struct Input<Op, Query> {
    pub callers: usize,
    pub rounds: Vec<Vec<Record<Op, Query>>>,
}

impl<Op, Query> Input<Op, Query> {
    /// Reads lawful records, by what reads an operation and a query off a word and the fields behind it.
    pub fn read(
        bytes: &[u8],
        op: impl Fn(&[u8], &mut Fields) -> Op,
        query: impl Fn(&[u8], &mut Fields) -> Query,
    ) -> Self {
        let mut input = Input { callers: 1, rounds: vec![Vec::new()] };
        for (place, mut fields) in (1..).zip(lines(bytes).map(Fields::of)) {
            match fields.next() {
                Some(b"serve") => input.callers = fields.next_number() as usize,
                Some(b"round") => input.rounds.push(Vec::new()),
                Some(kind) => {
                    let caller = fields.next_number() as usize;
                    let act = match kind {
                        b"b" => Act::Submit(ops(fields, &op)),
                        _ => Act::Read(query(fields.next().expect("a query"), &mut fields)),
                    };
                    input.rounds.last_mut().expect("a round").push(Record { place, caller, act });
                }
                None => panic!("no record"),
            }
        }
        input
    }
}

fn ops<Op>(mut fields: Fields, op: impl Fn(&[u8], &mut Fields) -> Op) -> Vec<Op> {
    let mut ops = Vec::new();
    while let Some(word) = fields.next() {
        ops.push(op(word, &mut fields));
    }
    ops
}

/// What callers share, behind its lock.
pub trait Shared<Op, Query>: Sync {
    /// Applies the operations of a batch, and keeps its record's number.
    fn submit(&self, place: u64, ops: &[Op]);

    /// The line of a read, by its record's number.
    fn reply(&self, place: u64, query: &Query) -> Vec<u8>;
}

/// What the line of a read begins with: its record's number, and how many batches there are so far.
pub fn begun(place: u64, number: usize) -> Vec<u8> {
    let mut out = Vec::new();
    write!(out, "r,{place},{number},").expect("memory");
    out
}

type Lines = VecDeque<Vec<u8>>;

/// A caller's own records, and the lines of its reads.
pub fn run_caller<Op, Query, S: Shared<Op, Query>>(
    shared: &S,
    records: &[Record<Op, Query>],
    caller: usize,
) -> Lines {
    let mut lines = Lines::new();
    for record in records.iter().filter(|record| record.caller == caller) {
        match &record.act {
            Act::Submit(ops) => shared.submit(record.place, ops),
            Act::Read(query) => lines.push_back(shared.reply(record.place, query)),
        }
    }
    lines
}

/// The callers that have records, side by side, and the lines of each caller.
fn run_callers<Op: Sync, Query: Sync, S: Shared<Op, Query>>(
    shared: &S,
    records: &[Record<Op, Query>],
    callers: usize,
) -> Vec<Lines> {
    let mut busy = vec![false; callers];
    records.iter().for_each(|record| busy[record.caller] = true);
    thread::scope(|scope| {
        let start = |caller| scope.spawn(move || run_caller(shared, records, caller));
        let threads: Vec<_> = busy.iter().enumerate().map(|(caller, is_busy)| is_busy.then(|| start(caller))).collect();
        let lines = threads.into_iter().map(|thread| thread.map(|thread| thread.join().expect("a caller ends")));
        lines.map(Option::unwrap_or_default).collect()
    })
}

/// The lines of the reads, in record order.
fn weave<Op, Query>(records: &[Record<Op, Query>], lines: &mut [Lines], text: &mut Vec<u8>) {
    for record in records {
        if let Act::Read(_) = record.act {
            text.extend(lines[record.caller].pop_front().expect("a line for each read"));
        }
    }
}

/// The callers of a round side by side, and the lines of its reads behind the text.
pub fn run_round<Op: Sync, Query: Sync, S: Shared<Op, Query>>(
    shared: &S,
    records: &[Record<Op, Query>],
    callers: usize,
    text: &mut Vec<u8>,
) {
    weave(records, &mut run_callers(shared, records, callers), text);
}

/// Writes the records' numbers of the batches in their order.
pub fn order_lines(text: &mut Vec<u8>, order: &[u64]) {
    for (at, place) in (1..).zip(order) {
        line(text, "j", [at, *place]);
    }
}
