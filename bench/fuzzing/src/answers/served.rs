//! What callers change by batches and read: a map, or a graph.
use super::plain::plain_script;
use crate::reading::Record;
use bench_common as map;
use bench_common::Input;
use program_baseline::graph::Graph;
use program_baseline::gserve;
use std::collections::BTreeMap;

/// A state with its operations and queries.
pub trait Served: Default {
    type Op;
    type Query;

    fn change(&mut self, op: &Self::Op);

    /// Writes the answer to a query, as a line.
    fn answer(&self, query: &Self::Query, out: &mut Vec<u8>);

    /// Writes the last line of a text.
    fn last_line(&self, out: &mut Vec<u8>);
}

impl Served for BTreeMap<u64, u64> {
    type Op = map::Op;
    type Query = map::Query;

    fn change(&mut self, op: &map::Op) {
        map::apply(self, op);
    }

    fn answer(&self, query: &map::Query, out: &mut Vec<u8>) {
        map::answer(out, self, query);
    }

    fn last_line(&self, out: &mut Vec<u8>) {
        map::last_line(out, self);
    }
}

impl Served for Graph {
    type Op = gserve::Op;
    type Query = gserve::Query;

    fn change(&mut self, op: &gserve::Op) {
        gserve::apply(self, op);
    }

    fn answer(&self, query: &gserve::Query, out: &mut Vec<u8>) {
        gserve::answer(out, gserve::find(self, query));
    }

    fn last_line(&self, out: &mut Vec<u8>) {
        gserve::last_line(out, self);
    }
}

/// A batch by its record's number, with its caller and its round.
pub struct Batch<Op> {
    pub record: u64,
    pub caller: usize,
    pub round: usize,
    pub ops: Vec<Op>,
}

/// A read likewise, with how many batches there are in the rounds before its own, and in these and its own.
pub struct Read<Query> {
    pub record: u64,
    pub caller: usize,
    pub before: usize,
    pub most: usize,
    pub query: Query,
}

/// The batches and the reads of an input, in record order.
pub struct Records<S: Served> {
    pub batches: Vec<Batch<S::Op>>,
    pub reads: Vec<Read<S::Query>>,
}

pub type Entries = Records<BTreeMap<u64, u64>>;
pub type Edges = Records<Graph>;

fn of_input<S: Served>(input: Input<S::Op, S::Query>) -> Records<S> {
    let (mut batches, mut reads) = (Vec::new(), Vec::<Read<S::Query>>::new());
    for (round, records) in input.rounds.into_iter().enumerate() {
        let (before, first) = (batches.len(), reads.len());
        for map::Record { place: record, caller, act } in records {
            match act {
                map::Act::Submit(ops) => batches.push(Batch { record, caller, round, ops }),
                map::Act::Read(query) => reads.push(Read { record, caller, before, most: before, query }),
            }
        }
        reads[first..].iter_mut().for_each(|read| read.most = batches.len());
    }
    Records { batches, reads }
}

/// The batches and reads of lawful records of `serve`.
pub fn entries(records: &[Record]) -> Entries {
    of_input(Input::read(&plain_script(records), map::op, map::query))
}

/// The batches and reads of lawful records of `gserve`.
pub fn edges(records: &[Record]) -> Edges {
    of_input(Input::read(&plain_script(records), gserve::op, gserve::query))
}

impl<S: Served> Records<S> {
    /// The batch of a record.
    pub fn batch(&self, record: u64) -> Option<&Batch<S::Op>> {
        let at = self.batches.binary_search_by_key(&record, |batch| batch.record);
        at.ok().map(|at| &self.batches[at])
    }
}
