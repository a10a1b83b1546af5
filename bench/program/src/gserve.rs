//! The tool gserve: one graph behind a lock, and in each round a thread for each caller that has records.
use crate::graph::{list_reached, Graph};
use bench_common::{begun, line, order_lines, run_round, Fields, Input, Shared};
use std::sync::{Mutex, RwLock};

pub enum Op {
    Add(u64, u64),
    Cut(u64, u64),
}

pub enum Query {
    Degree(u64),
    Bfs(u64),
    Size,
}

/// The operation of a word, with the numbers behind it.
pub fn op(word: &[u8], fields: &mut Fields) -> Op {
    let (from, to) = (fields.next_number(), fields.next_number());
    match word {
        b"add" => Op::Add(from, to),
        _ => Op::Cut(from, to),
    }
}

/// The query of a word, with the numbers behind it.
pub fn query(word: &[u8], fields: &mut Fields) -> Query {
    match word {
        b"degree" => Query::Degree(fields.next_number()),
        b"bfs" => Query::Bfs(fields.next_number()),
        _ => Query::Size,
    }
}

/// The graph, and the records' numbers of its batches in order.
#[derive(Default)]
pub struct Served {
    graph: Graph,
    order: Vec<u64>,
}

/// What a query finds, which is written after the lock is given back.
pub enum Found {
    Degree(u64),
    Reached(Vec<(u64, u64)>),
    Size([u64; 2]),
}

pub fn apply(graph: &mut Graph, op: &Op) {
    match *op {
        Op::Add(from, to) => graph.add(from, to),
        Op::Cut(from, to) => graph.cut(from, to),
    }
}

pub fn find(graph: &Graph, query: &Query) -> Found {
    match *query {
        Query::Degree(vertex) => Found::Degree(graph.degree(vertex)),
        Query::Bfs(from) => Found::Reached(graph.reached(from)),
        Query::Size => Found::Size(graph.size()),
    }
}

/// Writes the answer to a query, as a line.
pub fn answer(out: &mut Vec<u8>, found: Found) {
    match found {
        Found::Degree(degree) => line(out, "degree", [degree]),
        Found::Reached(found) => list_reached(out, found),
        Found::Size(size) => line(out, "graph", size),
    }
}

/// Writes the last line of a text.
pub fn last_line(out: &mut Vec<u8>, graph: &Graph) {
    line(out, "final", graph.size());
}

impl Served {
    fn change(&mut self, place: u64, ops: &[Op]) {
        ops.iter().for_each(|op| apply(&mut self.graph, op));
        self.order.push(place);
    }

    /// How many batches there are so far, and what a query finds.
    fn look(&self, query: &Query) -> (usize, Found) {
        (self.order.len(), find(&self.graph, query))
    }
}

/// A lock that readers hold one at a time, or one that they hold side by side.
pub trait Lock: Default + Sync {
    fn with_mut(&self, change: impl FnOnce(&mut Served));
    fn look(&self, query: &Query) -> (usize, Found);
    fn into_served(self) -> Served;
}

/// The lock of a type, by its calls that write and read.
macro_rules! lock {
    ($lock:ident, $write:ident, $read:ident) => {
        impl Lock for $lock<Served> {
            fn with_mut(&self, change: impl FnOnce(&mut Served)) {
                change(&mut self.$write().expect("no caller panics"));
            }

            fn look(&self, query: &Query) -> (usize, Found) {
                self.$read().expect("no caller panics").look(query)
            }

            fn into_served(self) -> Served {
                self.into_inner().expect("no caller panics")
            }
        }
    };
}

lock!(Mutex, lock, lock);
lock!(RwLock, write, read);

/// What is served, behind its lock.
#[derive(Default)]
struct Behind<L>(L);

impl<L: Lock> Shared<Op, Query> for Behind<L> {
    fn submit(&self, place: u64, ops: &[Op]) {
        self.0.with_mut(|served| served.change(place, ops));
    }

    fn reply(&self, place: u64, query: &Query) -> Vec<u8> {
        let (number, found) = self.0.look(query);
        let mut out = begun(place, number);
        answer(&mut out, found);
        out
    }
}

/// The text of the records.
pub fn run<L: Lock>(input: &[u8]) -> Vec<u8> {
    let input = Input::read(input, op, query);
    let shared = Behind::<L>::default();
    let mut out = Vec::new();
    for records in &input.rounds {
        run_round(&shared, records, input.callers, &mut out);
    }
    let served = shared.0.into_served();
    order_lines(&mut out, &served.order);
    last_line(&mut out, &served.graph);
    out
}
