//! Rounds of callers that share one map.
use bench_common::{
    answer, apply, begun, input, last_line, op, order_lines, query, run_caller, run_round, Input, Op, Query, Record, Shared,
};
use std::collections::BTreeMap;
use std::sync::Mutex;
use std::time::Instant;

/// Where a caller runs that has the records of its round to itself.
#[derive(Clone, Copy, PartialEq)]
pub enum Lone {
    Thread,
    Here,
}

/// The map, and the records' numbers of its batches in order.
#[derive(Default)]
struct Served {
    map: BTreeMap<u64, u64>,
    order: Vec<u64>,
}

#[derive(Default)]
struct Locked(Mutex<Served>);

impl Shared<Op, Query> for Locked {
    fn submit(&self, place: u64, ops: &[Op]) {
        let mut served = self.0.lock().expect("no caller panics");
        ops.iter().for_each(|op| apply(&mut served.map, op));
        served.order.push(place);
    }

    fn reply(&self, place: u64, query: &Query) -> Vec<u8> {
        let served = self.0.lock().expect("no caller panics");
        let mut out = begun(place, served.order.len());
        answer(&mut out, &served.map, query);
        out
    }
}

/// The caller that has the records of a round to itself.
fn lone_caller(records: &[Record<Op, Query>]) -> Option<usize> {
    let first = records.first()?.caller;
    records.iter().all(|record| record.caller == first).then_some(first)
}

/// The text of the records.
fn run(input: &Input<Op, Query>, lone: Lone) -> Vec<u8> {
    let served = Locked::default();
    let mut text = Vec::new();
    for records in &input.rounds {
        match lone_caller(records).filter(|_| lone == Lone::Here) {
            Some(caller) => text.extend(run_caller(&served, records, caller).into_iter().flatten()),
            None => run_round(&served, records, input.callers, &mut text),
        }
    }
    let served = served.0.into_inner().expect("no caller panics");
    order_lines(&mut text, &served.order);
    last_line(&mut text, &served.map);
    text
}

pub fn time(lone: Lone) {
    let input = Input::read(&input(), op, query);
    let start = Instant::now();
    let text = run(&input, lone);
    let taken = start.elapsed().as_nanos();
    let lines = String::from_utf8(text).expect("a text");
    println!("{}", lines.lines().next_back().expect("a last line"));
    eprintln!("{taken}");
}
