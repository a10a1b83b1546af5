//! Whether a text is that of a lawful run of serve, on lawful records and lines.
use bench_common::{answer, apply, last_line, op, query, Act, Input, Op, Query};
use std::collections::{BTreeMap, HashMap};
use std::str;

struct Batch {
    caller: usize,
    round: usize,
    ops: Vec<Op>,
}

struct Read {
    place: u64,
    caller: usize,
    round: usize,
    query: Query,
}

/// The records of an input: batches by their records' numbers, and reads in order.
struct Records {
    callers: usize,
    batches: HashMap<u64, Batch>,
    reads: Vec<Read>,
    // how many batches the rounds up to and with each have
    counts: Vec<usize>,
}

fn records(input: Input<Op, Query>) -> Records {
    let mut found = Records { callers: input.callers, batches: HashMap::new(), reads: Vec::new(), counts: Vec::new() };
    for (round, records) in input.rounds.into_iter().enumerate() {
        for record in records {
            let (place, caller) = (record.place, record.caller);
            match record.act {
                Act::Submit(ops) => drop(found.batches.insert(place, Batch { caller, round, ops })),
                Act::Read(query) => found.reads.push(Read { place, caller, round, query }),
            }
        }
        found.counts.push(found.batches.len());
    }
    found
}

/// What a text names: for each read its number and its answer, the order of the batches, and the last line.
struct Named<'a> {
    reads: Vec<(usize, &'a str)>,
    order: Vec<u64>,
    last: &'a str,
}

fn named<'a>(text: &'a str, records: &Records) -> Option<Named<'a>> {
    let mut found = Named { reads: Vec::new(), order: Vec::new(), last: text.lines().next_back()? };
    for line in text.strip_suffix('\n')?.split('\n') {
        if let Some(rest) = line.strip_prefix("r,") {
            let (place, rest) = rest.split_once(',')?;
            let (number, answer) = rest.split_once(',')?;
            if place.parse() != Ok(records.reads.get(found.reads.len())?.place) {
                return None;
            }
            found.reads.push((number.parse().ok()?, answer));
        } else if let Some(rest) = line.strip_prefix("j,") {
            let (place, number) = rest.split_once(',')?;
            if place.parse() != Ok(found.order.len() + 1) {
                return None;
            }
            found.order.push(number.parse().ok()?);
        }
    }
    (found.reads.len() == records.reads.len() && found.last.starts_with("final,")).then_some(found)
}

/// The least of the points 1 to 5 that fails.
fn broken(records: &Records, named: &Named) -> Option<u32> {
    let mut sorted = named.order.clone();
    sorted.sort_unstable();
    sorted.dedup();
    let whole = sorted.len() == records.batches.len() && named.order.len() == sorted.len();
    if !whole || !sorted.iter().all(|number| records.batches.contains_key(number)) {
        return Some(1);
    }
    let mut last = vec![0; records.callers];
    for number in &named.order {
        let seen = &mut last[records.batches[number].caller];
        if *seen > *number {
            return Some(2);
        }
        *seen = *number;
    }
    if named.order.windows(2).any(|two| records.batches[&two[0]].round > records.batches[&two[1]].round) {
        return Some(3);
    }
    let before = |round: usize| if round == 0 { 0 } else { records.counts[round - 1] };
    let fits = |(read, (number, _)): (&Read, &(usize, &str))| before(read.round) <= *number && *number <= records.counts[read.round];
    if !records.reads.iter().zip(&named.reads).all(fits) {
        return Some(4);
    }
    let mut seen = vec![0; records.callers];
    for (read, (number, _)) in records.reads.iter().zip(&named.reads) {
        if *number < seen[read.caller] {
            return Some(5);
        }
        seen[read.caller] = *number;
    }
    None
}

/// Whether a line tells the answer to a query.
fn tells(told: &str, map: &BTreeMap<u64, u64>, query: &Query) -> bool {
    let mut line = Vec::new();
    answer(&mut line, map, query);
    line.strip_suffix(b"\n") == Some(told.as_bytes())
}

/// Whether the reads have the answers of their versions, in the order of these, and the last line is right.
fn is_text(records: &Records, named: &Named) -> bool {
    let mut turns: Vec<usize> = (0..named.reads.len()).collect();
    turns.sort_by_key(|at| named.reads[*at].0);
    let (mut map, mut done) = (BTreeMap::new(), 0);
    let change = |map: &mut _, places: &[u64]| {
        let ops = places.iter().flat_map(|place| &records.batches[place].ops);
        ops.for_each(|op| apply(map, op));
    };
    for at in turns {
        let (number, told) = named.reads[at];
        change(&mut map, &named.order[done..number]);
        done = number;
        if !tells(told, &map, &records.reads[at].query) {
            return false;
        }
    }
    change(&mut map, &named.order[done..]);
    let mut last = Vec::new();
    last_line(&mut last, &map);
    last.strip_suffix(b"\n") == Some(named.last.as_bytes())
}

pub fn run(input: &[u8]) -> Vec<u8> {
    let text = str::from_utf8(input).expect("a text");
    let (before, text) = text.split_once("\nrun\n").expect("the line run");
    let records = records(Input::read(before.as_bytes(), op, query));
    let point = match named(text, &records) {
        None => Some(0),
        Some(named) => broken(&records, &named).or_else(|| (!is_text(&records, &named)).then_some(6)),
    };
    point.map_or("yes\n".into(), |point| format!("no,{point}\n")).into_bytes()
}
