//! What the program has to write, by the plain Rust of the benchmarks.
mod history;
mod judge;
mod plain;
mod served;

pub use history::{tell, History};
pub use judge::{agree, verdict};
pub use plain::plain_script;
pub use served::{edges, entries, Edges, Entries, Records, Served};

use crate::reading::{fault, lawful, records, Code, Fault, Lawful, Record, Tool};
use program_baseline::{graph, index, intervals, points, registers, sample, script, seq};
use std::ffi::OsString;

/// What an input and words are to be answered with.
pub enum Answer {
    /// This status, and this text.
    Text(u8, Vec<u8>),
    /// Status 0, and the text of a lawful history of these records.
    Entries(Entries),
    Edges(Edges),
}

const USAGE: u8 = 2;
const BAD_RECORD: u8 = 3;
const TOO_LARGE: u8 = 4;

/// How many bytes an input has at most.
pub const LIMIT: usize = 67_108_864;

fn done(text: Vec<u8>) -> Answer {
    Answer::Text(0, text)
}

fn bad(fault: &Fault) -> Answer {
    Answer::Text(BAD_RECORD, fault.to_string().into_bytes())
}

/// The answer to an input under some words.
pub fn answer(words: &[OsString], input: &[u8]) -> Answer {
    match lawful(words) {
        None => Answer::Text(USAGE, Vec::new()),
        Some(Lawful { tool: Tool::Sample, seed, size }) => done(registers::run(sample::commands(size, seed))),
        Some(_) if input.len() > LIMIT => Answer::Text(TOO_LARGE, Vec::new()),
        Some(Lawful { tool: Tool::Check, .. }) => check(input),
        Some(Lawful { tool, .. }) => {
            let records = records(input);
            match fault(tool, &records) {
                Ok(()) => replies(tool, &records),
                Err(fault) => bad(&fault),
            }
        }
    }
}

/// The answer to lawful records.
fn replies(tool: Tool, records: &[Record]) -> Answer {
    let script = plain_script(records);
    match tool {
        Tool::Map => done(registers::run(script::commands(&script).unwrap_or_else(|fault| panic!("{fault}")))),
        Tool::Seq => done(seq::run(&script)),
        Tool::Interval => done(intervals::run(&script, intervals::Way::Tree)),
        Tool::Points => done(points::run(&script)),
        Tool::Index => done(index::run(&script)),
        Tool::Graph => done(graph::run(&script)),
        Tool::Gserve => Answer::Edges(edges(records)),
        Tool::Serve | Tool::Check | Tool::Sample => Answer::Entries(entries(records)),
    }
}

/// The served input and the text of an input of `check`, which the line `run` parts.
fn parted(input: &[u8]) -> Option<(&[u8], &[u8])> {
    let lines = input.split_inclusive(|byte| *byte == b'\n');
    let before: usize = lines.take_while(|line| line != b"run\n").map(<[u8]>::len).sum();
    let (served, rest) = input.split_at(before);
    Some((served, rest.strip_prefix(b"run\n")?))
}

fn check(input: &[u8]) -> Answer {
    let parted = parted(input);
    let records = records(parted.map_or(input, |(served, _)| served));
    if let Err(fault) = fault(Tool::Check, &records) {
        return bad(&fault);
    }
    let Some((_, text)) = parted else {
        return bad(&Fault { record: records.len() + 1, code: Code::Run });
    };
    match verdict(&entries(&records), text) {
        None => done(b"yes\n".to_vec()),
        Some(point) => done(format!("no,{point}\n").into_bytes()),
    }
}
