//! The first bad record of an input.
use super::serving::{served_fault, GSERVE, SERVE};
use super::shapes::{shapes, Kind, Shape};
use super::{number, Record, Tool};
use std::fmt;

const REGISTERS: u64 = 16;

#[derive(Clone, Copy, Debug, PartialEq, Eq)]
pub enum Code {
    Verb,
    Fields,
    Register,
    Number,
    How,
    Term,
    Callers,
    Caller,
    Op,
    Interval,
    Run,
}

impl Code {
    pub fn name(self) -> &'static str {
        match self {
            Code::Verb => "verb",
            Code::Fields => "fields",
            Code::Register => "register",
            Code::Number => "number",
            Code::How => "how",
            Code::Term => "term",
            Code::Callers => "callers",
            Code::Caller => "caller",
            Code::Op => "op",
            Code::Interval => "interval",
            Code::Run => "run",
        }
    }
}

/// A bad record by its number, and what is bad.
#[derive(Debug, PartialEq, Eq)]
pub struct Fault {
    pub record: usize,
    pub code: Code,
}

impl fmt::Display for Fault {
    fn fmt(&self, f: &mut fmt::Formatter) -> fmt::Result {
        writeln!(f, "error,{},{}", self.record, self.code.name())
    }
}

fn wanted(is_there: bool, code: Code) -> Result<(), Code> {
    if is_there {
        Ok(())
    } else {
        Err(code)
    }
}

/// Whether a field is what stands there.
pub fn kind_fault(kind: Kind, field: &[u8]) -> Result<(), Code> {
    match kind {
        Kind::Register => wanted(number(field).is_some_and(|register| register < REGISTERS), Code::Register),
        Kind::How => wanted([&b"first"[..], b"second", b"sum", b"max"].contains(&field), Code::How),
        Kind::Term => wanted(!field.is_empty() && field.iter().all(u8::is_ascii_alphanumeric), Code::Term),
        Kind::Text => Ok(()),
        _ => wanted(number(field).is_some(), Code::Number),
    }
}

impl Shape {
    /// Whether so many fields may stand behind the verb.
    fn takes(&self, fields: usize) -> bool {
        match fields.checked_sub(self.first.len()) {
            None => false,
            Some(more) if self.group.is_empty() => more == 0,
            Some(more) => more % self.group.len() == 0 && more / self.group.len() >= self.least,
        }
    }

    fn fault(&self, fields: &[Vec<u8>]) -> Result<(), Code> {
        wanted(self.takes(fields.len()), Code::Fields)?;
        let kinds = self.first.iter().chain(self.group.iter().cycle());
        kinds.zip(fields).try_for_each(|(kind, field)| kind_fault(*kind, field))?;
        wanted(!self.is_ordered || number(&fields[0]) <= number(&fields[1]), Code::Interval)
    }
}

fn record_fault(tool: Tool, record: &Record) -> Result<(), Code> {
    let (verb, fields) = record.split_first().expect("a record has a field");
    let shape = shapes(tool).iter().find(|shape| shape.verb.as_bytes() == verb);
    shape.ok_or(Code::Verb)?.fault(fields)
}

/// The first bad record of an input of a tool. For `check` that of the served input.
pub fn fault(tool: Tool, records: &[Record]) -> Result<(), Fault> {
    let found = match tool {
        Tool::Sample => Ok(()),
        Tool::Serve | Tool::Check => served_fault(&SERVE, records),
        Tool::Gserve => served_fault(&GSERVE, records),
        _ => (0..).zip(records).try_for_each(|(at, record)| record_fault(tool, record).map_err(|code| (at, code))),
    };
    found.map_err(|(at, code)| Fault { record: at + 1, code })
}
