//! The commands that lines name.
use bench_common::{lines, Fields};
use std::fmt;

pub const REGISTERS: u64 = 16;

#[derive(Clone, Copy)]
pub struct Register(pub u8);

#[derive(Clone, Copy)]
pub enum How {
    First,
    Second,
    Sum,
    Greater,
}

/// What is asked of a register.
pub enum Question {
    Get(u64),
    Size,
    Sum(u64, u64),
    Fold,
    Greatest(u64, u64),
    Rank(u64),
    Select(u64),
    Next(u64),
    Prev(u64),
    List(u64, u64),
    Count(u64, u64),
}

/// What is done to a register.
pub enum Change {
    Put(u64, u64),
    Del(u64),
    Copy(Register),
    Clear,
    Build(Box<[(u64, u64)]>),
    PutAll(Box<[(u64, u64)]>),
    DelAll(Box<[u64]>),
    Union(Register, Register, How),
    Inter(Register, Register, How),
    Diff(Register, Register),
    Cat(Register, Register),
    Below(Register, u64),
    Above(Register, u64),
    Slice(Register, u64, u64),
    AtLeast(Register, u64),
    Filter(Register, u64, u64),
}

pub enum Command {
    Ask(Register, Question),
    Change(Register, Change),
}

type Code = &'static str;

/// The first bad line: its place from 1, and what is bad.
pub struct Fault {
    place: usize,
    code: Code,
}

impl fmt::Display for Fault {
    fn fmt(&self, f: &mut fmt::Formatter) -> fmt::Result {
        writeln!(f, "error,{},{}", self.place, self.code)
    }
}

/// What is left of a line's fields, of which each must be lawful.
struct Strict<'a> {
    rest: Fields<'a>,
}

impl<'a> Strict<'a> {
    fn text(&mut self) -> &'a [u8] {
        self.rest.next().unwrap_or_default()
    }

    fn number(&mut self) -> Result<u64, Code> {
        number(self.text()).ok_or("number")
    }

    fn register(&mut self) -> Result<Register, Code> {
        let register = number(self.text()).filter(|number| *number < REGISTERS);
        register
            .map(|number| Register(number as u8))
            .ok_or("register")
    }

    fn how(&mut self) -> Result<How, Code> {
        match self.text() {
            b"first" => Ok(How::First),
            b"second" => Ok(How::Second),
            b"sum" => Ok(How::Sum),
            b"max" => Ok(How::Greater),
            _ => Err("how"),
        }
    }

    fn numbers(self) -> Result<Box<[u64]>, Code> {
        self.rest
            .map(|field| number(field).ok_or("number"))
            .collect()
    }

    fn pairs(mut self, count: usize) -> Result<Box<[(u64, u64)]>, Code> {
        (0..count)
            .map(|_| Ok((self.number()?, self.number()?)))
            .collect()
    }
}

fn number(text: &[u8]) -> Option<u64> {
    if text.is_empty() || (text.len() > 1 && text[0] == b'0') {
        return None;
    }
    let mut value: u64 = 0;
    for digit in text {
        if !digit.is_ascii_digit() {
            return None;
        }
        value = value
            .checked_mul(10)?
            .checked_add(u64::from(digit - b'0'))?;
    }
    Some(value)
}

/// Whether the verb may have so many fields behind it.
fn fits(verb: &[u8], fields: usize) -> Result<bool, Code> {
    Ok(match verb {
        b"size" | b"fold" | b"clear" => fields == 1,
        b"del" | b"get" | b"rank" | b"select" | b"next" | b"prev" | b"copy" => fields == 2,
        b"put" | b"sum" | b"max" | b"list" | b"count" => fields == 3,
        b"diff" | b"cat" | b"below" | b"above" | b"atleast" => fields == 3,
        b"union" | b"inter" | b"slice" | b"filter" => fields == 4,
        b"build" => fields % 2 == 1,
        b"mput" => fields % 2 == 1 && fields > 1,
        b"mdel" => fields > 1,
        _ => return Err("verb"),
    })
}

fn question(verb: &[u8], f: &mut Strict) -> Result<Option<Question>, Code> {
    Ok(Some(match verb {
        b"get" => Question::Get(f.number()?),
        b"size" => Question::Size,
        b"sum" => Question::Sum(f.number()?, f.number()?),
        b"fold" => Question::Fold,
        b"max" => Question::Greatest(f.number()?, f.number()?),
        b"rank" => Question::Rank(f.number()?),
        b"select" => Question::Select(f.number()?),
        b"next" => Question::Next(f.number()?),
        b"prev" => Question::Prev(f.number()?),
        b"list" => Question::List(f.number()?, f.number()?),
        b"count" => Question::Count(f.number()?, f.number()?),
        _ => return Ok(None),
    }))
}

fn change(verb: &[u8], mut f: Strict, fields: usize) -> Result<Change, Code> {
    Ok(match verb {
        b"put" => Change::Put(f.number()?, f.number()?),
        b"del" => Change::Del(f.number()?),
        b"copy" => Change::Copy(f.register()?),
        b"clear" => Change::Clear,
        b"build" => Change::Build(f.pairs(fields / 2)?),
        b"mput" => Change::PutAll(f.pairs(fields / 2)?),
        b"mdel" => Change::DelAll(f.numbers()?),
        b"union" => Change::Union(f.register()?, f.register()?, f.how()?),
        b"inter" => Change::Inter(f.register()?, f.register()?, f.how()?),
        b"diff" => Change::Diff(f.register()?, f.register()?),
        b"cat" => Change::Cat(f.register()?, f.register()?),
        b"below" => Change::Below(f.register()?, f.number()?),
        b"above" => Change::Above(f.register()?, f.number()?),
        b"slice" => Change::Slice(f.register()?, f.number()?, f.number()?),
        b"atleast" => Change::AtLeast(f.register()?, f.number()?),
        b"filter" => Change::Filter(f.register()?, f.number()?, f.number()?),
        _ => return Err("verb"),
    })
}

fn command(line: &[u8]) -> Result<Command, Code> {
    let mut f = Strict { rest: Fields::of(line) };
    let verb = f.text();
    let fields = line.iter().filter(|byte| **byte == b',').count();
    if !fits(verb, fields)? {
        return Err("fields");
    }
    let register = f.register()?;
    match question(verb, &mut f)? {
        Some(question) => Ok(Command::Ask(register, question)),
        None => Ok(Command::Change(register, change(verb, f, fields)?)),
    }
}

/// The commands of all lines, or the first fault.
pub fn commands(input: &[u8]) -> Result<Vec<Command>, Fault> {
    lines(input)
        .zip(1..)
        .map(|(line, place)| command(line).map_err(|code| Fault { place, code }))
        .collect()
}
