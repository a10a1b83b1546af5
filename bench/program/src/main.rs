//! The program `pam` in plain Rust over `BTreeMap`, for records without quotes.
//!
//! `program_baseline map` reads standard input whole, then all its lines, then runs them, and writes the replies at once, as
//! `pam map` does. `program_baseline sample SIZE SEED` does what `pam --size SIZE --seed SEED sample` does. The words `interval scan`,
//! `interval tree`, `points`, `index`, `graph`, `seq`, `gserve mutex`, `gserve rwlock` and `check` run these tools, on lawful scripts alone.
use bench_common::{input, parsed, words};
use program_baseline::{check, graph, gserve, index, intervals, points, registers, sample, script, seq};
use std::io::{self, Write};
use std::process::ExitCode;
use std::sync::{Mutex, RwLock};

fn write(text: &[u8], code: u8) -> io::Result<ExitCode> {
    io::stdout().lock().write_all(text)?;
    Ok(ExitCode::from(code))
}

fn map() -> io::Result<ExitCode> {
    match script::commands(&input()) {
        Ok(commands) => write(&registers::run(commands), 0),
        Err(fault) => write(fault.to_string().as_bytes(), 3),
    }
}

fn main() -> io::Result<ExitCode> {
    let words = words();
    let words: Vec<&str> = words.iter().map(String::as_str).collect();
    let text = match words[..] {
        ["map"] => return map(),
        ["interval", "scan"] => intervals::run(&input(), intervals::Way::Scan),
        ["interval", "tree"] => intervals::run(&input(), intervals::Way::Tree),
        ["points"] => points::run(&input()),
        ["index"] => index::run(&input()),
        ["graph"] => graph::run(&input()),
        ["seq"] => seq::run(&input()),
        ["gserve", "mutex"] => gserve::run::<Mutex<gserve::Served>>(&input()),
        ["gserve", "rwlock"] => gserve::run::<RwLock<gserve::Served>>(&input()),
        ["check"] => check::run(&input()),
        ["sample", size, seed] => registers::run(sample::commands(parsed(size), parsed(seed))),
        _ => return Ok(ExitCode::from(2)),
    };
    write(&text, 0)
}
