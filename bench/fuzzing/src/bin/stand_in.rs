//! A program that answers as `pam` has to, by plain Rust, so that the fuzzer itself can be tried. With a fault's name in the variable
//! STAND_IN_FAULT it has that fault.
use fuzzing::answers::{answer, tell, Answer, History, Records, Served};
use fuzzing::dice::Dice;
use fuzzing::making::lawful_history;
use fuzzing::reading::{lawful, Tool};
use std::ffi::OsString;
use std::io::{self, Read, Write};
use std::process::{self, ExitCode};
use std::time::{Duration, SystemTime};
use std::{env, thread};

#[derive(Clone, Copy, PartialEq)]
enum Fault {
    /// Saturated sums are 0.
    Wraps,
    /// Quotes are passed over.
    Quotes,
    /// A bad record ends with status 0.
    Status,
    /// With 64 workers nothing is written.
    Workers,
    /// Reads see all that was served before their round, and no more, but the second one sees nothing.
    Falls,
    /// The first batch is served twice.
    Twice,
    /// Each text is called lawful.
    Trusts,
    /// A script with a `keep` is never answered.
    Hangs,
    /// A script with a `clear` leaves a word on standard error.
    Tells,
}

const FAULTS: [(&str, Fault); 9] = [
    ("wraps", Fault::Wraps),
    ("quotes", Fault::Quotes),
    ("status", Fault::Status),
    ("workers", Fault::Workers),
    ("falls", Fault::Falls),
    ("twice", Fault::Twice),
    ("trusts", Fault::Trusts),
    ("hangs", Fault::Hangs),
    ("tells", Fault::Tells),
];

impl Fault {
    fn named() -> Option<Fault> {
        let name = env::var("STAND_IN_FAULT").ok()?;
        let found = FAULTS.into_iter().find(|fault| fault.0 == name);
        Some(found.unwrap_or_else(|| panic!("there is no fault {name}")).1)
    }
}

/// The text of any history that is lawful, or that has the fault.
fn served<S: Served>(records: &Records<S>, fault: Option<Fault>) -> Vec<u8> {
    let clock = SystemTime::UNIX_EPOCH.elapsed().unwrap_or_default().as_nanos() as u64;
    let mut history: History = lawful_history(&mut Dice::new(clock, "", u64::from(process::id())), records);
    match fault {
        Some(Fault::Falls) if history.seen.len() > 1 => history.seen[1] = 0,
        Some(Fault::Twice) => history.order.extend(history.order.first().copied()),
        _ => {}
    }
    tell(records, &history)
}

/// What a fault makes of a status and a text.
fn broken(fault: Fault, words: &[OsString], input: &[u8], (status, text): (u8, Vec<u8>)) -> (u8, Vec<u8>) {
    let has = |word: &[u8]| input.windows(word.len()).any(|bytes| bytes == word);
    let has_word = |name: &str| words.iter().any(|word| word == name);
    match fault {
        Fault::Wraps => (status, String::from_utf8_lossy(&text).replace("aug,18446744073709551615,", "aug,0,").into_bytes()),
        Fault::Status => (status % 3, text),
        Fault::Workers if has_word("64") || has_word("--workers=64") => (status, Vec::new()),
        Fault::Trusts if status == 0 && has_word("check") => (status, b"yes\n".to_vec()),
        Fault::Hangs if has(b"keep") => {
            thread::sleep(Duration::from_secs(3600));
            (status, text)
        }
        Fault::Tells if has(b"clear") => {
            eprintln!("cleared");
            (status, text)
        }
        _ => (status, text),
    }
}

fn main() -> io::Result<ExitCode> {
    let words: Vec<OsString> = env::args_os().skip(1).collect();
    let fault = Fault::named();
    let mut input = Vec::new();
    if lawful(&words).is_some_and(|lawful| lawful.tool != Tool::Sample) {
        io::stdin().lock().read_to_end(&mut input)?;
    }
    if fault == Some(Fault::Quotes) {
        input.retain(|byte| *byte != b'"');
    }
    let mut answer = match answer(&words, &input) {
        Answer::Text(status, text) => (status, text),
        Answer::Entries(records) => (0, served(&records, fault)),
        Answer::Edges(records) => (0, served(&records, fault)),
    };
    if let Some(fault) = fault {
        answer = broken(fault, &words, &input, answer);
    }
    io::stdout().lock().write_all(&answer.1)?;
    Ok(ExitCode::from(answer.0))
}
