//! The words of the fuzzer.
use crate::making::Subject;
use std::path::PathBuf;
use std::str::FromStr;
use std::time::{Duration, SystemTime, UNIX_EPOCH};
use std::{env, thread};

pub struct Options {
    pub pam: PathBuf,
    pub seed: u64,
    /// The first case's number, and how many there are at most.
    pub from: u64,
    pub cases: u64,
    /// How long new cases are begun.
    pub time: Duration,
    pub jobs: usize,
    pub subjects: Vec<Subject>,
    /// Where scripts are kept, and after how many of them no new cases are begun.
    pub keep: PathBuf,
    pub most: usize,
    /// How long a run may take.
    pub limit: Duration,
}

/// A minute of cases of all tools, by the clock's seed.
fn defaults() -> Options {
    let clock = SystemTime::now().duration_since(UNIX_EPOCH).unwrap_or_default();
    Options {
        pam: PathBuf::from("crates/pam/out/pam"),
        seed: clock.as_secs(),
        from: 0,
        cases: u64::MAX,
        time: Duration::from_secs(60),
        jobs: thread::available_parallelism().map_or(1, usize::from),
        subjects: Subject::all(),
        keep: env::temp_dir().join("pam_fuzz"),
        most: 10,
        limit: Duration::from_secs(60),
    }
}

fn parsed<T: FromStr>(name: &str, word: Option<String>) -> Result<T, String> {
    let word = word.ok_or(format!("{name} wants a value"))?;
    word.parse().map_err(|_| format!("{name} does not take {word}"))
}

/// A number of seconds or minutes, which need not be whole.
fn duration(name: &str, word: Option<String>, unit: f64) -> Result<Duration, String> {
    let number: f64 = parsed(name, word)?;
    Duration::try_from_secs_f64(number * unit).map_err(|fault| format!("{name}: {fault}"))
}

fn subject(name: &str) -> Result<Subject, String> {
    let found = Subject::all().into_iter().find(|subject| subject.name() == name);
    found.ok_or(format!("there is no tool {name}"))
}

impl Options {
    pub fn read(words: impl Iterator<Item = String>) -> Result<Options, String> {
        let mut options = defaults();
        let mut words = words.peekable();
        let mut has_time = false;
        while let Some(name) = words.next() {
            match name.as_str() {
                "--pam" => options.pam = parsed(&name, words.next())?,
                "--seed" => options.seed = parsed(&name, words.next())?,
                "--from" => options.from = parsed(&name, words.next())?,
                "--cases" => options.cases = parsed(&name, words.next())?,
                "--minutes" => {
                    options.time = duration(&name, words.next(), 60.0)?;
                    has_time = true;
                }
                "--jobs" => options.jobs = parsed(&name, words.next())?,
                "--keep" => options.keep = parsed(&name, words.next())?,
                "--most" => options.most = parsed(&name, words.next())?,
                "--limit" => options.limit = duration(&name, words.next(), 1.0)?,
                "--tool" => {
                    let names = std::iter::from_fn(|| words.next_if(|word| !word.starts_with("--")));
                    options.subjects = names.map(|name| subject(&name)).collect::<Result<_, _>>()?;
                }
                _ => return Err(format!("there is no option {name}")),
            }
        }
        if options.subjects.is_empty() || options.jobs == 0 {
            return Err("there is no tool, or no job".into());
        }
        if options.cases < u64::MAX && !has_time {
            options.time = Duration::MAX;
        }
        Ok(options)
    }
}
