//! Calls of the program beside what they have to be answered with.
use crate::answers::{agree, answer, verdict, Answer, Records, Served};
use crate::making::Case;
use crate::program::{End, Program, Run};
use crate::reading::{lawful, records, Tool};
use std::ffi::OsString;
use std::io;

/// A call that was answered otherwise than it has to be.
pub struct Difference {
    pub words: Vec<OsString>,
    pub input: Vec<u8>,
    pub told: String,
}

/// How much of a text is shown.
const SHOWN: usize = 300;

fn shown(text: &[u8]) -> String {
    let start = text[..text.len().min(SHOWN)].escape_ascii();
    match text.len() > SHOWN {
        true => format!("\"{start}\".. ({} bytes)", text.len()),
        false => format!("\"{start}\""),
    }
}

/// The bytes around the first one at which two texts differ.
fn around(got: &[u8], wanted: &[u8]) -> String {
    let at = got.iter().zip(wanted).take_while(|(a, b)| a == b).count();
    let part = |text: &[u8]| shown(&text[at.saturating_sub(20)..text.len().min(at + 40)]);
    format!("at byte {at}: {} for {}", part(got), part(wanted))
}

/// Why a run that must end with a status and without a word on standard error has not.
fn end_fault(run: &Run, wanted: u8) -> Option<String> {
    if run.end != End::Status(wanted) {
        return Some(format!("it ended with {:?} for {:?} and wrote {}", run.end, End::Status(wanted), shown(&run.text)));
    }
    (!run.told.is_empty()).then(|| format!("on standard error it told {}", shown(&run.told)))
}

fn text_fault(text: &[u8], wanted: &[u8]) -> Option<String> {
    (text != wanted).then(|| format!("the text differs {}\nwanted: {}\ngot: {}", around(text, wanted), shown(wanted), shown(text)))
}

fn served_fault<S: Served>(records: &Records<S>, text: &[u8]) -> Option<String> {
    let point = verdict(records, text)?;
    Some(format!("point {point} fails of the text {}", shown(text)))
}

impl Answer {
    fn status(&self) -> u8 {
        match self {
            Answer::Text(status, _) => *status,
            Answer::Entries(_) | Answer::Edges(_) => 0,
        }
    }

    /// What is wrong about a run, if something is.
    fn fault(&self, run: &Run) -> Option<String> {
        end_fault(run, self.status()).or_else(|| match self {
            Answer::Text(_, text) => text_fault(&run.text, text),
            Answer::Entries(records) => served_fault(records, &run.text),
            Answer::Edges(records) => served_fault(records, &run.text),
        })
    }

    fn agree(&self, one: &[u8], other: &[u8]) -> bool {
        match self {
            Answer::Text(..) => one == other,
            Answer::Entries(records) => agree(records, one, other),
            Answer::Edges(records) => agree(records, one, other),
        }
    }
}

/// What is wrong about one call.
pub fn call_fault(program: &Program, job: usize, words: &[OsString], input: &[u8]) -> io::Result<Option<String>> {
    Ok(answer(words, input).fault(&program.run(job, words, input)?))
}

/// What came of a case.
pub struct Tried {
    pub calls: u64,
    /// Whether the words or a record are bad.
    pub is_bad: bool,
    pub difference: Option<Difference>,
}

/// Makes the calls of a case up to the first one that is answered otherwise than it has to be, and then, where a text was served, one of
/// `check` on it.
pub fn try_case(program: &Program, job: usize, case: Case) -> io::Result<Tried> {
    let Case { calls, input } = case;
    let answer = answer(&calls[0], &input);
    let mut tried = Tried { calls: 0, is_bad: answer.status() > 0, difference: None };
    let mut texts: Vec<Vec<u8>> = Vec::new();
    for words in &calls {
        let run = program.run(job, words, &input)?;
        tried.calls += 1;
        let unlike = || texts.iter().any(|text| !answer.agree(text, &run.text)).then(|| format!("calls disagree: {}", shown(&run.text)));
        if let Some(told) = answer.fault(&run).or_else(unlike) {
            tried.difference = Some(Difference { words: words.clone(), input, told });
            return Ok(tried);
        }
        texts.push(run.text);
    }
    if let (Answer::Entries(_), Some(text)) = (answer, texts.pop()) {
        tried.calls += 1;
        tried.difference = check(program, job, &calls[0], input, text)?;
    }
    Ok(tried)
}

/// Has `check` judge a text that `serve` wrote.
fn check(program: &Program, job: usize, words: &[OsString], served: Vec<u8>, text: Vec<u8>) -> io::Result<Option<Difference>> {
    let end: &[u8] = if served.ends_with(b"\n") { b"" } else { b"\n" };
    let input = [&served, end, b"run\n", &text].concat();
    if records(&served) != records(&input[..served.len() + end.len()]) {
        return Ok(None); // The last field is quoted and not closed, so that it has become longer.
    }
    let tool = |word: &OsString| if word == Tool::Serve.name() { Tool::Check.name().into() } else { word.clone() };
    let words: Vec<OsString> = words.iter().map(tool).collect();
    let fault = call_fault(program, job, &words, &input)?;
    Ok(fault.map(|told| Difference { words, input, told }))
}

/// Whether a call has more than one lawful text, so that a fault may come and go.
pub fn varies(words: &[OsString]) -> bool {
    lawful(words).is_some_and(|lawful| matches!(lawful.tool, Tool::Serve | Tool::Gserve))
}
