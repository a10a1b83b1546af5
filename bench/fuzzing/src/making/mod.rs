//! Cases by seed: scripts of every tool, lawful, bad and hostile, with the words that they run under.
mod calls;
mod checked;
mod harm;
mod histories;
mod scene;
mod scripts;
mod serving;
mod spoil;
mod writing;

pub use histories::lawful_history;

use crate::dice::Dice;
use crate::reading::Tool;
use std::ffi::OsString;

/// What a case tries: a tool, or words alone.
#[derive(Clone, Copy, Debug, PartialEq, Eq)]
pub enum Subject {
    Tool(Tool),
    Words,
}

impl Subject {
    pub fn all() -> Vec<Subject> {
        Tool::ALL.into_iter().map(Subject::Tool).chain([Subject::Words]).collect()
    }

    pub fn name(self) -> &'static str {
        match self {
            Subject::Tool(tool) => tool.name(),
            Subject::Words => "words",
        }
    }
}

/// An input, and the words of the calls that are to answer it alike.
pub struct Case {
    pub calls: Vec<Vec<OsString>>,
    pub input: Vec<u8>,
}

/// Each call of a case has another one of these.
const WORKERS: [u64; 3] = [1, 4, 64];

/// The case of a seed and a number.
pub fn case(seed: u64, subject: Subject, number: u64) -> Case {
    let dice = &mut Dice::new(seed, subject.name(), number);
    match subject {
        Subject::Words => {
            let tool = dice.pick(&Tool::ALL);
            Case { calls: vec![calls::any_words(dice, tool)], input: input(dice, tool) }
        }
        Subject::Tool(tool) => {
            let input = input(dice, tool);
            let sampled = calls::sampled(dice, tool);
            Case { calls: WORKERS.map(|workers| calls::lawful_words(dice, tool, workers, &sampled)).into(), input }
        }
    }
}

/// An input of a tool, of any kind.
fn input(dice: &mut Dice, tool: Tool) -> Vec<u8> {
    let is_bad = dice.one_in(5);
    let input = match tool {
        Tool::Sample => return Vec::new(),
        Tool::Check => checked::input(dice, is_bad),
        _ => {
            let mut records = scripts::records(dice, tool);
            if is_bad {
                spoil::spoil(dice, &mut records);
            }
            writing::written(dice, &records)
        }
    };
    match dice.below(6) {
        0 => harm::harmed(dice, tool, input),
        _ => input,
    }
}
