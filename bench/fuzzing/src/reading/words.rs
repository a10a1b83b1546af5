//! The words of a call.
use super::{number, Tool};
use std::ffi::{OsStr, OsString};
use std::ops::RangeInclusive;

/// What lawful words say.
#[derive(Debug, PartialEq, Eq)]
pub struct Lawful {
    pub tool: Tool,
    pub seed: u64,
    pub size: u64,
}

/// An option, its lawful values, and its value where it is given.
struct Setting {
    name: &'static str,
    range: RangeInclusive<u64>,
    given: Option<u64>,
}

fn settings() -> [Setting; 4] {
    let setting = |name, range| Setting { name, range, given: None };
    [setting("--workers", 1..=64), setting("--grain", 1..=1 << 32), setting("--seed", 0..=u64::MAX), setting("--size", 1..=1_000_000)]
}

impl Setting {
    /// Takes a value, once.
    fn take(&mut self, value: &str) -> Option<()> {
        let value = number(value.as_bytes()).filter(|value| self.range.contains(value))?;
        self.given.replace(value).is_none().then_some(())
    }
}

/// What the words say, if they are lawful.
pub fn lawful(words: &[OsString]) -> Option<Lawful> {
    let words: Option<Vec<&str>> = words.iter().map(|word| OsStr::to_str(word)).collect();
    let (mut settings, mut tool, mut may_be_option) = (settings(), None, true);
    let mut words = words?.into_iter();
    while let Some(word) = words.next() {
        if may_be_option && word == "--" {
            may_be_option = false;
        } else if may_be_option && word.starts_with('-') {
            let (name, value) = word.split_once('=').map_or((word, None), |(name, value)| (name, Some(value)));
            let setting = settings.iter_mut().find(|setting| setting.name == name)?;
            setting.take(value.or_else(|| words.next())?)?;
        } else if tool.replace(Tool::of_name(word)?).is_some() {
            return None;
        }
    }
    let [_, _, seed, size] = settings.map(|setting| setting.given);
    Some(Lawful { tool: tool?, seed: seed.unwrap_or(1), size: size.unwrap_or(100_000) })
}
