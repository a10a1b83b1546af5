//! Words of calls.
use crate::dice::Dice;
use crate::reading::Tool;
use std::ffi::OsString;
use std::os::unix::ffi::OsStringExt;

const GRAINS: [u64; 3] = [1, 1024, 1 << 32];

/// An option with its value.
pub type Setting = (&'static str, u64);

/// What `sample` makes, which all calls of a case share; of other tools, which have no use for it, nothing or anything lawful.
pub fn sampled(dice: &mut Dice, tool: Tool) -> Vec<Setting> {
    if tool != Tool::Sample && !dice.one_in(20) {
        return Vec::new();
    }
    let seed = dice.any() >> dice.pick(&[0, 1, 32, 56, 63]);
    let most = dice.pick(&[1, 2, 5, 100, 3000, 3000, 3000, 20_000]);
    let mut settings = vec![("--size", 1 + dice.below(most))];
    if !dice.one_in(8) {
        settings.push(("--seed", seed));
    }
    settings
}

/// An option and its value, in one word or in two.
fn spelled(dice: &mut Dice, name: &str, value: &str) -> Vec<String> {
    match dice.one_in(3) {
        true => vec![format!("{name}={value}")],
        false => vec![name.into(), value.into()],
    }
}

/// Puts the tool among options, each of which is one or two words.
fn joined(dice: &mut Dice, tool: &str, options: Vec<Vec<String>>) -> Vec<String> {
    let before = if dice.one_in(3) { dice.up_to(options.len()) } else { options.len() };
    let (front, back) = options.split_at(before);
    let mut words = front.concat();
    if back.is_empty() && dice.one_in(10) {
        words.push("--".into());
        words.push(tool.into());
        return words;
    }
    words.push(tool.into());
    words.extend(back.concat());
    if dice.one_in(20) {
        words.push("--".into());
    }
    words
}

fn raw(words: Vec<String>) -> Vec<OsString> {
    words.into_iter().map(OsString::from).collect()
}

/// Lawful words for a tool, with so many workers, any grain, and some settings more.
pub fn lawful_words(dice: &mut Dice, tool: Tool, workers: u64, more: &[Setting]) -> Vec<OsString> {
    let settings = [("--workers", workers), ("--grain", dice.pick(&GRAINS))].into_iter().chain(more.iter().copied());
    let options = settings.map(|(name, value)| spelled(dice, name, &value.to_string())).collect();
    raw(joined(dice, tool.name(), options))
}

const NAMES: [&str; 4] = ["--workers", "--grain", "--seed", "--size"];
const OTHER_NAMES: [&str; 9] = ["--work", "--Size", "-w", "-s", "---seed", "--help", "--version", "--map", "-"];
const VALUES: [&str; 24] = [
    "1", "1", "2", "4", "4", "64", "0", "65", "04", "+1", "-1", "", " 1", "1 ", "4294967296", "4294967297", "1000000", "1000001",
    "18446744073709551615", "18446744073709551616", "x", "-", "--", "1=1",
];
const OTHERS: [&str; 14] = ["", "MAP", "Interval", "maps", "ma", "help", "-h", "-V", "--help", "--version", "-", "--", "4", " map"];

/// Up to three options, most of them lawful.
fn any_options(dice: &mut Dice) -> Vec<Vec<String>> {
    let mut names = NAMES.to_vec();
    let mut options = Vec::new();
    for _ in 0..dice.pick(&[0, 1, 1, 2, 3]) {
        let name = if dice.one_in(10) { dice.pick(&OTHER_NAMES) } else { dice.pick(&names) };
        let value = if dice.one_in(3) { dice.pick(&VALUES) } else { "1" };
        options.push(spelled(dice, name, value));
        if !dice.one_in(10) {
            names.retain(|other| *other != name);
        }
    }
    options
}

/// Words that may be lawful or not.
pub fn any_words(dice: &mut Dice, tool: Tool) -> Vec<OsString> {
    let options = any_options(dice);
    let mut words = joined(dice, tool.name(), options);
    let at = dice.up_to(words.len());
    match dice.below(12) {
        0 => words.insert(at, dice.pick(&OTHERS).into()),
        1 => words.insert(at, dice.pick(&Tool::ALL).name().into()),
        2 if at < words.len() => drop(words.remove(at)),
        _ => {}
    }
    let mut words = raw(words);
    if dice.one_in(30) {
        words.insert(at.min(words.len()), OsString::from_vec(b"m\xffap".to_vec()));
    }
    words
}
