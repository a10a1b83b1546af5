//! Scripts that show a difference.
use crate::compare::Difference;
use std::ffi::{OsStr, OsString};
use std::os::unix::ffi::OsStrExt;
use std::path::Path;
use std::{fs, io};

/// A word as bash reads it.
fn quoted(word: &OsStr) -> String {
    let is_plain = |byte: &u8| byte.is_ascii_alphanumeric() || b"-_=./".contains(byte);
    let bytes = word.as_bytes();
    match !bytes.is_empty() && bytes.iter().all(is_plain) {
        true => bytes.escape_ascii().to_string(),
        false => format!("$'{}'", bytes.escape_ascii()),
    }
}

fn line(program: &str, words: &[OsString], script: &Path) -> String {
    let words: Vec<String> = words.iter().map(|word| quoted(word)).collect();
    format!("{} {} < {}", quoted(OsStr::new(program)), words.join(" "), quoted(script.as_os_str()))
}

/// Keeps the script of a difference as NAME.csv in a folder, and what it shows as NAME.txt. Answers the latter.
pub fn keep(folder: &Path, name: &str, program: &str, difference: &Difference) -> io::Result<String> {
    fs::create_dir_all(folder)?;
    let script = folder.join(format!("{name}.csv"));
    fs::write(&script, &difference.input)?;
    let told = format!("{}\n{}\n", line(program, &difference.words, &script), difference.told);
    fs::write(folder.join(format!("{name}.txt")), &told)?;
    Ok(told)
}
