//! The fuzzer finds the faults of a stand-in, makes their scripts small and keeps them; and it finds none where there is none.
use std::path::PathBuf;
use std::process::{Command, Output};
use std::{env, fs};

/// What a run of the fuzzer came to: its status, and the scripts that it kept.
struct Found {
    status: Option<i32>,
    scripts: Vec<Vec<u8>>,
}

fn fuzzed(fault: &str, words: &[&str]) -> Found {
    let folder: PathBuf = env::temp_dir().join(format!("fuzzing_{}_{fault}", std::process::id()));
    let mut command = Command::new(env!("CARGO_BIN_EXE_fuzzing"));
    command.args(["--pam", env!("CARGO_BIN_EXE_stand_in"), "--seed", "1", "--jobs", "2", "--most", "1", "--keep"]).arg(&folder).args(words);
    if fault != "none" {
        command.env("STAND_IN_FAULT", fault);
    }
    let Output { status, stdout, stderr } = command.output().expect("the fuzzer starts");
    let files = fs::read_dir(&folder).into_iter().flatten().map(|file| file.expect("a file").path());
    let scripts = files.filter(|path| path.extension().is_some_and(|end| end == "csv")).map(|path| fs::read(path).expect("a script"));
    let found = Found { status: status.code(), scripts: scripts.collect() };
    let _ = fs::remove_dir_all(&folder);
    println!("{}{}", String::from_utf8_lossy(&stdout), String::from_utf8_lossy(&stderr));
    found
}

/// Whether a fault is found, and each kept script is as small as said.
fn finds(fault: &str, words: &[&str], longest: usize) {
    let found = fuzzed(fault, words);
    assert_eq!(found.status, Some(1), "{fault}");
    assert!(!found.scripts.is_empty(), "{fault}");
    for script in found.scripts {
        assert!(script.len() <= longest, "{fault}: {}", script.escape_ascii());
    }
}

#[test]
fn nothing_where_nothing_differs() {
    let found = fuzzed("none", &["--cases", "660"]);
    assert_eq!(found.status, Some(0));
    assert!(found.scripts.is_empty());
}

#[test]
fn a_sum_that_wraps() {
    finds("wraps", &["--tool", "map", "seq", "--cases", "4000"], 120);
}

#[test]
fn quotes_that_are_passed_over() {
    finds("quotes", &["--tool", "index", "graph", "--cases", "500"], 12);
}

#[test]
fn a_status() {
    finds("status", &["--tool", "interval", "--cases", "100"], 1);
}

#[test]
fn an_answer_that_depends_on_workers() {
    finds("workers", &["--tool", "points", "sample", "--cases", "100"], 10);
}

#[test]
fn a_read_that_sees_less_than_its_caller_has_seen() {
    finds("falls", &["--tool", "gserve", "--cases", "500"], 60);
}

#[test]
fn a_batch_that_is_served_twice() {
    finds("twice", &["--tool", "serve", "--cases", "100"], 25);
}

#[test]
fn a_check_that_calls_each_text_lawful() {
    finds("trusts", &["--tool", "check", "--cases", "200"], 5);
}

#[test]
fn a_run_that_does_not_end() {
    finds("hangs", &["--tool", "graph", "--cases", "50", "--limit", "0.4"], 200);
}

#[test]
fn a_word_on_standard_error() {
    finds("tells", &["--tool", "map", "--cases", "200"], 5);
}

#[test]
fn words_that_are_not_lawful_end_with_status_2() {
    assert_eq!(fuzzed("none", &["--tool", "maps"]).status, Some(2));
    assert_eq!(fuzzed("none", &["--pam", "nowhere", "--cases", "1"]).status, Some(2));
}
