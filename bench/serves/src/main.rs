//! The operations of `serve_bench` in plain Rust: one map that callers share by a `Mutex`.
//!
//! `serves_baseline rounds threads` runs the rounds of the records on standard input, each caller that has records in a thread of its
//! own. With the word `alone` a caller runs in this thread where it is the only one of its round. `serves_baseline kept COUNT` keeps this
//! many clones of one map. Each writes the last line of the text to standard output and the nanoseconds to standard error.
mod kept;
mod rounds;

use bench_common::{parsed, words};
use rounds::Lone;

fn main() {
    let words = words();
    let words: Vec<&str> = words.iter().map(String::as_str).collect();
    match words[..] {
        ["rounds", "threads"] => rounds::time(Lone::Thread),
        ["rounds", "alone"] => rounds::time(Lone::Here),
        ["kept", count] => kept::time(parsed(count)),
        _ => panic!("no such operation"),
    }
}
