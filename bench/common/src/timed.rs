//! What an operation tells.
use std::time::Instant;

/// Writes the answer to standard output, and to standard error the nanoseconds since a start.
pub fn report(sum: u64, start: Instant) {
    let taken = start.elapsed().as_nanos();
    println!("{sum}");
    eprintln!("{taken}");
}

/// Writes the nanoseconds since a start to standard error, and to standard output what is then found of what was made.
pub fn told(start: Instant, found: impl FnOnce() -> u64) {
    let taken = start.elapsed().as_nanos();
    println!("{}", found());
    eprintln!("{taken}");
}
