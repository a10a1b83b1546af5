//! The operations of `library_bench` in plain Rust, over the collections of std.
//!
//! `libraries_baseline OPERATION SIZE SEED [WAY]` writes the checksum of the operation's answer to standard output and the
//! nanoseconds that it took, without making its input, to standard error. Of points a WAY says how they are kept: `sorted` or `tree`.
mod documents;
mod graphs;
mod intervals;
mod points;
mod spans;

use bench_common::{parsed, words, Numbers};
use points::{MergeTree, SortedPoints};

fn main() {
    let words = words();
    let words: Vec<&str> = words.iter().map(String::as_str).collect();
    let size = parsed(words[1]);
    let mut numbers = Numbers::new(parsed(words[2]));
    let numbers = &mut numbers;
    match (words[0], words.get(3).copied()) {
        ("intervals_at_once", None) => intervals::at_once(numbers, size),
        ("intervals_added", None) => intervals::added(numbers, size),
        ("intervals_stab", None) => intervals::stab(numbers, size),
        ("spans_at_once", None) => spans::at_once(numbers, size),
        ("spans_inserted", None) => spans::inserted(numbers, size),
        ("spans_overlapping", None) => spans::overlapping(numbers, size),
        ("points_at_once", Some("sorted")) => points::at_once::<SortedPoints>(numbers, size),
        ("points_at_once", Some("tree")) => points::at_once::<MergeTree>(numbers, size),
        ("points_added", Some("sorted")) => points::added::<SortedPoints>(numbers, size),
        ("points_added", Some("tree")) => points::added::<MergeTree>(numbers, size),
        ("points_sum", Some("sorted")) => points::sum::<SortedPoints>(numbers, size),
        ("points_sum", Some("tree")) => points::sum::<MergeTree>(numbers, size),
        ("docs_added", None) => documents::added(numbers, size),
        ("docs_top", None) => documents::top(numbers, size),
        ("edges_at_once", None) => graphs::at_once(numbers, size),
        ("edges_in_batches", None) => graphs::in_batches(numbers, size),
        ("edges_held", None) => graphs::held(numbers, size),
        ("bfs", None) => graphs::bfs(numbers, size),
        ("path", None) => graphs::path(numbers, size),
        other => panic!("no operation {other:?}"),
    }
}
