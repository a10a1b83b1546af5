//! What the plain Rust of the benchmarks shares: seeded numbers, time, the words of a call, records, and what callers share.
mod fields;
mod merged;
mod numbers;
mod replies;
mod rounds;
mod served;
mod timed;
mod words;

pub use fields::{lines, number, pairs, records, Fields};
pub use merged::merged;
pub use numbers::{Checksum, Numbers};
pub use replies::{entry, line, list};
pub use rounds::{begun, order_lines, run_caller, run_round, Act, Input, Record, Shared};
pub use served::{answer, apply, last_line, op, query, totals, Op, Query};
pub use timed::{report, told};
pub use words::{input, parsed, words};
