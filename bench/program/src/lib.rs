//! The tools of `pam` in plain Rust over the collections of std, for lawful records without quotes.
pub mod check;
pub mod graph;
pub mod gserve;
pub mod index;
pub mod intervals;
pub mod points;
pub mod registers;
pub mod sample;
pub mod script;
pub mod seq;
