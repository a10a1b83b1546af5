//! Random and hostile scripts for `pam`, and what it has to write, by plain Rust.
pub mod answers;
pub mod campaign;
pub mod compare;
pub mod dice;
pub mod kept;
pub mod making;
pub mod options;
pub mod program;
pub mod reading;
pub mod smaller;
