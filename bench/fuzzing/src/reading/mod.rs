//! What docs/TOOLS.md says of words and records, read from that page alone.
mod faults;
mod records;
mod serving;
mod shapes;
mod tool;
mod words;

pub use faults::{fault, Code, Fault};
pub use records::{number, records, Record};
pub use serving::{Words, GSERVE, SERVE};
pub use shapes::{shapes, Kind, Shape};
pub use tool::Tool;
pub use words::{lawful, Lawful};
