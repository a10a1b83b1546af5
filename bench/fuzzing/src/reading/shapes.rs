//! The records of the tools whose commands run one after another.
use super::Tool;

/// What stands in a field.
#[derive(Clone, Copy, Debug, PartialEq, Eq)]
pub enum Kind {
    Register,
    Key,
    /// The first end of a range, whose last one is the next field.
    Low,
    High,
    Value,
    LowValue,
    HighValue,
    /// A place in a list, or a count of items.
    Place,
    How,
    Term,
    Text,
}

use Kind::{High, HighValue, How, Key, Low, LowValue, Place, Register, Term, Text, Value};

/// A record: its verb, and what stands in the fields behind it.
pub struct Shape {
    pub verb: &'static str,
    pub first: &'static [Kind],
    /// What may be repeated behind these, and how often it stands there at least.
    pub group: &'static [Kind],
    pub least: usize,
    /// Whether the first field is an end that must not be greater than the next one.
    pub is_ordered: bool,
}

const fn fixed(verb: &'static str, first: &'static [Kind]) -> Shape {
    Shape { verb, first, group: &[], least: 0, is_ordered: false }
}

const fn ordered(verb: &'static str) -> Shape {
    Shape { verb, first: &[Low, High], group: &[], least: 0, is_ordered: true }
}

const fn many(verb: &'static str, first: &'static [Kind], group: &'static [Kind]) -> Shape {
    Shape { verb, first, group, least: 1, is_ordered: false }
}

const MAP: &[Shape] = &[
    fixed("put", &[Register, Key, Value]),
    fixed("del", &[Register, Key]),
    fixed("get", &[Register, Key]),
    fixed("size", &[Register]),
    fixed("sum", &[Register, Low, High]),
    fixed("fold", &[Register]),
    fixed("max", &[Register, Low, High]),
    fixed("rank", &[Register, Key]),
    fixed("select", &[Register, Place]),
    fixed("next", &[Register, Key]),
    fixed("prev", &[Register, Key]),
    fixed("list", &[Register, Low, High]),
    fixed("count", &[Register, LowValue, HighValue]),
    fixed("copy", &[Register, Register]),
    fixed("clear", &[Register]),
    Shape { verb: "build", first: &[Register], group: &[Key, Value], least: 0, is_ordered: false },
    many("mput", &[Register], &[Key, Value]),
    many("mdel", &[Register], &[Key]),
    fixed("union", &[Register, Register, Register, How]),
    fixed("inter", &[Register, Register, Register, How]),
    fixed("diff", &[Register, Register, Register]),
    fixed("cat", &[Register, Register, Register]),
    fixed("below", &[Register, Register, Key]),
    fixed("above", &[Register, Register, Key]),
    fixed("slice", &[Register, Register, Low, High]),
    fixed("atleast", &[Register, Register, Value]),
    fixed("filter", &[Register, Register, LowValue, HighValue]),
];

const SEQ: &[Shape] = &[
    many("push", &[Register], &[Value]),
    fixed("append", &[Register, Register, Register]),
    fixed("take", &[Register, Register, Place]),
    fixed("skip", &[Register, Register, Place]),
    fixed("reverse", &[Register, Register]),
    fixed("set", &[Register, Place, Value]),
    fixed("at", &[Register, Place]),
    fixed("fold", &[Register, Place, Place]),
    fixed("list", &[Register, Place, Place]),
    fixed("size", &[Register]),
];

const INTERVAL: &[Shape] =
    &[ordered("add"), ordered("del"), fixed("size", &[]), fixed("any", &[Key]), fixed("stab", &[Key]), ordered("over")];

const POINTS: &[Shape] = &[
    many("add", &[], &[Key, Key, Value]),
    many("del", &[], &[Key, Key]),
    fixed("size", &[]),
    fixed("sum", &[Low, High, Low, High]),
    fixed("list", &[Low, High, Low, High]),
];

const INDEX: &[Shape] = &[
    fixed("doc", &[Key, Text]),
    many("and", &[], &[Term]),
    many("or", &[], &[Term]),
    fixed("without", &[Term, Term]),
    fixed("top", &[Place, Term]),
];

const GRAPH: &[Shape] = &[
    many("add", &[], &[Key, Key]),
    many("cut", &[], &[Key, Key]),
    fixed("keep", &[]),
    fixed("size", &[]),
    fixed("degree", &[Key]),
    fixed("now", &[Key]),
    fixed("bfs", &[Place, Key]),
    fixed("comp", &[]),
];

/// The records of a tool; none where callers are served, and where nothing is read.
pub fn shapes(tool: Tool) -> &'static [Shape] {
    match tool {
        Tool::Map => MAP,
        Tool::Seq => SEQ,
        Tool::Interval => INTERVAL,
        Tool::Points => POINTS,
        Tool::Index => INDEX,
        Tool::Graph => GRAPH,
        Tool::Serve | Tool::Gserve | Tool::Check | Tool::Sample => &[],
    }
}
