//! The tools by their names.

#[derive(Clone, Copy, Debug, PartialEq, Eq)]
pub enum Tool {
    Map,
    Seq,
    Interval,
    Points,
    Index,
    Graph,
    Serve,
    Gserve,
    Check,
    Sample,
}

impl Tool {
    pub const ALL: [Tool; 10] = [
        Tool::Map,
        Tool::Seq,
        Tool::Interval,
        Tool::Points,
        Tool::Index,
        Tool::Graph,
        Tool::Serve,
        Tool::Gserve,
        Tool::Check,
        Tool::Sample,
    ];

    pub fn name(self) -> &'static str {
        match self {
            Tool::Map => "map",
            Tool::Seq => "seq",
            Tool::Interval => "interval",
            Tool::Points => "points",
            Tool::Index => "index",
            Tool::Graph => "graph",
            Tool::Serve => "serve",
            Tool::Gserve => "gserve",
            Tool::Check => "check",
            Tool::Sample => "sample",
        }
    }

    pub fn of_name(name: &str) -> Option<Tool> {
        Tool::ALL.into_iter().find(|tool| tool.name() == name)
    }
}
