//! The tool interval over a `BTreeSet`, or by a scan of a sorted vector that the first question makes.
use bench_common::{line, list, number, records};
use std::collections::BTreeSet;

/// How questions find intervals.
#[derive(Clone, Copy)]
pub enum Way {
    Scan,
    Tree,
}

#[derive(Default)]
struct Intervals {
    tree: BTreeSet<(u64, u64)>,
    list: Option<Vec<(u64, u64)>>,
}

impl Intervals {
    fn change(&mut self) -> &mut BTreeSet<(u64, u64)> {
        self.list = None;
        &mut self.tree
    }

    /// The intervals that begin at most at `most` and end at least at `least`, in order, as far as they are asked for.
    fn hits(&mut self, way: Way, most: u64, least: u64) -> Box<dyn Iterator<Item = (u64, u64)> + '_> {
        match way {
            Way::Scan => {
                let list = self.list.get_or_insert_with(|| self.tree.iter().copied().collect());
                Box::new(list.iter().copied().take_while(move |i| i.0 <= most).filter(move |i| i.1 >= least))
            }
            Way::Tree => Box::new(self.tree.range(..=(most, u64::MAX)).copied().filter(move |i| i.1 >= least)),
        }
    }
}

/// The replies to a script.
pub fn run(input: &[u8], way: Way) -> Vec<u8> {
    let mut intervals = Intervals::default();
    let mut out = Vec::new();
    for record in records(input) {
        let at = |place: usize| number(record[place]);
        match record[0] {
            b"add" => {
                intervals.change().insert((at(1), at(2)));
                line(&mut out, "ok", [intervals.tree.len() as u64]);
            }
            b"del" => {
                intervals.change().remove(&(at(1), at(2)));
                line(&mut out, "ok", [intervals.tree.len() as u64]);
            }
            b"size" => line(&mut out, "size", [intervals.tree.len() as u64]),
            b"any" => {
                let found = intervals.hits(way, at(1), at(1)).next().is_some();
                line(&mut out, if found { "yes" } else { "no" }, []);
            }
            b"stab" => hits(&mut out, intervals.hits(way, at(1), at(1))),
            b"over" => hits(&mut out, intervals.hits(way, at(2), at(1))),
            _ => {}
        }
    }
    out
}

fn hits(out: &mut Vec<u8>, found: impl Iterator<Item = (u64, u64)>) {
    let found: Vec<_> = found.map(<[u64; 2]>::from).collect();
    list(out, "hits", found.into_iter());
}
