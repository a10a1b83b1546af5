//! The tool points over a `BTreeMap`, whose range of x is walked.
use bench_common::{line, list, number, pairs, records};
use std::collections::BTreeMap;

type Points = BTreeMap<(u64, u64), u64>;

fn inside(points: &Points, x1: u64, x2: u64, y1: u64, y2: u64) -> Vec<(u64, u64, u64)> {
    if x1 > x2 {
        return Vec::new();
    }
    let columns = points.range((x1, 0)..=(x2, u64::MAX));
    let rows = columns.filter(|(place, _)| y1 <= place.1 && place.1 <= y2);
    rows.map(|(place, weight)| (place.0, place.1, *weight)).collect()
}

/// The replies to a script.
pub fn run(input: &[u8]) -> Vec<u8> {
    let mut points = Points::new();
    let mut out = Vec::new();
    for record in records(input) {
        let within = |points: &Points| inside(points, number(record[1]), number(record[2]), number(record[3]), number(record[4]));
        match record[0] {
            b"add" => {
                for point in record[1..].chunks_exact(3) {
                    points.insert((number(point[0]), number(point[1])), number(point[2]));
                }
                line(&mut out, "ok", []);
            }
            b"del" => {
                for place in pairs(&record[1..]) {
                    points.remove(&place);
                }
                line(&mut out, "ok", []);
            }
            b"size" => line(&mut out, "size", [points.len() as u64]),
            b"sum" => {
                let found = within(&points);
                let total = found.iter().fold(0u64, |sum, point| sum.saturating_add(point.2));
                line(&mut out, "sum", [total, found.len() as u64]);
            }
            b"list" => {
                let found = within(&points);
                list(&mut out, "points", found.into_iter().map(<[u64; 3]>::from));
            }
            _ => {}
        }
    }
    out
}
