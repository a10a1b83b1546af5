//! Points in a sorted vector, and the same as a merge-sort tree.
use bench_common::{report, told, Checksum, Numbers};
use std::time::Instant;

/// Coordinates are below this.
const SIDE: u64 = 1_000_000;

/// Each end of a wide rectangle is less than this far from its side.
const MARGIN: u64 = 200_000;

/// A place by x and y, and its weight.
type Point = ((u64, u64), u64);

/// The least and the greatest coordinates of a rectangle.
pub struct Rect {
    xs: (u64, u64),
    ys: (u64, u64),
}

/// What the operations ask of a set of points.
pub trait Points {
    /// Of points in order, one for each place.
    fn of(points: Vec<Point>) -> Self;
    fn points(&self) -> &[Point];
    /// The saturating sum of the weights in a rectangle, and how many points it has.
    fn total(&self, rect: &Rect) -> (u64, u64);
}

/// Where the points of a sorted vector lie that are in the columns of a rectangle.
fn columns(points: &[Point], rect: &Rect) -> (usize, usize) {
    let start = points.partition_point(|point| point.0 .0 < rect.xs.0);
    (start, points.partition_point(|point| point.0 .0 <= rect.xs.1).max(start))
}

pub struct SortedPoints(Vec<Point>);

impl Points for SortedPoints {
    fn of(points: Vec<Point>) -> Self {
        SortedPoints(points)
    }

    fn points(&self) -> &[Point] {
        &self.0
    }

    fn total(&self, rect: &Rect) -> (u64, u64) {
        let (start, end) = columns(&self.0, rect);
        let inside = self.0[start..end].iter().filter(|point| rect.ys.0 <= point.0 .1 && point.0 .1 <= rect.ys.1);
        inside.fold((0, 0), |(sum, count), point| (sum.saturating_add(point.1), count + 1))
    }
}

/// The points of a run by y: each y, and the sum of the weights up to it.
type Level = Vec<(u64, u64)>;

/// Sorted points, and for runs of 2, 4, 8 .. of them their rows.
pub struct MergeTree {
    points: Vec<Point>,
    levels: Vec<Level>,
}

/// Two sorted runs as one.
fn merge(left: &[(u64, u64)], right: &[(u64, u64)], out: &mut Level) {
    let (mut i, mut j) = (0, 0);
    while i < left.len() && j < right.len() {
        if left[i].0 <= right[j].0 {
            out.push(left[i]);
            i += 1;
        } else {
            out.push(right[j]);
            j += 1;
        }
    }
    out.extend_from_slice(&left[i..]);
    out.extend_from_slice(&right[j..]);
}

/// The rows of runs twice as long.
fn next_level(level: &Level, length: usize) -> Level {
    let mut next = Vec::with_capacity(level.len());
    for pair in level.chunks(2 * length) {
        let (left, right) = pair.split_at(length.min(pair.len()));
        merge(left, right, &mut next);
    }
    next
}

/// Each weight in place of the sum of those up to it in its run.
fn summed(level: &mut Level, length: usize) {
    for run in level.chunks_mut(length) {
        let mut sum = 0;
        for row in run {
            sum += row.1;
            row.1 = sum;
        }
    }
}

/// The total of a run's rows.
fn total_of(run: &[(u64, u64)], ys: (u64, u64)) -> (u64, u64) {
    let start = run.partition_point(|row| row.0 < ys.0);
    let end = run.partition_point(|row| row.0 <= ys.1).max(start);
    let up_to = |place: usize| if place == 0 { 0 } else { run[place - 1].1 };
    (up_to(end) - up_to(start), (end - start) as u64)
}

impl Points for MergeTree {
    fn of(points: Vec<Point>) -> Self {
        let mut levels = vec![points.iter().map(|point| (point.0 .1, point.1)).collect::<Level>()];
        let mut length = 1;
        while length < points.len() {
            levels.push(next_level(&levels[levels.len() - 1], length));
            length *= 2;
        }
        levels.iter_mut().enumerate().for_each(|(height, level)| summed(level, 1 << height));
        MergeTree { points, levels }
    }

    fn points(&self) -> &[Point] {
        &self.points
    }

    fn total(&self, rect: &Rect) -> (u64, u64) {
        let (mut start, end) = columns(&self.points, rect);
        let (mut sum, mut count) = (0u64, 0);
        while start < end {
            let height = start.trailing_zeros().min((end - start).ilog2());
            let length = 1 << height;
            let run = &self.levels[height as usize][start..start + length];
            let (more, number) = total_of(run, rect.ys);
            sum = sum.saturating_add(more);
            count += number;
            start += length;
        }
        (sum, count)
    }
}

fn random(numbers: &mut Numbers, count: u64) -> Vec<Point> {
    (0..count).map(|_| ((numbers.below(SIDE), numbers.below(SIDE)), numbers.below(1000))).collect()
}

/// Points by place, of each place the last one.
fn in_order(mut points: Vec<Point>) -> Vec<Point> {
    points.sort_by_key(|point| point.0);
    points.dedup_by(|later, kept| {
        let is_same = later.0 == kept.0;
        if is_same {
            kept.1 = later.1;
        }
        is_same
    });
    points
}

fn checksum_of(points: &[Point]) -> u64 {
    let mut checksum = Checksum::default();
    for ((x, y), weight) in points {
        checksum.add(*x);
        checksum.add(*y);
        checksum.add(*weight);
    }
    checksum.sum()
}

pub fn at_once<P: Points>(numbers: &mut Numbers, size: u64) {
    let list = random(numbers, size);
    let start = Instant::now();
    let points = P::of(in_order(list.clone()));
    told(start, || checksum_of(points.points()));
}

/// The old points stay, as ours do.
pub fn added<P: Points>(numbers: &mut Numbers, size: u64) {
    let points = P::of(in_order(random(numbers, size)));
    let more = random(numbers, size);
    let start = Instant::now();
    let mut all = Vec::with_capacity(points.points().len() + more.len());
    all.extend_from_slice(points.points());
    all.extend_from_slice(&more);
    let all = P::of(in_order(all));
    told(start, || checksum_of(all.points()));
}

fn wide_rect(numbers: &mut Numbers) -> Rect {
    let last = SIDE - MARGIN;
    let mut ends = || (numbers.below(MARGIN), numbers.below(MARGIN) + last);
    Rect { xs: ends(), ys: ends() }
}

pub fn sum<P: Points>(numbers: &mut Numbers, size: u64) {
    let points = P::of(in_order(random(numbers, size)));
    let start = Instant::now();
    let mut checksum = Checksum::default();
    for _ in 0..size / 10 {
        let (sum, count) = points.total(&wide_rect(numbers));
        checksum.add(sum);
        checksum.add(count);
    }
    report(checksum.sum(), start);
}
