//! The operations of `root_bench` in plain Rust: a root by `RwLock<Arc<..>>`, and a log by a `Vec` behind an `Arc`.
//!
//! `root_baseline snapshots READERS COUNT` has a writer that publishes versions while each reader takes COUNT snapshots.
//! `root_baseline publishes READERS COUNT` has readers that take snapshots while a writer publishes COUNT versions.
//! `root_baseline pushes SIZE` and `root_baseline gets SIZE` fill a log and read it whole.
//! Each writes a checksum to standard output, and the nanoseconds that it took to standard error.
use bench_common::{parsed, report, words};
use std::sync::atomic::{AtomicBool, Ordering};
use std::sync::{Arc, RwLock};
use std::time::Instant;

struct Version {
    number: u64,
}

/// How many snapshots were taken, all in rising order.
fn read(root: &RwLock<Arc<Version>>, count: u64) -> u64 {
    let mut last = 0;
    let mut risen = 0;
    for _ in 0..count {
        let version = Arc::clone(&root.read().expect("no reader or writer panics"));
        if version.number >= last {
            risen += 1;
        }
        last = version.number;
    }
    risen
}

fn publish(root: &RwLock<Arc<Version>>, stop: &AtomicBool) {
    let mut number = 0;
    while !stop.load(Ordering::SeqCst) {
        number += 1;
        let version = Arc::new(Version { number });
        *root.write().expect("no reader or writer panics") = version;
        std::thread::yield_now();
    }
}

fn snapshots(readers: u64, count: u64) {
    let root = RwLock::new(Arc::new(Version { number: 0 }));
    let stop = AtomicBool::new(false);
    let start = Instant::now();
    let mut risen = 0;
    std::thread::scope(|scope| {
        scope.spawn(|| publish(&root, &stop));
        let handles: Vec<_> = (0..readers)
            .map(|_| scope.spawn(|| read(&root, count)))
            .collect();
        for handle in handles {
            risen += handle.join().expect("a reader ends");
        }
        stop.store(true, Ordering::SeqCst);
    });
    report(risen, start);
}

/// Publishes so many versions, and answers the number of the last one.
fn publish_all(root: &RwLock<Arc<Version>>, count: u64) -> u64 {
    for number in 1..=count {
        let version = Arc::new(Version { number });
        *root.write().expect("no reader or writer panics") = version;
    }
    root.read().expect("no reader or writer panics").number
}

fn publishes(readers: u64, count: u64) {
    let root = RwLock::new(Arc::new(Version { number: 0 }));
    let stop = AtomicBool::new(false);
    let start = Instant::now();
    let number = std::thread::scope(|scope| {
        for _ in 0..readers {
            scope.spawn(|| {
                while !stop.load(Ordering::SeqCst) {
                    read(&root, 1);
                }
            });
        }
        let number = publish_all(&root, count);
        stop.store(true, Ordering::SeqCst);
        number
    });
    report(number, start);
}

/// A log with one more item. The old one stays where it has another owner.
fn pushed(mut log: Arc<Vec<u64>>, item: u64) -> Arc<Vec<u64>> {
    Arc::make_mut(&mut log).push(item);
    log
}

/// Pushes while each 1000th log is kept, so that the push after it copies.
fn filled(size: u64) -> Arc<Vec<u64>> {
    let mut log = Arc::new(Vec::new());
    let mut kept = Arc::clone(&log);
    for item in 0..size {
        log = pushed(log, item);
        if item % 1000 == 0 {
            kept = Arc::clone(&log);
        }
    }
    assert!(kept.len() <= log.len());
    log
}

/// The sum of the items of a log.
fn sum_of(log: &[u64]) -> u64 {
    (0..log.len()).fold(0, |sum: u64, at| sum.wrapping_add(log[at]))
}

fn main() {
    let words = words();
    let number = |place: usize| parsed::<u64>(&words[place]);
    match words[0].as_str() {
        "snapshots" => snapshots(number(1), number(2)),
        "publishes" => publishes(number(1), number(2)),
        "pushes" => {
            let start = Instant::now();
            report(filled(number(1)).len() as u64, start);
        }
        "gets" => {
            let log = filled(number(1));
            let start = Instant::now();
            report(sum_of(&log), start);
        }
        other => panic!("no operation {other}"),
    }
}
