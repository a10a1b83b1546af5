//! Compares `pam` with plain Rust on random and hostile scripts; `bench/fuzz` tells its words.
use fuzzing::campaign::{run, Done};
use fuzzing::options::Options;
use std::process::ExitCode;

/// What was done: cases by tool, and all in all.
fn print(options: &Options, done: &Done) {
    for (subject, count) in &done.counts {
        println!("{:9}{:8} cases, {} of them bad, {} calls", subject.name(), count.cases, count.bad, count.calls);
    }
    let total: u64 = done.counts.iter().map(|(_, count)| count.cases).sum();
    let seconds = done.time.as_secs_f64();
    println!(
        "seed {}: {total} cases in {seconds:.1} s by {} jobs, {:.0} a second, {} differences",
        options.seed,
        options.jobs,
        total as f64 / seconds,
        done.differences
    );
}

fn main() -> ExitCode {
    let options = match Options::read(std::env::args().skip(1)) {
        Ok(options) => options,
        Err(fault) => {
            eprintln!("{fault}");
            return ExitCode::from(2);
        }
    };
    println!("seed {}, {}, {} jobs; what differs is kept in {}", options.seed, options.pam.display(), options.jobs, options.keep.display());
    match run(&options) {
        Ok(done) => {
            print(&options, &done);
            ExitCode::from(u8::from(done.differences > 0))
        }
        Err(fault) => {
            eprintln!("{}: {fault}", options.pam.display());
            ExitCode::from(2)
        }
    }
}
