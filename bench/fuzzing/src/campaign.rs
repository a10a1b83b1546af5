//! Many cases, by jobs side by side.
use crate::compare::{call_fault, try_case, varies, Difference, Tried};
use crate::kept::keep;
use crate::making::{case, Subject};
use crate::options::Options;
use crate::program::Program;
use crate::smaller::smaller;
use std::io;
use std::sync::atomic::{AtomicBool, AtomicU64, Ordering};
use std::sync::{Mutex, MutexGuard};
use std::thread;
use std::time::{Duration, Instant};

/// What was done for one tool.
#[derive(Clone, Default)]
pub struct Count {
    pub cases: u64,
    /// Cases of which the words or a record are bad.
    pub bad: u64,
    pub calls: u64,
}

impl Count {
    fn add(&mut self, tried: &Tried) {
        self.cases += 1;
        self.bad += u64::from(tried.is_bad);
        self.calls += tried.calls;
    }
}

pub struct Done {
    pub counts: Vec<(Subject, Count)>,
    pub differences: usize,
    pub time: Duration,
}

struct Campaign<'a> {
    options: &'a Options,
    program: Program,
    start: Instant,
    next: AtomicU64,
    is_over: AtomicBool,
    done: Mutex<Done>,
}

/// How often a call is made anew whose answers vary, to see whether it still is answered otherwise.
const AGAIN: usize = 5;

impl Campaign<'_> {
    fn done(&self) -> MutexGuard<'_, Done> {
        self.done.lock().expect("no job panics")
    }

    /// The number of the next case, if there is to be one.
    fn next(&self) -> Option<u64> {
        let number = self.next.fetch_add(1, Ordering::Relaxed);
        let goes_on =
            number < self.options.cases && self.start.elapsed() < self.options.time && self.done().differences < self.options.most;
        goes_on.then_some(self.options.from + number)
    }

    fn run(&self, job: usize) -> io::Result<()> {
        while let Some(number) = self.next() {
            let subjects = &self.options.subjects;
            let at = (number % subjects.len() as u64) as usize;
            let tried = try_case(&self.program, job, case(self.options.seed, subjects[at], number))?;
            self.done().counts[at].1.add(&tried);
            if let Some(difference) = tried.difference {
                self.report(job, subjects[at], number, difference)?;
            }
        }
        Ok(())
    }

    /// Makes a difference smaller, keeps it and prints it.
    fn report(&self, job: usize, subject: Subject, number: u64, found: Difference) -> io::Result<()> {
        let again = if varies(&found.words) { AGAIN } else { 1 };
        let fault = |input: &[u8]| {
            let mut faults = (0..again).map(|_| call_fault(&self.program, job, &found.words, input));
            faults.find_map(|fault| fault.ok().flatten())
        };
        let input = match fault(&found.input) {
            Some(_) => smaller(found.input.clone(), |input| fault(input).is_some()),
            None => found.input.clone(),
        };
        let told = fault(&input).unwrap_or_else(|| format!("it did not come again, but was once: {}", found.told));
        let difference = Difference { words: found.words, input, told };
        let name = format!("{}-{}-{number}", subject.name(), self.options.seed);
        let told = keep(&self.options.keep, &name, &self.program.path(), &difference)?;
        self.done().differences += 1;
        println!("{name}: {told}");
        Ok(())
    }
}

/// Tries cases until as many or as much time as was said.
pub fn run(options: &Options) -> io::Result<Done> {
    let counts = options.subjects.iter().map(|subject| (*subject, Count::default())).collect();
    let campaign = Campaign {
        options,
        program: Program::new(options.pam.clone(), options.limit, options.jobs),
        start: Instant::now(),
        next: AtomicU64::new(0),
        is_over: AtomicBool::new(false),
        done: Mutex::new(Done { counts, differences: 0, time: Duration::ZERO }),
    };
    thread::scope(|scope| {
        scope.spawn(|| campaign.program.watch(|| !campaign.is_over.load(Ordering::Relaxed)));
        let campaign = &campaign;
        let jobs: Vec<_> = (0..options.jobs).map(|job| scope.spawn(move || campaign.run(job))).collect();
        let ended: Vec<_> = jobs.into_iter().map(|job| job.join()).collect();
        campaign.is_over.store(true, Ordering::Relaxed);
        ended.into_iter().try_for_each(|job| job.expect("no job panics"))
    })?;
    let mut done = campaign.done.into_inner().expect("no job panics");
    done.time = campaign.start.elapsed();
    Ok(done)
}
