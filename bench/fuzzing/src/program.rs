//! Runs of the program under test.
use std::ffi::OsString;
use std::io::{self, Read, Write};
use std::path::PathBuf;
use std::process::{Child, Command, ExitStatus, Stdio};
use std::sync::{Mutex, MutexGuard};
use std::time::Duration;
use std::{fs, thread};

/// How a run ended, and what it wrote.
#[derive(Debug, PartialEq, Eq)]
pub struct Run {
    pub end: End,
    pub text: Vec<u8>,
    /// What it told on standard error.
    pub told: Vec<u8>,
}

#[derive(Debug, PartialEq, Eq)]
pub enum End {
    Status(u8),
    /// A signal or something else.
    Other(String),
    /// It was killed.
    Late(Late),
}

/// Why a run is killed.
#[derive(Clone, Copy, Debug, PartialEq, Eq)]
pub enum Late {
    /// None of its threads has worked for as long as the limit.
    Waits,
    /// It works, but has not ended in many times the limit.
    Works,
}

/// A run that has not ended yet.
struct Running {
    child: Child,
    /// How often it was looked at, and how often in a row it did not work then. The clock would go on where the machine stands still.
    looks: u32,
    idle: u32,
    late: Option<Late>,
}

/// The program, with the run of each job, so that late ones are killed. A run that other work keeps from the processors does not wait.
pub struct Program {
    path: PathBuf,
    limit: Duration,
    running: Vec<Mutex<Option<Running>>>,
}

/// How often the time of runs is looked at, and how long the end of one is waited for at a time.
const LOOK: Duration = Duration::from_millis(200);
const WAIT: Duration = Duration::from_micros(50);
const MANY: u32 = 20;

/// Whether a thread of a process works, or would if it had a processor, by what Linux tells of it.
fn works(process: u32) -> bool {
    let threads = fs::read_dir(format!("/proc/{process}/task")).into_iter().flatten().flatten();
    let mut told = threads.filter_map(|thread| fs::read_to_string(thread.path().join("stat")).ok());
    told.any(|stat| stat.rsplit(") ").next().is_some_and(|rest| rest.starts_with(['R', 'D'])))
}

impl Running {
    /// Kills it if it is late.
    fn look(&mut self, limit: Duration) {
        self.looks += 1;
        self.idle = if works(self.child.id()) { 0 } else { self.idle + 1 };
        self.late = match (LOOK * self.idle > limit, LOOK * self.looks > limit.saturating_mul(MANY)) {
            (true, _) => Some(Late::Waits),
            (_, true) => Some(Late::Works),
            _ => return,
        };
        // It may have ended by now.
        let _ = self.child.kill();
    }
}

impl Program {
    pub fn new(path: PathBuf, limit: Duration, jobs: usize) -> Program {
        Program { path, limit, running: (0..jobs).map(|_| Mutex::new(None)).collect() }
    }

    pub fn path(&self) -> String {
        self.path.display().to_string()
    }

    /// Runs the program for a job.
    pub fn run(&self, job: usize, words: &[OsString], input: &[u8]) -> io::Result<Run> {
        let mut command = Command::new(&self.path);
        command.args(words).stdin(Stdio::piped()).stdout(Stdio::piped()).stderr(Stdio::piped());
        let mut child = command.spawn()?;
        let pipes = (child.stdin.take(), child.stdout.take(), child.stderr.take());
        *self.slot(job) = Some(Running { child, looks: 0, idle: 0, late: None });
        let (Some(mut stdin), Some(mut stdout), Some(mut stderr)) = pipes else {
            unreachable!("all three are pipes");
        };
        // One that does not read it all ends before, and what it writes tells enough.
        let _ = stdin.write_all(input);
        drop(stdin);
        let (mut text, mut told) = (Vec::new(), Vec::new());
        stdout.read_to_end(&mut text)?;
        stderr.read_to_end(&mut told)?;
        Ok(Run { end: self.end(job)?, text, told })
    }

    fn slot(&self, job: usize) -> MutexGuard<'_, Option<Running>> {
        self.running[job].lock().expect("no job panics")
    }

    /// Waits for the end of a job's run, in short looks, between which it may be killed.
    fn end(&self, job: usize) -> io::Result<End> {
        loop {
            let mut slot = self.slot(job);
            let running = slot.as_mut().expect("a run");
            if let Some(status) = running.child.try_wait()? {
                let late = running.late;
                *slot = None;
                return Ok(late.map_or_else(|| End::of(status), End::Late));
            }
            drop(slot);
            thread::sleep(WAIT);
        }
    }

    /// Looks at all runs, and kills late ones, for as long as is said.
    pub fn watch(&self, goes_on: impl Fn() -> bool) {
        while goes_on() {
            for job in 0..self.running.len() {
                if let Some(running) = self.slot(job).as_mut() {
                    running.look(self.limit);
                }
            }
            thread::sleep(LOOK);
        }
    }
}

impl End {
    fn of(status: ExitStatus) -> End {
        match status.code().and_then(|code| u8::try_from(code).ok()) {
            Some(code) => End::Status(code),
            None => End::Other(status.to_string()),
        }
    }
}
