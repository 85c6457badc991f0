//! What a test has met, counted by name, and the work of a test on all processors. A test that
//! meets little passes easily, so each says by name what it must have met, and how often.

use std::collections::BTreeMap;
use std::fmt;
use std::io::Write;
use std::sync::atomic::{AtomicU32, Ordering};
use std::thread;

/// Faults told in words; all are counted.
const SHOWN: usize = 10;

/// How often something was met, by its name; and what went wrong.
#[derive(Default)]
pub struct Counts {
    times: BTreeMap<String, u32>,
    faults: usize,
    shown: Vec<String>,
}

impl Counts {
    pub fn count(&mut self, name: &str, times: u32) {
        match self.times.get_mut(name) {
            Some(counted) => *counted += times,
            None => {
                self.times.insert(name.to_string(), times);
            }
        }
    }

    /// Counts something that went wrong, told in words.
    pub fn fault(&mut self, told: impl FnOnce() -> String) {
        self.faults += 1;
        if self.shown.len() < SHOWN {
            self.shown.push(told());
        }
    }

    pub fn get(&self, name: &str) -> u32 {
        self.times.get(name).copied().unwrap_or(0)
    }

    /// Checks that each of these was met so often or more.
    pub fn expect(&self, times: u32, names: &[impl AsRef<str>]) {
        for name in names {
            let name = name.as_ref();
            let counted = self.get(name);
            assert!(counted >= times, "{name}: only {counted} times");
        }
    }

    /// Checks that nothing else was met.
    pub fn expect_nothing_but(&self, names: &[impl AsRef<str>]) {
        let others = self.times.keys();
        let others: Vec<&String> = others
            .filter(|other| !names.iter().any(|name| name.as_ref() == other.as_str()))
            .collect();
        assert!(others.is_empty(), "met, and not expected: {others:?}");
    }

    /// Checks that nothing went wrong.
    pub fn expect_no_fault(&self) {
        assert!(
            self.faults == 0,
            "{} faults: {:#?}",
            self.faults,
            self.shown
        );
    }

    /// Prints a line for each name. Not by print!, which a test that passes keeps to itself.
    pub fn print(&self, title: &str) {
        write!(std::io::stdout(), "\n{title}\n{self}").expect("standard output takes the lines");
    }

    fn add(&mut self, other: Counts) {
        for (name, times) in other.times {
            self.count(&name, times);
        }
        self.faults += other.faults;
        self.shown.extend(other.shown);
        self.shown.truncate(SHOWN);
    }
}

impl fmt::Display for Counts {
    fn fmt(&self, out: &mut fmt::Formatter) -> fmt::Result {
        let longest = self.times.keys().map(String::len).max();
        let width = longest.unwrap_or(0).max(36);
        let mut all = self.times.iter();
        all.try_for_each(|(name, times)| writeln!(out, "{name:<width$}{times:>10}"))
    }
}

/// So many jobs, each told by its number, on all processors; what they counted together.
pub fn on_all_processors(jobs: u32, one: impl Fn(u32, &mut Counts) + Sync) -> Counts {
    let left = Left {
        next: AtomicU32::new(0),
        end: jobs,
    };
    let work = || {
        let guard = Guard(&left);
        let mut counts = Counts::default();
        while let Some(number) = guard.0.take() {
            one(number, &mut counts);
        }
        counts
    };
    let mut counts = Counts::default();
    thread::scope(|scope| {
        let threads = thread::available_parallelism().map_or(1, |count| count.get());
        let workers: Vec<_> = (0..threads).map(|_| scope.spawn(work)).collect();
        for worker in workers {
            counts.add(worker.join().expect("a job failed, as said above"));
        }
    });
    counts
}

/// The numbers of the jobs still to come, which the threads share.
struct Left {
    next: AtomicU32,
    end: u32,
}

impl Left {
    fn take(&self) -> Option<u32> {
        let number = self.next.fetch_add(1, Ordering::Relaxed);
        (number < self.end).then_some(number)
    }
}

/// Ends the other threads too when one fails.
struct Guard<'a>(&'a Left);

impl Drop for Guard<'_> {
    fn drop(&mut self) {
        if thread::panicking() {
            self.0.next.store(self.0.end, Ordering::Relaxed);
        }
    }
}
