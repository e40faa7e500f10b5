// Checks counted, and the program under test run on one input after another.

use std::fmt::Display;
use std::io::Write;
use std::iter;
use std::process::{Command, Stdio};
use std::sync::atomic::{AtomicUsize, Ordering};
use std::thread;

// Failures beyond these are counted and not shown.
const MOST_SHOWN: usize = 20;

#[derive(Default)]
pub struct Tally {
    passed: AtomicUsize,
    failed: AtomicUsize,
}

impl Tally {
    pub fn check(&self, holds: bool, says: impl FnOnce() -> String) {
        if holds {
            self.passed.fetch_add(1, Ordering::Relaxed);
        } else {
            let before = self.failed.fetch_add(1, Ordering::Relaxed);
            if before < MOST_SHOWN {
                println!("FAILED {}", says());
            }
        }
    }

    pub fn equal(&self, name: &str, found: &str, expected: &str) {
        self.check(found == expected, || format!("{name}: expected {}, found {}", shown(expected), shown(found)));
    }

    // The last line of every program, and its exit status.
    pub fn end(&self) -> ! {
        let failed = self.failed.load(Ordering::Relaxed);
        println!("{} passed, {} failed", self.passed.load(Ordering::Relaxed), failed);
        std::process::exit(if failed == 0 { 0 } else { 1 })
    }
}

fn shown(text: &str) -> String {
    format!("'{}'", text.trim_end().replace('\n', " | "))
}

pub fn hex(bytes: &[u8]) -> String {
    bytes.iter().map(|b| format!("{b:02x}")).collect()
}

// What a program prints on an input. A program may stop reading early; one that ends by a signal has not answered.
pub fn answer(program: &str, input: &[u8]) -> String {
    let started = Command::new(program).stdin(Stdio::piped()).stdout(Stdio::piped()).spawn();
    let mut child = match started {
        Ok(child) => child,
        Err(error) => return format!("(not started: {error})"),
    };
    let _ = child.stdin.take().expect("its input is a pipe").write_all(input);
    match child.wait_with_output() {
        Ok(output) if output.status.code().is_some() => String::from_utf8_lossy(&output.stdout).into_owned(),
        Ok(output) => format!("({})", output.status),
        Err(error) => format!("(no answer: {error})"),
    }
}

// Does a piece of work for each number below a count, on every processor.
pub fn for_each(count: usize, work: impl Fn(usize) + Sync) {
    let next = AtomicUsize::new(0);
    let workers = thread::available_parallelism().map_or(1, |n| n.get());
    thread::scope(|scope| {
        for _ in 0..workers {
            scope.spawn(|| {
                let numbers = iter::repeat_with(|| next.fetch_add(1, Ordering::Relaxed));
                numbers.take_while(|&i| i < count).for_each(&work);
            });
        }
    });
}

// An argument of the program, or the reason that it cannot run.
pub fn argument(at: usize, what: &str) -> String {
    std::env::args().nth(at).unwrap_or_else(|| {
        println!("argument {at} is missing: {what}");
        println!("0 passed, 1 failed");
        std::process::exit(2)
    })
}

pub fn number_argument(at: usize, what: &str) -> usize {
    argument(at, what).parse().expect(what)
}

// The first seed, if it is not 1.
pub fn seed_argument(at: usize) -> u64 {
    std::env::args().nth(at).map_or(1, |seed| seed.parse().expect("a seed"))
}

// How often something of a sort came up, so that agreement says something.
pub struct Sorts<K> {
    // A sort, how many jobs may go by for one of it, and how often it came.
    rows: Vec<(K, usize, AtomicUsize)>,
}

impl<K: Display + PartialEq> Sorts<K> {
    pub fn new(rows: impl IntoIterator<Item = (K, usize)>) -> Sorts<K> {
        Sorts { rows: rows.into_iter().map(|(sort, jobs)| (sort, jobs, AtomicUsize::new(0))).collect() }
    }

    pub fn add(&self, sort: K) {
        if let Some((_, _, count)) = self.rows.iter().find(|row| row.0 == sort) {
            count.fetch_add(1, Ordering::Relaxed);
        }
    }

    // Fewer jobs than many need not have all sorts.
    pub fn check(&self, tally: &Tally, jobs: usize, many: usize) {
        for (sort, part, count) in &self.rows {
            let count = count.load(Ordering::Relaxed);
            println!("{count} in {jobs} jobs: {sort}");
            tally.check(jobs < many || count * part >= jobs, || format!("{sort}: fewer than one in {part} jobs"));
        }
    }
}
