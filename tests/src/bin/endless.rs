// Jobs with endless reply forms, which the second solver cannot list: the program against the plain C one, verdict and effects, and what
// short replies reach against the second solver, which lists those.
// Arguments: how many jobs, the program, the plain C program.

use sakonite_tests::harness::{Tally, answer, argument, for_each, hex, number_argument};
use sakonite_tests::jobs::Job;
use sakonite_tests::random::Random;
use sakonite_tests::solver::{effect, effect_line, replies_within};
use sakonite_tests::vocabulary::name;
use std::sync::atomic::{AtomicUsize, Ordering};

// The most tags of a short reply, and how long the second solver may take to list those of a form.
const SHORT: usize = 8;
const STEPS: usize = 10_000;

// The lines of a code with no state but those that short replies reach.
fn short_part(listing: &str, code: u8) -> String {
    let is_short =
        |word: &&str| word.split('/').nth(1).is_none_or(|tags| tags.parse().is_ok_and(|tags: usize| tags <= SHORT));
    let line = |words: &str| words.split(' ').filter(is_short).collect::<Vec<_>>().join(" ") + "\n";
    let start = format!("{} ", name(code));
    listing.lines().filter(|words| words.starts_with(&start)).map(line).collect()
}

// The same by the second solver, unless there are too many.
fn short_lines(job: &Job, code: u8) -> Option<String> {
    let replies = replies_within(&job.forms[&code], SHORT, STEPS)?;
    Some((0..job.target.states).map(|q| effect_line(code, q, &effect(job, &replies, q))).collect())
}

fn main() {
    let jobs = number_argument(1, "how many jobs");
    let program = argument(2, "the program to run");
    let plain = argument(3, "the plain C program");
    let tally = Tally::default();
    let (yes, listed) = (AtomicUsize::new(0), AtomicUsize::new(0));
    for_each(jobs, |i| {
        let seed = 2_000_000 + i as u64;
        let job = Random::new(seed).endless_job();
        let file = job.file();
        let expected = answer(&plain, &file);
        let found = answer(&program, &file);
        yes.fetch_add(expected.starts_with("verdict yes") as usize, Ordering::Relaxed);
        let title = format!("seed {seed}: {}", hex(&file));
        tally.check(expected.starts_with("verdict "), || format!("{title}: the plain program says {expected}"));
        tally.equal(&title, &found, &expected);
        for &code in job.forms.keys() {
            if let Some(lines) = short_lines(&job, code) {
                listed.fetch_add(1, Ordering::Relaxed);
                tally.equal(&format!("{title}: short replies"), &short_part(&found, code), &lines);
            }
        }
    });
    println!(
        "{} of {jobs} jobs yes, short replies of {} forms",
        yes.load(Ordering::Relaxed),
        listed.load(Ordering::Relaxed)
    );
    tally.end()
}
