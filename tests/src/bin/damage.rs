// Random and mutated bytes for files and histories: only answers and numbers come out, those of the loader as the second solver has
// them, and nothing is written by a refusal or outside the buffer. Arguments: how many cases, and the first seed if not 1.

use sakonite_tests::harness::{Tally, for_each, hex, number_argument, seed_argument};
use sakonite_tests::jobs::Job;
use sakonite_tests::library::{self, Bytes};
use sakonite_tests::marked::{self, marked};
use sakonite_tests::numbers::*;
use sakonite_tests::random::Random;
use sakonite_tests::solver::{self, Move, fetch_allowed};
use sakonite_tests::vocabulary::{DATE, GETMATCH, GETPLACE, GETSAP, GETSPEC, NOTE};
use sakonite_tests::words::{element, empties};
use std::sync::atomic::{AtomicUsize, Ordering};

// The second solver's searches are given up after these.
const POSITIONS: usize = 2_000;

// Bytes with some changed, lost, added, moved or repeated.
fn mutated(random: &mut Random, from: &[u8]) -> Vec<u8> {
    let mut all = from.to_vec();
    for _ in 0..1 + random.below(4) {
        let at = random.below(all.len() + 1);
        let to = (at + random.below(20)).min(all.len());
        match random.below(8) {
            0 => all.truncate(at),
            1 => {
                all.drain(at..to);
            }
            2 => {
                let part = all[at..to].to_vec();
                all.splice(at..at, part);
            }
            3 => {
                let length = random.below(6);
                let part = random.bytes(length);
                all.splice(at..at, part);
            }
            _ if at < all.len() => {
                all[at] = match random.below(4) {
                    0 => random.byte(),
                    1 => all[at] ^ 1 << random.below(8),
                    2 => all[at].wrapping_add(1),
                    _ => random.pick(&[0, 1, 2, 3, MOVE_READ, MOVE_FETCH, 31, 255]),
                }
            }
            _ => {}
        }
    }
    all
}

// Small jobs, so that a call takes microseconds: the marked plays, and one with more to fetch.
fn pool() -> Vec<Job> {
    let mut all: Vec<Job> = marked().into_iter().map(|p| p.job).collect();
    let mut more = marked::job("P5");
    let deep = element(GETPLACE, &element(GETSAP, &element(GETSPEC, &empties(&[DATE]))));
    more.record = [deep, empties(&[GETMATCH, GETPLACE, DATE, GETMATCH])].concat();
    all.push(more);
    all
}

fn any_file(random: &mut Random, job: &Job) -> Vec<u8> {
    let sound = job.file();
    match random.below(20) {
        0 => {
            let least = SMALLEST_FILE;
            let length = random.pick(&[0, 1, least - 1, least, least + 1, 300, 3_000, LARGEST_FILE, LARGEST_FILE + 1]);
            random.bytes(length)
        }
        // The contents stand, the bodies do not.
        1 => {
            let after = random.bytes(sound.len() - SMALLEST_FILE);
            [&sound[..SMALLEST_FILE], &after].concat()
        }
        2..10 => mutated(random, &sound),
        _ => sound,
    }
}

// Moves that mostly suit the record, with replies that are sometimes lawful.
fn any_history(random: &mut Random, job: &Job) -> Vec<u8> {
    if random.chance(10) {
        let length = random.below(60);
        return random.bytes(length);
    }
    let (date, note) = (empties(&[DATE]), empties(&[NOTE]));
    let replies = [vec![], date.clone(), date, note, vec![DATE], vec![40]];
    let mut moves = vec![];
    for i in 0..random.below(job.record.len() + 2) {
        let may_fetch = job.record.get(i).is_some_and(|&tag| fetch_allowed(tag));
        let fetches = random.chance(if may_fetch { 60 } else { 2 });
        moves.push(if fetches { Move::Fetch(random.pick(&replies)) } else { Move::Read });
    }
    let all = solver::history(&moves);
    if random.chance(30) { mutated(random, &all) } else { all }
}

// One case, and whether it was answered.
fn judge(tally: &Tally, pool: &[Job], seed: u64) -> bool {
    let mut random = Random::new(seed);
    let job = random.pick(pool);
    let (file, history) = (any_file(&mut random, &job), any_history(&mut random, &job));
    let lend = if random.chance(50) { Bytes::heap } else { Bytes::page };
    let (lent_file, lent_history) = (lend(&file), lend(&history));
    let shown = || format!("seed {seed}: file {}, history {}", hex(&file[..file.len().min(1_000)]), hex(&history));

    // A refusal of the file, if there is one, is that of every entry.
    let refused = solver::check_entry(&file);
    let right = |number: u32, may_be: bool| if refused == ACCEPTED { may_be } else { number == refused };
    match random.below(4) {
        0 => {
            let found = library::check(&lent_file);
            tally.check(found == refused, || format!("{}: check is {found}, not {refused}", shown()));
        }
        1 => {
            let found = library::verdict(&lent_file);
            tally.check(right(found, found <= 1), || format!("{}: verdict is {found}", shown()));
        }
        _ => {}
    }
    if random.chance(50) {
        let found = library::advice(&lent_file, &lent_history);
        let no_moves = solver::moves(&history).is_err();
        let moves_refused = [REPLY, UNLAWFUL, AT_END, NO_FETCH].contains(&found);
        let may_be = if no_moves { found == HISTORY } else { found <= OUTSIDE || moves_refused };
        tally.check(right(found, may_be), || format!("{}: advice is {found}", shown()));
        return found <= OUTSIDE;
    }
    let length = random.pick(&[0, 1, 2, 8, 30, 200]);
    let lent = random.bytes(length);
    let (mut buffer, mut left) = (lent.clone(), lent.clone());
    let (found, due) = if random.chance(60) {
        let found = library::finished(&lent_file, &lent_history, &mut buffer);
        (found, Some(solver::finished_entry(&file, &history, &mut left)))
    } else {
        let found = library::losing(&lent_file, &lent_history, &mut buffer);
        (found, solver::losing_entry(&file, &history, &mut left, POSITIONS))
    };
    // The second solver cannot list the replies of endless forms.
    let Some(due) = due else { return true };
    tally.check(found == Some(due), || format!("{}: {length} bytes: {found:?}, not {due}", shown()));
    tally.check(buffer == left, || format!("{}: {length} bytes: {} is left", shown(), hex(&buffer)));
    tally.check(due >= FINISHED || buffer == lent, || format!("{}: a refusal wrote", shown()));
    due >= FINISHED || due == NONE
}

fn main() {
    let cases = number_argument(1, "how many cases");
    let first = seed_argument(2);
    let tally = Tally::default();
    let pool = pool();
    let answered = AtomicUsize::new(0);
    for_each(cases, |i| {
        answered.fetch_add(judge(&tally, &pool, first + i as u64) as usize, Ordering::Relaxed);
    });
    let answered = answered.load(Ordering::Relaxed);
    println!("{answered} of {cases} cases answered");
    // Enough get past every test, and enough do not.
    tally.check(10 * answered >= cases && 2 * answered <= cases, || format!("{answered} of {cases} cases answered"));
    tally.end()
}
