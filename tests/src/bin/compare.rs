// The program against the second solver: seeded random jobs with finite reply forms, and P1 to P9, verdict and effects.
// Arguments: how many jobs, the program, and the first seed if not 1.

use sakonite_tests::harness::{Sorts, Tally, answer, argument, for_each, hex, number_argument, seed_argument};
use sakonite_tests::marked;
use sakonite_tests::numbers::*;
use sakonite_tests::random::{Drawn, Random};
use sakonite_tests::solver::{all_replies, effect, listing, replies_at, verdict};
use sakonite_tests::vocabulary::fetchable;
use sakonite_tests::words::{Word, code, depth};
use std::slice;

const MANY: usize = 1_000;
const POSITIONS: usize = 1_000;

// A sort of jobs, how many jobs may go by for one of it, and which jobs are so.
type Sort = (&'static str, usize, fn(&Drawn) -> bool);

const SORTS: [Sort; 9] = [
    ("no", 3, |drawn| !drawn.yes),
    ("yes", 4, |drawn| drawn.yes),
    ("as deep as any", 8, |drawn| depth(&drawn.job.record) == DEEPEST_RECORD),
    ("a fetchable element around another", 4, |drawn| fetch_around_fetch(&drawn.job.record)),
    ("an empty reply lawful", 8, |drawn| asks(drawn, |words| words.contains(&vec![]))),
    ("an empty reply not lawful", 4, |drawn| asks(drawn, |words| !words.contains(&vec![]))),
    ("several replies lawful", 4, |drawn| asks(drawn, |words| words.len() > 1)),
    ("a state reached by replies of several lengths", 4, several_lengths),
    ("a choice turns on a reply", 40, |drawn| drawn.turning),
];

// Whether the record has a place to fetch where the lawful replies are so.
fn asks(drawn: &Drawn, so: fn(&[Word]) -> bool) -> bool {
    drawn.job.record.iter().any(|&tag| replies_at(&drawn.replies, tag).is_some_and(so))
}

// Whether replies of several lengths lead from one state to another, so that the least of them counts.
fn several_lengths(Drawn { job, replies, .. }: &Drawn) -> bool {
    let longer = |words: &[Word], q| {
        let least = effect(job, words, q);
        words.iter().any(|word| effect(job, slice::from_ref(word), q).iter().any(|(s, tags)| least[s] < *tags))
    };
    replies.values().any(|words| (0..job.target.states).any(|q| longer(words, q)))
}

// Whether a fetchable element has one within it: an outer fetch may then come after an inner one.
fn fetch_around_fetch(record: &[u8]) -> bool {
    let fetched: Word = record.iter().copied().filter(|&tag| fetchable(code(tag))).collect();
    depth(&fetched) > 1
}

fn main() {
    let jobs = number_argument(1, "how many jobs");
    let program = argument(2, "the program to run");
    let first = seed_argument(3);
    let tally = Tally::default();

    for p in marked::finite() {
        let replies = all_replies(&p.job, POSITIONS).expect("a finite form");
        let yes = verdict(&p.job, &replies, POSITIONS).expect("a short play");
        tally.check(yes == p.yes, || format!("{}: the second solver says {yes}", p.name));
        tally.equal(p.name, &answer(&program, &p.job.file()), &listing(&p.job, &replies, yes));
    }

    let sorts = Sorts::new(SORTS.map(|(sort, part, _)| (sort, part)));
    for_each(jobs, |i| {
        let seed = first + i as u64;
        let mut random = Random::new(seed);
        let drawn = random.job();
        SORTS.iter().filter(|(_, _, is_so)| is_so(&drawn)).for_each(|(sort, _, _)| sorts.add(sort));
        let file = drawn.job.file();
        let expected = listing(&drawn.job, &drawn.replies, drawn.yes);
        tally.equal(&format!("seed {seed}: {}", hex(&file)), &answer(&program, &file), &expected);
    });
    sorts.check(&tally, jobs, MANY);
    tally.end()
}
