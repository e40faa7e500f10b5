// Any play from outside: the program plays on plays that fit and that do not, reached or not, against the second solver.
// Arguments: how many jobs, the program, and the first seed if not 1.

use sakonite_tests::cases::{Call, Case, MOST_LENT, Trial, input, line};
use sakonite_tests::faults::{alone, conditions, roomy, with_note};
use sakonite_tests::harness::{Sorts, Tally, answer, argument, for_each, hex, number_argument, seed_argument};
use sakonite_tests::jobs::Job;
use sakonite_tests::marked;
use sakonite_tests::numbers::*;
use sakonite_tests::random::{Drawn, Random};
use sakonite_tests::solver::{Move, PLACES, Play, all_replies, fetch_allowed, fits};
use sakonite_tests::vocabulary::{DATE, NOTE, codes_with_form};
use sakonite_tests::words::{code, empties, tower};

const MANY: usize = 100;
const CASES: usize = 60;

// Every part of 21 alone. Each play is one away from one that fits, which is tried too.
fn parts_of_21(trial: &Trial) {
    let job = with_note();
    let [advice, read, losing] = [Call::Advice, Call::Move(Move::Read), Call::Losing];
    let [fetch, fetch_nothing] = [vec![32], vec![]].map(|reply| Call::Move(Move::Fetch(reply)));
    let [third, fourth, last, end] = [3, 4, 5, 6].map(|reads| Play::after_reads(&job, reads));
    let misfits = [
        ("position beyond the record", &end, end.with(|p| p.position = 7)),
        ("the largest position", &end, end.with(|p| p.position = u32::MAX as usize)),
        ("position 2^16 on", &third, third.with(|p| p.position += 1 << 16)),
        ("state n", &third, third.with(|p| p.state = 3)),
        ("state 255", &end, end.with(|p| p.state = 255)),
        ("an element too few", &third, third.with(|p| (p.open, p.kept[0], p.marks[0]) = (0, 0, 0))),
        ("an element too many", &third, third.with(|p| (p.open, p.marks[1]) = (2, 2))),
        ("an element where none is open", &end, end.with(|p| p.open = 1)),
        ("five elements", &third, third.with(|p| p.open = 5)),
        ("255 elements", &third, third.with(|p| p.open = 255)),
        ("kept state n", &third, third.with(|p| p.kept[0] = 3)),
        ("second kept state n", &fourth, fourth.with(|p| p.kept[1] = 3)),
        ("kept state 255", &fourth, fourth.with(|p| p.kept[0] = 255)),
        ("a kept state unused", &third, third.with(|p| p.kept[1] = 1)),
        ("the last kept state unused", &end, end.with(|p| p.kept[3] = 1)),
        ("a mark unused", &third, third.with(|p| p.marks[1] = 2)),
        ("the last mark unused", &end, end.with(|p| p.marks[3] = 1)),
        ("a high byte of a mark unused", &end, end.with(|p| p.marks[2] = 1 << 24)),
        ("marks falling", &fourth, fourth.with(|p| p.marks[0] = 4)),
        ("a mark above the count", &third, third.with(|p| p.marks[0] = 4)),
        ("the last mark above the count", &fourth, fourth.with(|p| p.marks[1] = 5)),
        ("a mark far above the count", &fourth, fourth.with(|p| p.marks[1] = u32::MAX as usize)),
        ("a count below a mark", &third, third.with(|p| p.count = 1)),
        ("another position", &third, third.with(|p| p.position = 2)),
    ];
    for (name, play, wrong) in &misfits {
        trial.tally.check(fits(&job, play, None) && !fits(&job, wrong, None), || format!("{PLAY}: {name}"));
        let calls = [&advice, &read, &fetch, &fetch_nothing, &losing];
        trial.check_rows(name, &job, calls.map(|call| (Case::new(call, wrong, 100), PLAY)).to_vec());
        trial.check_rows(name, &job, vec![(Case::new(&losing, wrong, 0), PLAY)]);
    }
    // The buffer's part is for moves alone, and comes before 22 and 23.
    let [far, far_at_last] = [&fourth, &last].map(|play| play.with(|p| p.count = MOST_LENT));
    let farther = far.with(|p| p.count += 1);
    let rows = vec![
        (Case::new(&read, &third, 2), PLAY),
        (Case::new(&read, &third, 3), BUFFER),
        (Case::new(&read, &third, 4), ACCEPTED),
        (Case::new(&fetch, &third, 2), PLAY),
        (Case::new(&fetch, &third, 3), NO_FETCH),
        (Case::new(&read, &end, 5), PLAY),
        (Case::new(&read, &end, 6), AT_END),
        (Case::new(&fetch, &end, 6), AT_END),
        (Case::new(&read, &far, MOST_LENT - 1), PLAY),
        (Case::new(&read, &far, MOST_LENT), BUFFER),
        // More is asked for than is lent.
        (Case::new(&read, &far, u32::MAX as usize), BUFFER),
        (Case::new(&read, &farther, u32::MAX as usize), PLAY),
    ];
    trial.check_rows("the buffer's part of 21", &job, rows);
    // The losing reply, a date, goes into a buffer of its own, which is looked at last.
    let rows = vec![
        (Case::new(&losing, &end, 0), AT_END),
        (Case::new(&losing, &end, 100), AT_END),
        (Case::new(&losing, &third, 0), NO_FETCH),
        (Case::new(&losing, &fourth, 100), NO_FETCH),
        (Case::new(&losing, &far, 0), NO_FETCH),
        (Case::new(&losing, &farther, 0), NO_FETCH),
        (Case::new(&losing, &last, 0), LOSING_BUFFER),
        (Case::new(&losing, &last, 1), LOSING_BUFFER),
        (Case::new(&losing, &last, 2), LOSING + 2),
        (Case::new(&losing, &last, 3), LOSING + 2),
        (Case::new(&losing, &last, u32::MAX as usize), LOSING + 2),
        (Case::new(&losing, &far_at_last, 1), LOSING_BUFFER),
        (Case::new(&losing, &far_at_last, 2), LOSING + 2),
    ];
    trial.check_rows("the losing reply's buffer", &job, rows);
    let asked = [&third, &far, &farther].map(|play| Case::new(&advice, play, 0));
    trial.check("advice takes no buffer", &job, &asked, &[]);
    let equal = fourth.with(|p| p.marks = [4, 4, 0, 0]);
    let anywhere = fourth.with(|p| (p.count, p.marks) = (40, [7, 30, 0, 0]));
    let rows = [&equal, &anywhere].map(|play| (Case::new(&read, play, 100), ACCEPTED)).to_vec();
    trial.check_rows("equal marks as high as the count, marks anywhere below it", &job, rows);
}

// 18 at its bounds, with a form of any dates within each other, and 22 to 24 and 18, 19 in their order.
fn replies(trial: &Trial) {
    let job = roomy();
    let [start, first, last, end] = [0, 1, 5, 6].map(|reads| Play::after_reads(&job, reads));
    let fetch = |play: &Play, reply: &[u8], lent| Case::new(&Call::Move(Move::Fetch(reply.to_vec())), play, lent);
    let (bad, unlawful, long) = (&[DATE], &empties(&[NOTE]), &empties(&[DATE; MOST_TAGS / 2]));
    let deep = tower(DATE, DEEPEST_REPLY);
    let below = last.with(|p| (p.count, p.marks[0]) = (MOST_LENT, MOST_LENT - MOST_TAGS));
    let above = below.with(|p| p.marks[0] += 1);
    let rows = vec![
        (fetch(&last, &deep, 5_000), ACCEPTED),
        (fetch(&last, &tower(DATE, DEEPEST_REPLY + 1), 5_000), REPLY),
        (fetch(&last, long, 5_000), ACCEPTED),
        (fetch(&last, &empties(&[DATE; MOST_TAGS / 2 + 1]), 5_000), REPLY),
        (fetch(&last, &deep.repeat(MOST_TAGS / deep.len()), 5_000), ACCEPTED),
        (fetch(&last, &empties(&[DATE; 32_767]), 5_000), REPLY),
        (fetch(&last, &[0; 65_535], 5_000), REPLY),
        (fetch(&last, &[], 5), ACCEPTED),
        (fetch(&last, long, 2 + MOST_TAGS), ACCEPTED),
        (fetch(&last, long, 1 + MOST_TAGS), BUFFER),
        (fetch(&below, long, MOST_LENT), ACCEPTED),
        (fetch(&below, long, MOST_LENT + 1), ACCEPTED),
        (fetch(&above, long, MOST_LENT), BUFFER),
        (fetch(&above, long, MOST_LENT + 1), BUFFER),
        (fetch(&above, long, MOST_LENT - 1), PLAY),
        (fetch(&last, bad, 5), REPLY),
        (fetch(&last, unlawful, 5), UNLAWFUL),
        (fetch(&last, &empties(&[NOTE; 20]), 5), UNLAWFUL),
        (fetch(&last, &empties(&[DATE; 20]), 5), BUFFER),
        (fetch(&first, bad, 1), NO_FETCH),
        (fetch(&first, unlawful, 1), NO_FETCH),
        (fetch(&first, long, 1), NO_FETCH),
        (fetch(&start, unlawful, 0), NO_FETCH),
        (fetch(&end, bad, 6), AT_END),
    ];
    trial.check_rows("replies", &job, rows);
}

// A refused job gives its number for each case, and the play as it came.
fn refused_jobs(trial: &Trial) {
    const LARGE: usize = u32::MAX as usize;
    let marks = [LARGE, 0, 1, 2];
    let odd = Play { position: LARGE, state: 255, count: LARGE, open: 255, kept: [255; PLACES], marks };
    let calls = [Call::Advice, Call::Move(Move::Read), Call::Move(Move::Fetch(vec![32; 300])), Call::Losing];
    let mut cases = calls.map(|call| Case::new(&call, &odd, 7)).to_vec();
    cases.push(Case::new(&Call::Move(Move::Read), &Play::start(&with_note()), 7));
    let judge = |name: &str, file: &[u8], number| {
        let due: Vec<_> = cases.iter().map(|case| Some(case.says(number))).collect();
        trial.judge(name, file, &cases, &due);
    };
    for faulty in conditions().iter().map(alone) {
        judge(&faulty.name, &faulty.file, faulty.number);
    }
    for length in [0, SMALLEST_FILE - 1, LARGEST_FILE + 1, 100_000, 1_000_000] {
        judge(&format!("a job of {length} bytes"), &vec![6; length], FILE_SIZE);
    }
}

// Input that breaks off inside a case ends the program without a line for it, and so does a kind that is none.
fn broken_input(trial: &Trial) {
    let job = with_note();
    let [start, last] = [0, 5].map(|reads| Play::after_reads(&job, reads));
    let read = Case::new(&Call::Move(Move::Read), &start, 9);
    let fetch = Case::new(&Call::Move(Move::Fetch(empties(&[DATE; 3]))), &last, 9);
    let losing = Case::new(&Call::Losing, &last, 9);
    let replies = all_replies(&job, 100).expect("finite forms");
    let said = |case: &Case| line(&case.due(&job, &replies).expect("a short play")) + "\n";
    let cases = [read, losing, fetch];
    let (whole, bytes) = (input(&job.file(), &cases), cases.each_ref().map(Case::bytes));
    // Where each case ends.
    let ends = [0, 1, 2].map(|i| 4 + job.file().len() + bytes[..=i].concat().len());
    let says = |name: &str, bytes: &[u8], due: &str| trial.tally.equal(name, &answer(trial.program, bytes), due);
    for length in 0..=whole.len() {
        let due: String =
            cases.iter().zip(ends).filter(|&(_, end)| end <= length).map(|(case, _)| said(case)).collect();
        says(&format!("the first {length} bytes"), &whole[..length], &due);
    }
    for kind in [4, 32, 255] {
        let mut bytes = whole.clone();
        bytes[ends[0]] = kind;
        says(&format!("kind {kind}"), &bytes, &said(&cases[0]));
        bytes[4 + job.file().len()] = kind;
        says(&format!("kind {kind} first"), &bytes, "");
    }
    // Where the losing reply is asked for, a reply is read past.
    let [first, second, mut third] = bytes;
    third[0] = second[0];
    let bytes = [input(&job.file(), &[]), third, first].concat();
    says("the losing reply, with a reply", &bytes, &(said(&cases[1]) + &said(&cases[0])));
}

// A play with the right number of places for its position, and mostly right in the rest.
fn any_play(random: &mut Random, job: &Job) -> Play {
    let n = job.target.states as usize;
    let position = random.below(job.record.len() + 1);
    let mut play = random.play_at(job, position);
    if random.chance(20) {
        let place = random.below(PLACES);
        match random.below(6) {
            0 => play.position = random.below(job.record.len() + 3),
            1 => play.state = random.below(n + 2),
            2 => play.count = random.below(play.count + 1),
            3 => play.open = random.below(PLACES + 2),
            4 => play.kept[place] = random.below(n + 2),
            _ => play.marks[place] = random.below(play.count + 2),
        }
    }
    play
}

fn any_case(random: &mut Random, drawn: &Drawn) -> Case {
    let play = any_play(random, &drawn.job);
    let tag = drawn.job.record.get(play.position).copied().unwrap_or(0);
    let code = if fetch_allowed(tag) && random.chance(90) { code(tag) } else { random.pick(&codes_with_form()) };
    let mut reply = random.pick(&drawn.replies[&code]);
    if random.chance(20) {
        reply.extend(random.pick(&[vec![DATE], empties(&[NOTE]), vec![200]]));
    }
    let call = match random.below(4) {
        0 => Call::Advice,
        1 => Call::Move(Move::Read),
        2 => Call::Move(Move::Fetch(reply)),
        _ => Call::Losing,
    };
    let lent = match (&call, random.below(4)) {
        (Call::Losing, 0..2) => random.below(8),
        (_, 0) => random.below(play.count + 20),
        (_, 1) => play.count,
        _ => play.count + 100,
    };
    Case { call, play, lent }
}

fn main() {
    let jobs = number_argument(1, "how many jobs");
    let program = argument(2, "the program to run");
    let first = seed_argument(3);
    let tally = Tally::default();
    let trial = Trial { tally: &tally, program: &program };
    parts_of_21(&trial);
    replies(&trial);
    refused_jobs(&trial);
    broken_input(&trial);
    for p in marked::finite() {
        let plays = (0..=p.job.record.len()).map(|reads| Play::after_reads(&p.job, reads));
        let calls = [(Call::Advice, 0), (Call::Losing, 0), (Call::Losing, 2)];
        let asked: Vec<Case> =
            plays.flat_map(|play| calls.clone().map(|(call, lent)| Case::new(&call, &play, lent))).collect();
        trial.check(p.name, &p.job, &asked, &[]);
    }

    let answers: [(&str, &[u32]); 4] = [
        ("advice", &[LOST, READ, FETCH, IN_FORM, OUTSIDE, PLAY]),
        ("read", &[ACCEPTED, PLAY, AT_END, BUFFER]),
        ("fetch", &[ACCEPTED, REPLY, UNLAWFUL, PLAY, AT_END, NO_FETCH, BUFFER]),
        ("losing", &[NONE, LOSING, PLAY, AT_END, NO_FETCH, LOSING_BUFFER]),
    ];
    let rows = answers.iter().flat_map(|(call, numbers)| numbers.iter().map(move |number| format!("{call} {number}")));
    let sorts = Sorts::new(rows.map(|sort| (sort, 8)));
    for_each(jobs, |i| {
        let seed = first + i as u64;
        let mut random = Random::new(seed);
        let drawn = random.job();
        let file = drawn.job.file();
        let cases: Vec<Case> = (0..CASES).map(|_| any_case(&mut random, &drawn)).collect();
        let due: Vec<_> = cases.iter().map(|case| case.due(&drawn.job, &drawn.replies)).collect();
        cases.iter().zip(&due).for_each(|(case, due)| due.iter().for_each(|due| sorts.add(case.sort(due))));
        trial.judge(&format!("seed {seed}: {}", hex(&file)), &file, &cases, &due);
    });
    sorts.check(&tally, jobs, MANY);
    tally.end()
}
