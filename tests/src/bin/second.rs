// The second solver against itself: what it says of plays by the words spelled and by what a play holds, and of each refusal of a move.

use sakonite_tests::faults::with_note;
use sakonite_tests::harness::{Tally, for_each};
use sakonite_tests::jobs::Job;
use sakonite_tests::marked::job;
use sakonite_tests::numbers::*;
use sakonite_tests::random::{Drawn, Random};
use sakonite_tests::solver::*;
use sakonite_tests::vocabulary::{DATE, GETMATCH, GETSPEC, NOTE};
use sakonite_tests::words::{closing, code, element, empties, tower};

const POSITIONS: usize = 200_000;

fn advice_in_p8(tally: &Tally) {
    let p8 = job("P8");
    let replies = all_replies(&p8, POSITIONS).expect("finite forms");
    let inner = Play::after_reads(&p8, 2);
    let said = play_advice(&p8, &inner, &replies, POSITIONS);
    tally.check(said == Some(Ok(READ)), || format!("P8: advice at the inner closing tag is {said:?}"));
}

fn sizes_of_replies(tally: &Tally) {
    let check = |name: &str, reply: Vec<u8>, passes| {
        tally.check(small_and_nested(&reply) == passes, || format!("{REPLY}: {name}"));
    };
    check("64 deep", tower(DATE, DEEPEST_REPLY), true);
    check("65 deep", tower(DATE, DEEPEST_REPLY + 1), false);
    check("4,096 tags", empties(&[DATE; MOST_TAGS / 2]), true);
    check("4,098 tags", empties(&[DATE; MOST_TAGS / 2 + 1]), false);
    check("byte 32", vec![32], false);
    check("crossed", vec![DATE, NOTE, closing(DATE), closing(NOTE)], false);
    check("empty", vec![], true);
    let endless = &job("P10").forms[&GETSPEC];
    let long = |matches| [empties(&[DATE]), empties(&vec![GETMATCH; matches])].concat();
    tally.check(lawful(endless, &long(MOST_TAGS / 2 - 1)), || "4,096 tags of P10's form".to_string());
    tally.check(!lawful(endless, &long(MOST_TAGS / 2 - 1)[2..]), || "4,094 tags, the date missing".to_string());
    tally.check(longest_reply(endless).is_none(), || "P10's form has no longest reply".to_string());
}

// Where several conditions hold, the earliest in the order of SPEC 7.3 decides.
fn refusals_of_moves(tally: &Tally) {
    let job = Job { record: with_note().record, ..job("P5") };
    let (date, bad, unlawful) = (empties(&[DATE]), vec![DATE], empties(&[NOTE]));
    let check = |name: &str, play: &Play, step: Move, length: usize, expected: u32| {
        let lent: Vec<u8> = (0..length as u8).collect();
        let mut buffer = lent.clone();
        let number = play_move(&job, play, &step, &mut buffer).err().unwrap_or(ACCEPTED);
        tally.check(number == expected, || format!("{name}: expected {expected}, found {number}"));
        tally.check(number == ACCEPTED || buffer == lent, || format!("{name}: a refusal wrote"));
    };
    let fetch = |reply: &[u8]| Move::Fetch(reply.to_vec());
    let [first, third, fourth, last, end] = [1, 3, 4, 5, 6].map(|reads| Play::after_reads(&job, reads));
    check("read", &first, Move::Read, 2, ACCEPTED);
    check("read, buffer too short", &first, Move::Read, 1, BUFFER);
    check("read, buffer below the count", &first, Move::Read, 0, PLAY);
    check("read at the end", &end, Move::Read, 9, AT_END);
    check("read at the end, no room", &end, Move::Read, 6, AT_END);
    check("read at the end, buffer below the count", &end, Move::Read, 5, PLAY);
    check("fetch at the end of what is no reply", &end, fetch(&bad), 9, AT_END);
    check("fetch at an opening tag", &Play::start(&job), fetch(&date), 9, NO_FETCH);
    check("fetch of a note", &first, fetch(&date), 9, NO_FETCH);
    check("fetch of a note, no reply", &first, fetch(&bad), 9, NO_FETCH);
    check("fetch of a note, no room", &first, fetch(&unlawful), 1, NO_FETCH);
    check("fetch", &last, fetch(&date), 5, ACCEPTED);
    check("fetch of the empty reply", &last, fetch(&[]), 5, ACCEPTED);
    check("fetch, ill nested", &last, fetch(&bad), 5, REPLY);
    check("fetch, unlawful", &last, fetch(&unlawful), 5, UNLAWFUL);
    check("fetch, unlawful and long", &last, fetch(&empties(&[NOTE; 20])), 5, UNLAWFUL);
    check("fetch, 65 deep", &last, fetch(&tower(NOTE, DEEPEST_REPLY + 1)), 5, REPLY);
    check("fetch, buffer below the count", &last, fetch(&bad), 4, PLAY);

    let misfits = [
        ("position beyond the record", third.with(|p| p.position = 7)),
        ("state n", third.with(|p| p.state = 3)),
        ("an element too few", third.with(|p| p.open = 0)),
        ("an element too many", third.with(|p| p.open = 2)),
        ("five elements", third.with(|p| p.open = 5)),
        ("kept state n", third.with(|p| p.kept[0] = 3)),
        ("an unused kept state", third.with(|p| p.kept[1] = 1)),
        ("an unused mark", third.with(|p| p.marks[3] = 1)),
        ("a mark above the count", third.with(|p| p.marks[0] = 4)),
        ("a count below a mark", third.with(|p| p.count = 1)),
        ("another position", third.with(|p| p.position = 2)),
    ];
    for (name, play) in &misfits {
        tally.check(!fits(&job, play, None), || format!("{PLAY}, advice: {name}"));
        check(name, play, Move::Read, 9, PLAY);
        check(name, play, fetch(&bad), 9, PLAY);
    }
    check("marks falling", &fourth.with(|p| p.marks[0] = 4), Move::Read, 9, PLAY);
    check("equal marks, as high as the count", &fourth.with(|p| p.marks = [4, 4, 0, 0]), Move::Read, 9, ACCEPTED);
}

fn histories(tally: &Tally) {
    let bad: [&[u8]; 7] =
        [&[0], &[0x1f], &[0x22], &[MOVE_READ, 0xff], &[MOVE_FETCH], &[MOVE_FETCH, 0], &[MOVE_FETCH, 1, 0]];
    for bytes in bad {
        tally.check(moves(bytes) == Err(HISTORY), || format!("{HISTORY}: {bytes:?}"));
    }
    let long = vec![Move::Read, Move::Fetch(vec![]), Move::Fetch(vec![MOVE_FETCH; 300]), Move::Read];
    tally.check(moves(&history(&long)) == Ok(long), || "a history read back".to_string());
    let file = job("P5").file();
    let fetched = history(&[Move::Read, Move::Fetch(empties(&[DATE])), Move::Read, Move::Read]);
    let advice = |name: &str, history: &[u8], expected| {
        let said = advice_entry(&file, history, POSITIONS);
        tally.check(said == Some(expected), || format!("{name}: {said:?}"));
    };
    advice("P5, start", &[], READ);
    advice("P5, place", &[MOVE_READ], FETCH);
    advice("P5, place fetched", &fetched[..6], READ);
    advice("P5, match left", &fetched, IN_FORM);
    advice("P5, all read", &[MOVE_READ; 4], OUTSIDE);
    advice("P5, too many reads", &[MOVE_READ; 5], AT_END);
    advice("P5, no history after a refused move", &[&[MOVE_READ; 5][..], &[0]].concat(), HISTORY);
    let mut buffer = [0xee; 6];
    let said = finished_entry(&file, &fetched, &mut buffer);
    let right = said == FINISHED + 4 && buffer[..4] == empties(&[DATE, GETMATCH]) && buffer[4..] == [0xee; 2];
    tally.check(right, || format!("P5, finished: {said} {buffer:?}"));
    let mut short = [0xee; 3];
    let said = finished_entry(&file, &fetched, &mut short);
    tally.check(said == BUFFER && short == [0xee; 3], || format!("P5, finished in three bytes: {said} {short:?}"));
}

// The losing reply in P5 and P6, and its refusals in their order. The replies are listed by hand where they are to be long.
fn losing_replies(tally: &Tally) {
    let (p5, p6) = (job("P5"), job("P6"));
    let date = || Some(empties(&[DATE]));
    let check = |name: &str, job: &Job, play: &Play, replies: &Replies, length: usize, expected| {
        let found = play_losing(job, play, replies, POSITIONS, length);
        tally.check(found == Some(expected), || format!("{name}: {found:?}"));
    };
    for (name, job, reads, length, expected) in [
        ("P5, an opening tag", &p5, 0, 0, Err(NO_FETCH)),
        ("P5, the place", &p5, 1, 0, Ok(None)),
        ("P5, the match", &p5, 3, 2, Ok(date())),
        ("P5, the match, one byte", &p5, 3, 1, Err(LOSING_BUFFER)),
        ("P5, the end", &p5, 4, 0, Err(AT_END)),
        ("P6, the match", &p6, 1, 9, Ok(date())),
        ("P6, the place", &p6, 3, 0, Ok(Some(vec![]))),
    ] {
        let replies = all_replies(job, POSITIONS).expect("finite forms");
        check(name, job, &Play::after_reads(job, reads), &replies, length, expected);
    }
    let last = Play::after_reads(&p5, 3);
    let listed = |words: &[&[u8]]| Replies::from([(GETMATCH, words.iter().map(|word| word.to_vec()).collect())]);
    let (full, long) = (empties(&[NOTE; MOST_TAGS / 2]), empties(&[DATE; MOST_TAGS / 2 + 1]));
    check("4,096 tags", &p5, &last, &listed(&[&long, &full]), MOST_TAGS, Ok(Some(full.clone())));
    check("4,096 tags, a byte short", &p5, &last, &listed(&[&full, &long]), MOST_TAGS - 1, Err(LOSING_BUFFER));
    check("4,098 tags", &p5, &last, &listed(&[&long]), MOST_TAGS + 2, Err(LOSING_LONG));
    check("4,098 tags, no buffer", &p5, &last, &listed(&[&long]), 0, Err(LOSING_LONG));
    let misfit = last.with(|p| p.state = 3);
    check("a play that does not fit", &p5, &misfit, &listed(&[&long]), 0, Err(PLAY));
    // Fewest tags, then byte order: an opening tag is before every closing tag.
    let (within, beside) = (element(DATE, &empties(&[NOTE])), empties(&[DATE, NOTE]));
    let longer = empties(&[0, 0, 0]);
    for words in [[&longer[..], &beside, &within], [&within, &beside, &longer]] {
        check("child and sibling", &p5, &last, &listed(&words), 9, Ok(Some(within.clone())));
    }
    check("codes", &p5, &last, &listed(&[&empties(&[NOTE]), &empties(&[DATE])]), 9, Ok(date()));
    let file = p5.file();
    let mut buffer = [0xee; 3];
    let said = losing_entry(&file, &[MOVE_READ; 3], &mut buffer, POSITIONS);
    let right = said == Some(LOSING + 2) && buffer == [DATE, closing(DATE), 0xee];
    tally.check(right, || format!("P5, losing: {said:?} {buffer:?}"));
    let entry = |name: &str, history: &[u8], expected| {
        let mut buffer = [0xee; 1];
        let said = losing_entry(&file, history, &mut buffer, POSITIONS);
        tally.check(said == Some(expected) && buffer == [0xee], || format!("{name}: {said:?} {buffer:?}"));
    };
    entry("P5, none", &[MOVE_READ], NONE);
    entry("P5, a byte short", &[MOVE_READ; 3], LOSING_BUFFER);
    entry("P5, no fetch", &[], NO_FETCH);
    entry("P5, the end", &[MOVE_READ; 4], AT_END);
    entry("P5, a move too many", &[MOVE_READ; 5], AT_END);
    entry("P5, no history", &[0], HISTORY);
    entry("P5, an unlawful reply", &history(&[Move::Read, Move::Fetch(empties(&[NOTE]))]), UNLAWFUL);
}

// A word with something changed, so that it is seldom lawful.
fn near(random: &mut Random, word: &[u8]) -> Vec<u8> {
    let mut word = word.to_vec();
    if random.chance(50) || word.is_empty() {
        word.extend(empties(&[random.pick(&[DATE, NOTE, GETMATCH])]));
    } else if word.len() >= 2 {
        word = word[1..word.len() - 1].to_vec();
    }
    word
}

// Plays a job at random, or by advice from some point on, on words and on what the play holds side by side.
fn play(tally: &Tally, seed: u64, drawn: &Drawn, random: &mut Random) {
    let Drawn { job, replies, yes, .. } = drawn;
    let mut words: Search<Spelling> = Search::new(job, replies, POSITIONS);
    let mut play = Play::start(job);
    let mut spelling = Spelling::default();
    let mut buffer = vec![0xee; 300];
    let mut history_so_far = vec![];
    let obedient = random.chance(50);
    let mut won = *yes;
    loop {
        let Some(advice) = words.advice(&spelling) else { return };
        let held = play_advice(job, &play, replies, POSITIONS);
        tally.check(held == Some(Ok(advice)), || format!("seed {seed}: advice {advice} by words, {held:?} as held"));
        if job.record.get(spelling.position).is_some_and(|&tag| fetch_allowed(tag)) {
            let Some(losing) = words.losing(&spelling) else { return };
            let held = play_losing(job, &play, replies, POSITIONS, MOST_TAGS);
            tally.check(held == Some(Ok(losing.clone())), || format!("seed {seed}: {losing:?} loses, {held:?} as held"));
            // Advised is a fetch that nothing loses.
            tally.check(advice != FETCH || losing.is_none(), || format!("seed {seed}: {losing:?} loses what is advised"));
            let after = losing.map(|reply| words.advice(&spelling.after(job, &Move::Fetch(reply))));
            let lost = after.is_none_or(|said| said == Some(LOST) || said == Some(OUTSIDE));
            tally.check(lost, || format!("seed {seed}: {after:?} after what loses"));
        }
        tally.check(!won || ![LOST, OUTSIDE].contains(&advice), || {
            format!("seed {seed}: advice was followed and led to {advice}")
        });
        if spelling.position == job.record.len() {
            break;
        }
        won = advice != LOST;
        let tag = job.record[spelling.position];
        let reply = replies_at(replies, tag).map(|possible| random.pick(possible));
        let step = match (reply, advice) {
            (Some(reply), FETCH) if obedient => Move::Fetch(reply),
            (Some(reply), _) if !obedient && random.chance(50) => Move::Fetch(reply),
            _ => Move::Read,
        };
        won = won && (obedient || advice == if step == Move::Read { READ } else { FETCH });
        if let Move::Fetch(reply) = &step {
            let form = &job.forms[&code(tag)];
            let other = near(random, reply);
            let listed = replies[&code(tag)].contains(&other);
            tally.check(lawful(form, reply), || format!("seed {seed}: {reply:?} is listed and not lawful"));
            tally.check(lawful(form, &other) == listed, || format!("seed {seed}: {other:?}, listed {listed}"));
        }
        play = match play_move(job, &play, &step, &mut buffer) {
            Ok(play) => play,
            Err(number) => return tally.check(false, || format!("seed {seed}: {step:?} is {number}")),
        };
        spelling = spelling.after(job, &step);
        history_so_far.push(step);
        let same = play.position == spelling.position
            && play.count == spelling.word.len()
            && play.marks[..play.open] == spelling.notes
            && buffer[..play.count] == spelling.word;
        tally.check(same, || format!("seed {seed}: {play:?} for {spelling:?}"));
    }
    let mut lent = vec![0xee; 300];
    let said = finished_entry(&job.file(), &history(&history_so_far), &mut lent);
    tally.check(said == FINISHED + spelling.word.len() as u32 && lent == buffer, || {
        format!("seed {seed}: finished is {said}")
    });
}

const JOBS: usize = 300;

fn main() {
    let tally = Tally::default();
    advice_in_p8(&tally);
    sizes_of_replies(&tally);
    refusals_of_moves(&tally);
    histories(&tally);
    losing_replies(&tally);
    for_each(JOBS, |i| {
        let seed = 1_000_000 + i as u64;
        let mut random = Random::new(seed);
        let drawn = random.job();
        for _ in 0..3 {
            play(&tally, seed, &drawn, &mut random);
        }
    });
    tally.end()
}
