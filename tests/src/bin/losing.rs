// The losing reply from outside, by the program any_play: replies about the bound of 4,096 tags, replies that are as short as others,
// finite forms against the second solver, endless forms against the plain C program and the short replies that the second solver lists.
// Arguments: the program, the plain C program, how many random jobs, and the first seed if not 1. Or: `write` and a folder, for files of
// jobs with the longest replies there are, each with a history.

use sakonite_tests::cases::{Call, Case, Due, MOST_LENT, Trial, input};
use sakonite_tests::counted::{Counted, Made, counted_jobs};
use sakonite_tests::harness::{Sorts, Tally, answer, argument, for_each, hex, number_argument, seed_argument};
use sakonite_tests::jobs::{Form, Job, Target, all_forms};
use sakonite_tests::marked::target_d;
use sakonite_tests::numbers::*;
use sakonite_tests::random::Random;
use sakonite_tests::solver::{
    Held, Move, Play, Position, Search, all_replies, fetch_allowed, in_form, lawful, replies_within,
};
use sakonite_tests::vocabulary::{DATE, GETMATCH, NOTE, name};
use sakonite_tests::words::{Word, code, element, empties, is_opening, only_tags, tower, well_nested};
use std::collections::{BTreeSet, HashMap};
use std::path::Path;
use std::slice;

const POSITIONS: usize = 20_000;
const MANY: usize = 40;

// ---- counted replies

// The reply for which a job was made, in buffers about its length, and before and after the element.
fn judge_made(trial: &Trial, counted: &Counted, made: &Made) {
    let job = counted.lost_by(made);
    let title = format!("{}: code {} from {} to {}", counted.name, made.code, made.from, made.to);
    let led = Target { accepting: 1 << made.to, ..job.target.clone() };
    let right = made.reply.len() == made.tags && well_nested(&made.reply) && in_form(&led, &made.reply);
    trial.tally.check(right, || format!("{title}: {} tags were made", made.reply.len()));
    let is_lawful = lawful(&job.forms[&made.code], &made.reply);
    trial.tally.check(is_lawful, || format!("{title}: not lawful"));

    let [start, element, end] = [0, 1, 2].map(|reads| Play::after_reads(&job, reads));
    let ask = |play: &Play, lent| Case::new(&Call::Losing, play, lent);
    let (tags, most) = (made.tags, MOST_TAGS);
    let lengths = BTreeSet::from([0, tags.saturating_sub(1), tags, tags + 1, most - 1, most, MOST_LENT]);
    let mut cases: Vec<Case> = lengths.into_iter().map(|lent| ask(&element, lent)).collect();
    let due = |case: &Case| match made.loses(case.lent) {
        Ok(reply) => Some(case.gives(reply.clone())),
        Err(number) => Some(case.says(number)),
    };
    let mut all_due: Vec<Option<Due>> = cases.iter().map(due).collect();
    for (play, lent, number) in [(&start, 0, NO_FETCH), (&start, most, NO_FETCH), (&end, 0, AT_END)] {
        let case = ask(play, lent);
        all_due.push(Some(case.says(number)));
        cases.push(case);
    }
    trial.judge(&title, &job.file(), &cases, &all_due);
}

fn bounds(trial: &Trial) {
    for counted in counted_jobs() {
        for_each(counted.made_for.len(), |i| judge_made(trial, &counted, &counted.made_for[i]));
    }
}

// ---- replies that are as short as others

// A getmatch with this form, before its closing tag, and the losing reply.
fn judge_form(trial: &Trial, title: &str, target: Target, form: &Form, reply: &[u8]) {
    let job = Job { target, forms: all_forms(form), record: empties(&[GETMATCH]) };
    let case = Case::new(&Call::Losing, &Play::after_reads(&job, 1), MOST_TAGS);
    trial.judge(title, &job.file(), slice::from_ref(&case), &[Some(case.gives(reply.to_vec()))]);
    if let Some(replies) = all_replies(&job, POSITIONS) {
        let found = case.due(&job, &replies).expect("a short play").reply;
        trial.tally.check(found.as_deref() == Some(reply), || format!("{title}: the second solver says {found:?}"));
    }
}

// The first of these words loses the play, in whatever order the rules are; so do the others.
fn judge_words(trial: &Trial, title: &str, words: &[Word]) {
    let nothing_accepted = Target::all_to(1, 0);
    let mut backwards = words.to_vec();
    backwards.reverse();
    for words_listed in [words, &backwards] {
        judge_form(trial, title, nothing_accepted.clone(), &Form::of(words_listed), &words[0]);
    }
}

// Counts the elements of a word, however they stand. Outside the form is one number.
fn counting(elements: u8) -> Target {
    let last = MOST_STATES - 1;
    let mut target = Target { accepting: !(1 << elements), ..Target::all_to(MOST_STATES, last) };
    for q in 0..last {
        target.opening[q as usize].fill(q + 1);
        target.closing[q as usize].iter_mut().for_each(|row| row.fill(q));
    }
    target
}

fn ties(trial: &Trial) {
    let last = 15;
    let words = |title: &str, words: &[Word]| judge_words(trial, title, words);
    words("the first byte", &[empties(&[0]), empties(&[DATE]), empties(&[last])]);
    words("the first byte, though a later one is larger", &[empties(&[0, last]), empties(&[1, 0])]);
    words("the last byte where words can differ", &[empties(&[DATE, DATE, 0]), empties(&[DATE, DATE, last])]);
    words("a byte in the middle", &[element(DATE, &empties(&[0])), element(DATE, &empties(&[last]))]);
    words("a child, then a sibling", &[element(DATE, &empties(&[NOTE])), empties(&[DATE, NOTE])]);
    words("the last code as a child", &[element(0, &empties(&[last])), empties(&[0, 0])]);
    words("the first code, then a child", &[empties(&[0, last]), element(1, &empties(&[0]))]);
    words("fewer tags, then bytes", &[empties(&[last]), empties(&[0, 0])]);
    words("the empty reply", &[vec![], empties(&[0]), empties(&[0, 0])]);
    words("only one", &[element(DATE, &tower(NOTE, 2))]);

    // Of target D's two states that are not lost one is in the form: the shortest reply, or the first, need not lose.
    let form = |title: &str, target: Target, form: &Form, reply: &[u8]| judge_form(trial, title, target, form, reply);
    let d = target_d();
    form("a note and not a date", d.clone(), &Form::of(&[empties(&[DATE]), empties(&[NOTE])]), &empties(&[NOTE]));
    let dates = [empties(&[DATE]), empties(&[DATE, DATE]), empties(&[NOTE, DATE])];
    form("two dates and not one", d.clone(), &Form::of(&dates[..2]), &dates[1]);
    form("two dates and not one, nor a note", d, &Form::of(&dates), &dates[1]);

    // All forests of as many elements are as short: the first has every opening tag before the first closing tag.
    let two_codes = |from: u8, to: u8, kept: u8| {
        let opening = [NOTE, DATE].map(|c| [from, c, to, kept]);
        let closing = [NOTE, DATE].map(|c| [to, kept, c, from]);
        (opening, closing)
    };
    let mut any = Form::nothing();
    let (opening, closing) = two_codes(0, 0, 0);
    any.opening.extend(opening);
    any.closing.extend(closing);
    for elements in [1, 2, 3, 7, 30] {
        form("any forest", counting(elements), &any, &tower(DATE, elements as usize));
    }
    // Within two levels the second is filled at once.
    let mut levels = Form { accepting: 1, ..Form::new(3, 0) };
    for level in 0..2 {
        let (opening, closing) = two_codes(level, level + 1, level);
        levels.opening.extend(opening);
        levels.closing.extend(closing);
    }
    for elements in [2, 3, 7, 30] {
        form("two levels", counting(elements), &levels, &element(DATE, &empties(&vec![DATE; elements as usize - 1])));
    }
    // One element of another code: as late as it can be where its code is later, first where it is earlier.
    let one_other = |code: u8, other: u8| {
        let opening = vec![[0, code, 2, 0], [1, code, 3, 1], [0, other, 3, 0]];
        let closing = vec![[2, 0, code, 0], [3, 1, code, 1], [3, 0, other, 1]];
        Form { accepting: 0b10, opening, closing, ..Form::new(4, 0) }
    };
    for elements in [1, 2, 3, 30] {
        let others = vec![DATE; elements as usize - 1];
        form(
            "a note among dates",
            counting(elements),
            &one_other(DATE, NOTE),
            &empties(&[&others[..], &[NOTE]].concat()),
        );
        form("a project among dates", counting(elements), &one_other(DATE, 0), &empties(&[&[0], &others[..]].concat()));
    }
}

// None whatever the buffer, and the empty reply in a buffer of no bytes.
fn no_bytes(trial: &Trial) {
    let mut job =
        Job { target: Target::all_to(1, 0), forms: all_forms(&Form::nothing()), record: empties(&[GETMATCH]) };
    let play = Play::after_reads(&job, 1);
    let cases = [0, 1, MOST_LENT].map(|lent| Case::new(&Call::Losing, &play, lent));
    trial.check("the empty reply", &job, &cases, &[LOSING; 3]);
    job.target.accepting = 1;
    trial.check("none", &job, &cases, &[NONE; 3]);
}

// ---- finite forms

// The play at a place to fetch, as reads lead there or as no moves need to.
fn any_play(random: &mut Random, job: &Job, position: usize) -> Play {
    if random.chance(50) { Play::after_reads(job, position) } else { random.play_at(job, position) }
}

// The positions before tags where a fetch is allowed.
fn places(job: &Job) -> Vec<usize> {
    (0..job.record.len()).filter(|&i| fetch_allowed(job.record[i])).collect()
}

// What sort of answer it is where these words lose the play.
fn sorts_of(losing: &[Word]) -> Vec<&'static str> {
    let Some(first) = losing.first() else { return vec!["none"] };
    let mut sorts = vec![match first.len() {
        0 => "the empty reply",
        1..6 => "a reply",
        _ => "a reply of 6 tags or more",
    }];
    if let Some(next) = losing.get(1).filter(|next| next.len() == first.len()) {
        let at = (0..first.len()).find(|&i| first[i] != next[i]).expect("different words");
        sorts.push(if is_opening(next[at]) { "another code would do" } else { "a child and a sibling would do" });
        if at > 0 {
            sorts.push("as another up to some byte");
        }
        if at + 2 == first.len() {
            sorts.push("as another up to the last byte where words can differ");
        }
    }
    sorts
}

const PLAYS: usize = 10;

fn finite(trial: &Trial, sorts: &Sorts<&str>, seed: u64) {
    let mut random = Random::new(seed);
    let (job, replies) = random.crowded_job();
    let file = job.file();
    let places = places(&job);
    let mut search: Search<Held> = Search::new(&job, &replies, POSITIONS);
    let (mut cases, mut due) = (vec![], vec![]);
    for _ in 0..PLAYS {
        let position = random.pick(&places);
        let play = any_play(&mut random, &job, position);
        let Some(losing) = search.all_losing(&play.held()) else { continue };
        sorts_of(&losing).into_iter().for_each(|sort| sorts.add(sort));
        let tags = losing.first().map_or(0, |reply| reply.len());
        let lent = random.pick(&[0, tags.saturating_sub(1), tags, tags, tags + 1, MOST_LENT]);
        let case = Case::new(&Call::Losing, &play, lent);
        due.push(case.due(&job, &replies));
        cases.push(case);
    }
    trial.judge(&format!("seed {seed}: {}", hex(&file)), &file, &cases, &due);
}

// ---- endless forms

// The most tags of a short reply, and how long the second solver may take to list those of a form.
const SHORT: usize = 6;
const STEPS: usize = 3_000;

// How many plays of a job are judged by listed replies.
const LISTED: usize = 6;

// The number of a line, and the reply, if it ends with one.
fn read_line(line: &str) -> Option<(u32, Option<Word>)> {
    let mut words = line.split(' ');
    let number = words.next()?.parse().ok()?;
    let byte = |digits: &[u8]| u8::from_str_radix(str::from_utf8(digits).ok()?, 16).ok();
    let reply = words.nth(12).map(|digits| digits.as_bytes().chunks(2).map(byte).collect::<Option<Word>>());
    Some((number, reply.map_or(Some(None), |word| word.map(Some))?))
}

// A play with what was said of it, and the short lawful replies that come before what was said.
struct Said<'a> {
    play: &'a Play,
    reply: Option<Word>,
    before: Vec<Word>,
}

impl Said<'_> {
    fn held_after(&self, job: &Job, reply: &Word) -> Held {
        self.play.held().after(job, &Move::Fetch(reply.clone()))
    }
}

// Whether plays that hold this are lost, or outside the form, by the program's advice.
fn lost(trial: &Trial, job: &Job, asked: &[Held]) -> Vec<bool> {
    let plays = asked.iter().map(|held| Play::from(held, 0, &vec![0; held.kept.len()]));
    let cases: Vec<Case> = plays.map(|play| Case::new(&Call::Advice, &play, 0)).collect();
    let printed = answer(trial.program, &input(&job.file(), &cases));
    let advice = printed.lines().filter_map(|line| Some(read_line(line)?.0));
    advice.map(|said| [LOST, OUTSIDE].contains(&said)).collect()
}

// What was said loses the play, and no reply before it does, as far as the second solver lists them.
fn judge_listed(trial: &Trial, title: &str, job: &Job, all: &[Said]) {
    let mut asked = vec![];
    let mut places = HashMap::new();
    for said in all {
        for reply in said.reply.iter().chain(&said.before) {
            let held = said.held_after(job, reply);
            places.entry(held.clone()).or_insert_with(|| {
                asked.push(held);
                asked.len() - 1
            });
        }
    }
    let lost = lost(trial, job, &asked);
    trial.tally.check(lost.len() == asked.len(), || format!("{title}: {} lines of advice", lost.len()));
    let loses = |said: &Said, reply: &Word| lost.get(places[&said.held_after(job, reply)]) == Some(&true);
    for said in all {
        if let Some(reply) = &said.reply {
            trial.tally.check(loses(said, reply), || format!("{title}: {:?}: {reply:?} does not lose it", said.play));
        }
        let earlier = said.before.iter().find(|reply| loses(said, reply));
        trial.tally.check(earlier.is_none(), || format!("{title}: {:?}: {earlier:?} loses it too", said.play));
    }
}

fn endless(trial: &Trial, plain: &str, sorts: &Sorts<&str>, seed: u64) {
    let mut random = Random::new(seed);
    let job = if random.chance(20) { random.endless_job() } else { random.job_to_lose() };
    let title = format!("seed {seed}: {}", hex(&job.file()));
    let mut plays: Vec<Play> = vec![];
    for position in places(&job) {
        plays.push(Play::after_reads(&job, position));
        plays.push(random.play_at(&job, position));
    }
    let cases: Vec<Case> = plays.iter().map(|play| Case::new(&Call::Losing, play, MOST_LENT)).collect();
    let bytes = input(&job.file(), &cases);
    let (found, expected) = (answer(trial.program, &bytes), answer(plain, &bytes));
    trial.tally.check(found.lines().count() == plays.len(), || format!("{title}: {found}"));
    let mut all = vec![];
    for ((play, found), expected) in plays.iter().zip(found.lines()).zip(expected.lines()) {
        trial.tally.equal(&title, found, expected);
        let Some((number, reply)) = read_line(found) else { continue };
        sorts.add(match (number, &reply) {
            (NONE, _) => "none",
            (LOSING_LONG, _) => "more than 4,096 tags",
            (_, Some(reply)) if reply.is_empty() => "the empty reply",
            (_, Some(reply)) if reply.len() <= SHORT => "a short reply",
            (_, Some(_)) => "a longer reply",
            _ => "a refusal",
        });
        let form = &job.forms[&code(job.record[play.position])];
        let is_lawful =
            reply.as_ref().is_none_or(|reply| only_tags(reply) && well_nested(reply) && lawful(form, reply));
        trial.tally.check(is_lawful, || format!("{title}: {play:?}: an unlawful reply"));
        if let Some(mut before) = replies_within(form, SHORT, STEPS).filter(|_| is_lawful) {
            before.retain(|word| reply.as_ref().is_none_or(|reply| (word.len(), word) < (reply.len(), reply)));
            all.push(Said { play, reply, before });
        }
    }
    all.truncate(LISTED);
    judge_listed(trial, &title, &job, &all);
}

// ---- files

// A job and a history for each of the longest replies.
fn write(folder: &Path) -> std::io::Result<()> {
    for counted in counted_jobs() {
        for made in counted.made_for.iter().filter(|made| made.tags == MOST_TAGS) {
            let file = folder.join(format!("{}-{}", counted.name, name(made.code)));
            std::fs::write(file.with_extension("job"), counted.lost_by(made).file())?;
            std::fs::write(file.with_extension("history"), [MOVE_READ])?;
        }
    }
    Ok(())
}

fn main() {
    let program = argument(1, "the program to run, or `write`");
    let plain = argument(2, "the plain C program, or the folder");
    if program == "write" {
        return write(Path::new(&plain)).expect("a folder");
    }
    let jobs = number_argument(3, "how many jobs");
    let first = seed_argument(4);
    let tally = Tally::default();
    let trial = Trial { tally: &tally, program: &program };
    bounds(&trial);
    ties(&trial);
    no_bytes(&trial);
    let sorts = Sorts::new([
        ("none", 1),
        ("the empty reply", 4),
        ("a reply", 1),
        ("a reply of 6 tags or more", 4),
        ("another code would do", 1),
        ("a child and a sibling would do", 10),
        ("as another up to some byte", 2),
        ("as another up to the last byte where words can differ", 4),
    ]);
    for_each(jobs, |i| finite(&trial, &sorts, first + 3_000_000 + i as u64));
    sorts.check(&tally, jobs, MANY);
    let sorts = Sorts::new([("none", 1), ("the empty reply", 2), ("a short reply", 1), ("a longer reply", 3)]);
    for_each(jobs, |i| endless(&trial, &plain, &sorts, first + 4_000_000 + i as u64));
    sorts.check(&tally, jobs, MANY);
    tally.end()
}
