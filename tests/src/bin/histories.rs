// Seeded random histories, with and against advice, valid and damaged: every answer and every byte of the buffer against the second
// solver. Arguments: how many jobs, and the first seed if not 1.

use sakonite_tests::harness::{Sorts, Tally, for_each, hex, number_argument, seed_argument};
use sakonite_tests::jobs::Job;
use sakonite_tests::library::{self, Bytes};
use sakonite_tests::numbers::*;
use sakonite_tests::random::{Drawn, Random};
use sakonite_tests::solver::{self, Move, Position, Replies, Search, Spelling, fetch_allowed, in_form, replies_at};
use sakonite_tests::vocabulary::{CODES, codes_with_form};
use sakonite_tests::words::{Word, empties};
use std::collections::BTreeSet;

const POSITIONS: usize = 200_000;
const WALKS: usize = 4;
const DAMAGED: usize = 6;
const MANY: usize = 300;

fn lend(random: &mut Random, bytes: &[u8]) -> Bytes {
    if random.chance(50) { Bytes::heap(bytes) } else { Bytes::page(bytes) }
}

// The entries that write, by name.
type Entry = (&'static str, fn(&Bytes, &Bytes, &mut [u8]) -> Option<u32>);

const FINISHED_ENTRY: Entry = ("finished", library::finished);
const LOSING_ENTRY: Entry = ("losing", library::losing);

struct Test<'a> {
    tally: &'a Tally,
    sorts: &'a Sorts<String>,
    name: String,
    file: Bytes,
}

impl Test<'_> {
    fn advice(&self, random: &mut Random, history: &[u8], due: u32) {
        let found = library::advice(&self.file, &lend(random, history));
        self.sorts.add(format!("advice {due}"));
        let shown = || format!("{}: history {}: advice is {found}, not {due}", self.name, hex(history));
        self.tally.check(found == due, shown);
    }

    // An entry with a buffer lent, and what is to be left in it.
    fn write(&self, (called, entry): Entry, random: &mut Random, history: &[u8], lent: &[u8], due: u32, left: &[u8]) {
        let mut buffer = lent.to_vec();
        let found = entry(&self.file, &lend(random, history), &mut buffer);
        // All finished parts are one sort, and so are all losing replies.
        self.sorts.add(format!("{called} {}", due.min(FINISHED)));
        let title = || format!("{}: history {}, {} bytes: {called}", self.name, hex(history), lent.len());
        self.tally.check(found == Some(due), || format!("{} is {found:?}, not {due}", title()));
        self.tally.check(buffer == left, || format!("{} leaves {}, not {}", title(), hex(&buffer), hex(left)));
    }

    // The losing reply in buffers of no bytes, of one too few, of as many as it has and of more.
    fn losing(&self, random: &mut Random, history: &[u8], reply: Option<&Word>) {
        let tags = reply.map_or(0, |reply| reply.len());
        for length in BTreeSet::from([0, tags.saturating_sub(1), tags, tags + 1 + random.below(20)]) {
            let lent = random.bytes(length);
            let (due, left) = match reply {
                None => (NONE, lent.clone()),
                Some(_) if length < tags => (LOSING_BUFFER, lent.clone()),
                Some(reply) => (LOSING + tags as u32, [reply, &lent[tags..]].concat()),
            };
            self.write(LOSING_ENTRY, random, history, &lent, due, &left);
        }
    }
}

// How a player picks moves.
#[derive(Clone, Copy, PartialEq)]
enum Player {
    Obedient,
    Contrary,
    Careless,
}

fn pick(random: &mut Random, player: Player, advice: u32, tag: u8, replies: &Replies) -> Move {
    let Some(possible) = replies_at(replies, tag) else { return Move::Read };
    let fetches = match (player, advice) {
        (Player::Obedient, READ | FETCH) => advice == FETCH,
        (Player::Contrary, READ | FETCH) => advice == READ,
        _ => random.chance(50),
    };
    if fetches { Move::Fetch(random.pick(possible)) } else { Move::Read }
}

// What loses the play at a point, by the words spelled. Behind the history it makes the advice LOST, or OUTSIDE at the end (SPEC 13.9).
fn judge_losing(
    test: &Test,
    random: &mut Random,
    words: &mut Search<Spelling>,
    job: &Job,
    spelling: &Spelling,
    moves: &[Move],
) {
    let history = solver::history(moves);
    let refused = match job.record.get(spelling.position) {
        None => Some(AT_END),
        Some(&tag) => (!fetch_allowed(tag)).then_some(NO_FETCH),
    };
    if let Some(number) = refused {
        if number == NO_FETCH && random.chance(80) {
            return;
        }
        let length = random.below(5);
        let lent = random.bytes(length);
        return test.write(LOSING_ENTRY, random, &history, &lent, number, &lent);
    }
    let Some(reply) = words.losing(spelling) else { return };
    test.losing(random, &history, reply.as_ref());
    if let Some(reply) = reply {
        let after = solver::history(&[moves, &[Move::Fetch(reply)]].concat());
        let at_end = spelling.position + 1 == job.record.len();
        test.advice(random, &after, if at_end { OUTSIDE } else { LOST });
    }
}

// Plays a job to its end by the words spelled, and asks at each point. Gives the moves made.
fn walk(test: &Test, random: &mut Random, drawn: &Drawn, words: &mut Search<Spelling>, player: Player) -> Vec<Move> {
    let Drawn { job, replies, yes, .. } = drawn;
    let mut spelling = Spelling::default();
    let mut moves = vec![];
    // The buffer as the moves leave it; none after a move that did not fit in it.
    let length = random.pick(&[0, 3, 10, 20, 40, 100, 100, 100]);
    let lent = random.bytes(length);
    let mut left = Some(lent.clone());
    loop {
        let history = solver::history(&moves);
        let Some(advice) = words.advice(&spelling) else { return moves };
        let at_end = spelling.position == job.record.len();
        test.advice(random, &history, advice);
        if at_end {
            let due = if in_form(&job.target, &spelling.word) { IN_FORM } else { OUTSIDE };
            test.tally.check(advice == due, || format!("{}: the second solver says {advice} at the end", test.name));
        }
        let won = *yes && player == Player::Obedient;
        test.tally.check(!won || ![LOST, OUTSIDE].contains(&advice), || {
            format!("{}: advice was followed and led to {advice}", test.name)
        });
        let finished = FINISHED + spelling.word.len() as u32;
        if at_end || random.chance(40) {
            match &left {
                Some(left) => test.write(FINISHED_ENTRY, random, &history, &lent, finished, left),
                None => test.write(FINISHED_ENTRY, random, &history, &lent, BUFFER, &lent),
            }
        }
        judge_losing(test, random, words, job, &spelling, &moves);
        if at_end {
            // A buffer as long as the history is long enough.
            let mut buffer = vec![0; history.len()];
            let found = library::finished(&test.file, &lend(random, &history), &mut buffer);
            let same = found == Some(finished) && buffer.starts_with(&spelling.word);
            test.tally.check(same, || format!("{}: history {}: finished is {found:?}", test.name, hex(&history)));
            return moves;
        }
        let step = pick(random, player, advice, job.record[spelling.position], replies);
        let next = spelling.after(job, &step);
        let from = match &step {
            Move::Read => spelling.word.len(),
            Move::Fetch(_) => *spelling.notes.last().expect("an element is open"),
        };
        left = left.filter(|left| next.word.len() <= left.len()).map(|mut left| {
            left[from..next.word.len()].copy_from_slice(&next.word[from..]);
            left
        });
        spelling = next;
        moves.push(step);
    }
}

// A word with something changed.
fn damaged_word(random: &mut Random, word: &[u8]) -> Word {
    let mut word = word.to_vec();
    match random.below(5) {
        0 => word.extend(empties(&[random.below(CODES as usize) as u8])),
        1 => word.push(random.below(40) as u8),
        2 if !word.is_empty() => {
            word.remove(random.below(word.len()));
        }
        3 if !word.is_empty() => {
            let at = random.below(word.len());
            word[at] = random.below(33) as u8;
        }
        _ => word = word.repeat(2),
    }
    word
}

fn damaged_moves(random: &mut Random, job: &Job, replies: &Replies, moves: &[Move]) -> Vec<Move> {
    let mut moves = moves.to_vec();
    let at = random.below(moves.len() + 1);
    let code = random.pick(&codes_with_form());
    let reply = random.pick(&replies[&code]);
    match random.below(6) {
        0 => moves.insert(at, Move::Fetch(reply)),
        1 => moves.insert(at, Move::Read),
        2 if at < moves.len() => {
            moves.remove(at);
        }
        3 if at < moves.len() => {
            let other = random.below(moves.len());
            moves.swap(at, other);
        }
        4 if at < moves.len() => moves[at] = Move::Fetch(reply),
        _ => {
            // A reply that is wrong, at a closing tag where there may be one.
            let made = job.record.iter().take(moves.len()).enumerate();
            let places: Vec<_> = made.filter_map(|(i, &tag)| Some((i, replies_at(replies, tag)?))).collect();
            if !places.is_empty() {
                let (at, possible) = random.pick(&places);
                let right = random.pick(possible);
                moves[at] = Move::Fetch(damaged_word(random, &right));
            }
        }
    }
    moves
}

fn damaged(random: &mut Random, drawn: &Drawn, moves: &[Move]) -> Vec<u8> {
    let mut moves = moves.to_vec();
    for _ in 0..1 + random.below(2) {
        moves = damaged_moves(random, &drawn.job, &drawn.replies, &moves);
    }
    let mut history = solver::history(&moves);
    if random.chance(25) && !history.is_empty() {
        let at = random.below(history.len());
        match random.below(3) {
            0 => history[at] = random.byte(),
            1 => history.truncate(at),
            _ => history.insert(at, random.pick(&[MOVE_READ, MOVE_FETCH, 0x22, 0])),
        }
    }
    history
}

// A damaged history against the second solver's entries.
fn judge_damaged(test: &Test, random: &mut Random, file: &[u8], drawn: &Drawn, moves: &[Move]) {
    let history = damaged(random, drawn, moves);
    if let Some(due) = solver::advice_entry(file, &history, POSITIONS) {
        test.advice(random, &history, due);
    }
    let length = random.pick(&[0, 1, 5, 20, 60, 60, 60]);
    let lent = random.bytes(length);
    let mut left = lent.clone();
    let due = solver::finished_entry(file, &history, &mut left);
    test.write(FINISHED_ENTRY, random, &history, &lent, due, &left);
    let length = random.pick(&[0, 1, 2, 4, 12, 20]);
    let lent = random.bytes(length);
    let mut left = lent.clone();
    if let Some(due) = solver::losing_entry(file, &history, &mut left, POSITIONS) {
        test.write(LOSING_ENTRY, random, &history, &lent, due, &left);
    }
}

fn play(tally: &Tally, sorts: &Sorts<String>, seed: u64) {
    let mut random = Random::new(seed);
    let drawn = random.job();
    let bytes = drawn.job.file();
    let file = lend(&mut random, &bytes);
    let test = Test { tally, sorts, name: format!("seed {seed}: {}", hex(&bytes)), file };
    let (checked, yes) = (library::check(&test.file), library::verdict(&test.file));
    tally.check(checked == ACCEPTED, || format!("{}: check is {checked}", test.name));
    tally.check(yes == drawn.yes as u32, || format!("{}: verdict is {yes}", test.name));
    let mut words = Search::new(&drawn.job, &drawn.replies, POSITIONS);
    for i in 0..WALKS {
        let player = [Player::Obedient, Player::Contrary, Player::Careless][i % 3];
        let moves = walk(&test, &mut random, &drawn, &mut words, player);
        for _ in 0..DAMAGED {
            judge_damaged(&test, &mut random, &bytes, &drawn, &moves);
        }
    }
}

fn main() {
    let jobs = number_argument(1, "how many jobs");
    let first = seed_argument(2);
    let tally = Tally::default();
    let refusals = [REPLY, UNLAWFUL, HISTORY, AT_END, NO_FETCH];
    let answers: [(&str, &[u32]); 3] = [
        ("advice", &[LOST, READ, FETCH, IN_FORM, OUTSIDE]),
        ("finished", &[FINISHED, BUFFER]),
        ("losing", &[NONE, LOSING, LOSING_BUFFER]),
    ];
    let rows = answers
        .iter()
        .flat_map(|(called, numbers)| numbers.iter().chain(&refusals).map(move |number| format!("{called} {number}")));
    let sorts = Sorts::new(rows.map(|sort| (sort, 10)));
    for_each(jobs, |i| play(&tally, &sorts, first + i as u64));
    println!("{} histories at least", jobs * WALKS * (1 + DAMAGED));
    sorts.check(&tally, jobs, MANY);
    tally.end()
}
