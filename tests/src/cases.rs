// Cases for the program any_play: how they are written, and the line that is due for each.

use crate::harness::{Tally, answer, hex};
use crate::jobs::Job;
use crate::numbers::*;
use crate::solver::{Move, Play, Replies, all_replies, play_advice, play_move, play_losing};
use crate::words::Word;

// Searches are given up after these.
const POSITIONS: usize = 20_000;

// The program lends no more bytes than these.
pub const MOST_LENT: usize = 65_536;

#[derive(Clone, Debug)]
pub enum Call {
    Advice,
    Move(Move),
    Losing,
}

// A call on a play, with as many bytes lent.
#[derive(Clone, Debug)]
pub struct Case {
    pub call: Call,
    pub play: Play,
    pub lent: usize,
}

impl Case {
    pub fn new(call: &Call, play: &Play, lent: usize) -> Case {
        Case { call: call.clone(), play: play.clone(), lent }
    }

    pub fn bytes(&self) -> Vec<u8> {
        let Play { position, state, count, open, kept, marks } = &self.play;
        let (kind, reply) = match &self.call {
            Call::Advice => (0, vec![]),
            Call::Move(Move::Read) => (1, vec![]),
            Call::Move(Move::Fetch(reply)) => (2, reply.clone()),
            Call::Losing => (3, vec![]),
        };
        let mut all = vec![kind];
        all.extend((*position as u32).to_le_bytes());
        all.push(*state as u8);
        all.extend((*count as u32).to_le_bytes());
        all.push(*open as u8);
        all.extend(kept.iter().map(|&q| q as u8));
        all.extend(marks.iter().flat_map(|&mark| (mark as u32).to_le_bytes()));
        all.extend((self.lent as u32).to_le_bytes());
        all.extend((reply.len() as u16).to_le_bytes());
        all.extend(reply);
        all
    }

    // A number, with the play left as it is.
    pub fn says(&self, number: u32) -> Due {
        Due { number, play: self.play.clone(), reply: None }
    }

    // A losing reply.
    pub fn gives(&self, reply: Word) -> Due {
        Due { reply: Some(reply.clone()), ..self.says(LOSING + reply.len() as u32) }
    }

    // The second solver's answer; none if its search gives up.
    pub fn due(&self, job: &Job, replies: &Replies) -> Option<Due> {
        let room = self.lent.min(MOST_LENT);
        let outcome = match &self.call {
            Call::Advice => play_advice(job, &self.play, replies, POSITIONS)?.map(|said| self.says(said)),
            Call::Move(step) => {
                let moved = play_move(job, &self.play, step, &mut vec![0; room]);
                moved.map(|play| Due { play, ..self.says(ACCEPTED) })
            }
            Call::Losing => play_losing(job, &self.play, replies, POSITIONS, room)?
                .map(|found| found.map_or(self.says(NONE), |reply| self.gives(reply))),
        };
        Some(outcome.unwrap_or_else(|number| self.says(number)))
    }

    // What was called for and the answer's number, of which all losing replies have one.
    pub fn sort(&self, due: &Due) -> String {
        let call = match &self.call {
            Call::Advice => "advice",
            Call::Move(Move::Read) => "read",
            Call::Move(Move::Fetch(_)) => "fetch",
            Call::Losing => "losing",
        };
        format!("{call} {}", due.number.min(LOSING))
    }
}

// An answer, the play after it, and the losing reply where one is given.
#[derive(Clone, Debug)]
pub struct Due {
    pub number: u32,
    pub play: Play,
    pub reply: Option<Word>,
}

// The line that is printed for a case, without its end.
pub fn line(Due { number, play, reply }: &Due) -> String {
    let mut numbers = vec![*number as usize, play.position, play.state, play.count, play.open];
    numbers.extend(play.kept);
    numbers.extend(play.marks);
    let mut words: Vec<String> = numbers.iter().map(|number| number.to_string()).collect();
    words.extend(reply.as_ref().map(|reply| hex(reply)));
    words.join(" ")
}

pub fn input(file: &[u8], cases: &[Case]) -> Vec<u8> {
    let mut all = (file.len() as u32).to_le_bytes().to_vec();
    all.extend(file);
    all.extend(cases.iter().flat_map(Case::bytes));
    all
}

// The program, and the tally of what it is held to.
pub struct Trial<'a> {
    pub tally: &'a Tally,
    pub program: &'a str,
}

impl Trial<'_> {
    // Runs the program on the cases and holds each line to what is due; where that is none, there must be a line.
    pub fn judge(&self, name: &str, file: &[u8], cases: &[Case], due: &[Option<Due>]) {
        let printed = answer(self.program, &input(file, cases));
        let lines: Vec<&str> = printed.split_terminator('\n').collect();
        self.tally.check(printed.is_empty() || printed.ends_with('\n'), || format!("{name}: the last line has no end"));
        self.tally.check(lines.len() == cases.len(), || format!("{name}: {} lines", lines.len()));
        for ((case, due), found) in cases.iter().zip(due).zip(lines) {
            if let Some(due) = due {
                let expected = line(due);
                self.tally.check(found == expected, || format!("{name}: {case:?}: expected {expected}, found {found}"));
            }
        }
    }

    // The same against the second solver, whose answers are to be these numbers, as far as they are given.
    pub fn check(&self, name: &str, job: &Job, cases: &[Case], numbers: &[u32]) {
        let replies = all_replies(job, POSITIONS).unwrap_or_default();
        let due: Vec<_> = cases.iter().map(|case| case.due(job, &replies)).collect();
        for ((case, due), number) in cases.iter().zip(&due).zip(numbers) {
            let by_solver = due.as_ref().map(|due| due.number);
            self.tally.check(by_solver == Some(*number), || {
                format!("{name}: {case:?}: the second solver says {by_solver:?}")
            });
        }
        self.judge(name, &job.file(), cases, &due);
    }

    // Cases with the number due for each.
    pub fn check_rows(&self, name: &str, job: &Job, rows: Vec<(Case, u32)>) {
        let (cases, numbers): (Vec<Case>, Vec<u32>) = rows.into_iter().unzip();
        self.check(name, job, &cases, &numbers);
    }
}
