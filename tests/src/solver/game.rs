// The game: moves, what a play is followed by, and the search for a way of going on that wins.

use super::forms::replies;
use super::target::{accepts, in_form, run};
use crate::jobs::Job;
use crate::numbers::*;
use crate::vocabulary::{codes_with_form, fetchable, name};
use crate::words::{Word, code, is_opening};
use std::collections::{BTreeMap, HashMap};
use std::hash::Hash;

#[derive(Clone, Debug, PartialEq)]
pub enum Move {
    Read,
    Fetch(Word),
}

pub fn fetch_allowed(tag: u8) -> bool {
    !is_opening(tag) && fetchable(code(tag))
}

// The lawful replies, by code.
pub type Replies = BTreeMap<u8, Vec<Word>>;

// The lawful replies of each form, if none takes more steps than allowed.
pub fn all_replies(job: &Job, steps: usize) -> Option<Replies> {
    job.forms.iter().map(|(&code, form)| Some((code, replies(form, steps)?))).collect()
}

// What a fetch at this tag may bring; none where it is not allowed.
pub fn replies_at(replies: &Replies, tag: u8) -> Option<&[Word]> {
    fetch_allowed(tag).then(|| &replies[&code(tag)][..])
}

// What a play may be followed by: how a move changes it, and whether it ended in the form.
pub trait Position: Clone + Eq + Hash {
    fn position(&self) -> usize;
    fn after(&self, job: &Job, step: &Move) -> Self;
    fn form_met(&self, job: &Job) -> bool;
}

// The word spelled, with a note of its length for each open element.
#[derive(Clone, Debug, PartialEq, Eq, Hash, Default)]
pub struct Spelling {
    pub position: usize,
    pub word: Word,
    pub notes: Vec<usize>,
}

impl Position for Spelling {
    fn position(&self) -> usize {
        self.position
    }

    fn after(&self, job: &Job, step: &Move) -> Spelling {
        let tag = job.record[self.position];
        let mut next = self.clone();
        next.position += 1;
        match step {
            Move::Read => next.word.push(tag),
            Move::Fetch(reply) => {
                next.word.truncate(*self.notes.last().expect("an element is open"));
                next.word.extend(reply);
            }
        }
        if is_opening(tag) {
            next.notes.push(self.word.len());
        } else {
            next.notes.pop();
        }
        next
    }

    fn form_met(&self, job: &Job) -> bool {
        in_form(&job.target, &self.word)
    }
}

// What a play holds of its past: enough to go on from a play that was never reached.
#[derive(Clone, Debug, PartialEq, Eq, Hash)]
pub struct Held {
    pub position: usize,
    pub state: u8,
    pub kept: Vec<u8>,
}

impl Position for Held {
    fn position(&self) -> usize {
        self.position
    }

    fn after(&self, job: &Job, step: &Move) -> Held {
        let (state, kept) = match step {
            Move::Read => {
                let tag = &job.record[self.position..self.position + 1];
                run(&job.target, tag, self.state, &self.kept)
            }
            Move::Fetch(reply) => {
                let (&q, below) = self.kept.split_last().expect("an element is open");
                run(&job.target, reply, q, below)
            }
        };
        Held { position: self.position + 1, state, kept }
    }

    fn form_met(&self, job: &Job) -> bool {
        accepts(&job.target, self.state)
    }
}

// A search of the game on one job, with the replies of its forms listed. It gives up after as many positions as allowed.
pub struct Search<'a, P: Position> {
    job: &'a Job,
    replies: &'a Replies,
    known: HashMap<P, bool>,
    allowed: usize,
}

impl<'a, P: Position> Search<'a, P> {
    pub fn new(job: &'a Job, replies: &'a Replies, allowed: usize) -> Self {
        Search { job, replies, known: HashMap::new(), allowed }
    }

    // Whether a position is won (SPEC 4.3).
    pub fn won(&mut self, at: &P) -> Option<bool> {
        if at.position() == self.job.record.len() {
            return Some(at.form_met(self.job));
        }
        if let Some(&won) = self.known.get(at) {
            return Some(won);
        }
        if self.known.len() >= self.allowed {
            return None;
        }
        let won = self.read_wins(at)? || self.fetch_wins(at)?;
        self.known.insert(at.clone(), won);
        Some(won)
    }

    fn read_wins(&mut self, at: &P) -> Option<bool> {
        self.won(&at.after(self.job, &Move::Read))
    }

    fn fetch_wins(&mut self, at: &P) -> Option<bool> {
        let Some(replies) = replies_at(self.replies, self.job.record[at.position()]) else { return Some(false) };
        for reply in replies {
            if !self.won(&at.after(self.job, &Move::Fetch(reply.clone())))? {
                return Some(false);
            }
        }
        Some(true)
    }

    pub fn advice(&mut self, at: &P) -> Option<u32> {
        if at.position() == self.job.record.len() {
            return Some(if at.form_met(self.job) { IN_FORM } else { OUTSIDE });
        }
        if self.read_wins(at)? {
            return Some(READ);
        }
        Some(if self.fetch_wins(at)? { FETCH } else { LOST })
    }

    // Every reply that loses the play (SPEC 13.1): those with fewer tags first, and among as few by byte order.
    pub fn all_losing(&mut self, at: &P) -> Option<Vec<Word>> {
        let mut found = vec![];
        for reply in replies_at(self.replies, self.job.record[at.position()]).unwrap_or_default() {
            if !self.won(&at.after(self.job, &Move::Fetch(reply.clone())))? {
                found.push(reply.clone());
            }
        }
        found.sort_by_key(|reply| (reply.len(), reply.clone()));
        Some(found)
    }

    // The losing reply (SPEC 13.2), if there is one.
    pub fn losing(&mut self, at: &P) -> Option<Option<Word>> {
        Some(self.all_losing(at)?.into_iter().next())
    }
}

pub fn verdict(job: &Job, replies: &Replies, allowed: usize) -> Option<bool> {
    Search::new(job, replies, allowed).won(&Spelling::default())
}

// The states that are reached, each with the fewest tags of the replies that lead there.
pub type Effect = BTreeMap<u8, usize>;

pub fn effect(job: &Job, replies: &[Word], q: u8) -> Effect {
    let mut least = Effect::new();
    for reply in replies {
        let (state, _) = run(&job.target, reply, q, &[]);
        let tags = least.entry(state).or_insert(reply.len());
        *tags = reply.len().min(*tags);
    }
    least
}

// The line of a code and a state as the program prints it.
pub fn effect_line(code: u8, q: u8, effect: &Effect) -> String {
    let mut line = format!("{} {q}:", name(code));
    for (state, &tags) in effect {
        let length = if tags > MOST_COUNTED { "long".to_string() } else { tags.to_string() };
        line += &format!(" {state}/{length}");
    }
    line + "\n"
}

// What the program prints for a job.
pub fn listing(job: &Job, replies: &Replies, yes: bool) -> String {
    let mut lines = format!("verdict {}\n", if yes { "yes" } else { "no" });
    for code in codes_with_form() {
        for q in 0..job.target.states {
            lines += &effect_line(code, q, &effect(job, &replies[&code], q));
        }
    }
    lines
}
