// Plays, whether reached or not, and the moves on them.

use super::forms::lawful;
use super::game::{Held, Move, Position, Replies, Search, fetch_allowed};
use crate::jobs::Job;
use crate::numbers::*;
use crate::words::{Word, code, depth, is_opening, only_tags, open_after, well_nested};

pub const PLACES: usize = DEEPEST_RECORD;

#[derive(Clone, Debug, PartialEq)]
pub struct Play {
    pub position: usize,
    pub state: usize,
    pub count: usize,
    pub open: usize,
    pub kept: [usize; PLACES],
    pub marks: [usize; PLACES],
}

impl Play {
    pub fn start(job: &Job) -> Play {
        Play::from(&Held { position: 0, state: job.target.start, kept: vec![] }, 0, &[])
    }

    // The play after as many reads.
    pub fn after_reads(job: &Job, reads: usize) -> Play {
        let mut buffer = vec![0; reads];
        (0..reads).fold(Play::start(job), |play, _| play_move(job, &play, &Move::Read, &mut buffer).expect("a read"))
    }

    pub fn with(&self, change: impl Fn(&mut Play)) -> Play {
        let mut play = self.clone();
        change(&mut play);
        play
    }

    pub fn held(&self) -> Held {
        let kept = self.kept[..self.open].iter().map(|&q| q as u8).collect();
        Held { position: self.position, state: self.state as u8, kept }
    }

    // The play whose held part, finished count and marks are given.
    pub fn from(held: &Held, count: usize, marks: &[usize]) -> Play {
        let (position, state, open) = (held.position, held.state as usize, marks.len());
        let mut play = Play { position, state, count, open, kept: [0; PLACES], marks: [0; PLACES] };
        for (i, &mark) in marks.iter().enumerate() {
            play.kept[i] = held.kept[i] as usize;
            play.marks[i] = mark;
        }
        play
    }
}

// Refusal 21 is due unless this holds. Advice takes no buffer, and that of the losing reply is not the play's.
pub fn fits(job: &Job, play: &Play, buffer: Option<usize>) -> bool {
    let n = job.target.states as usize;
    let open = job.record.get(..play.position).map(open_after);
    if open != Some(play.open) || play.state >= n {
        return false;
    }
    let kept_fit = play.kept[..play.open].iter().all(|&q| q < n);
    let unused_zero = (play.open..PLACES).all(|i| play.kept[i] == 0 && play.marks[i] == 0);
    let marks = &play.marks[..play.open];
    let marks_fit = marks.is_sorted() && marks.iter().all(|&mark| mark <= play.count);
    kept_fit && unused_zero && marks_fit && buffer.is_none_or(|length| length >= play.count)
}

// Refusal 18 is due unless this holds.
pub fn small_and_nested(reply: &[u8]) -> bool {
    reply.len() <= MOST_TAGS && only_tags(reply) && well_nested(reply) && depth(reply) <= DEEPEST_REPLY
}

// A move with a buffer lent: the play after it, or a refusal's number with everything left as it was.
pub fn play_move(job: &Job, play: &Play, step: &Move, buffer: &mut [u8]) -> Result<Play, u32> {
    if !fits(job, play, Some(buffer.len())) {
        return Err(PLAY);
    }
    if play.position == job.record.len() {
        return Err(AT_END);
    }
    let tag = job.record[play.position];
    let (at, piece) = match step {
        Move::Read => (play.count, vec![tag]),
        Move::Fetch(_) if !fetch_allowed(tag) => return Err(NO_FETCH),
        Move::Fetch(reply) if !small_and_nested(reply) => return Err(REPLY),
        Move::Fetch(reply) if !lawful(&job.forms[&code(tag)], reply) => return Err(UNLAWFUL),
        Move::Fetch(reply) => (play.marks[play.open - 1], reply.clone()),
    };
    let count = at + piece.len();
    if count > buffer.len() {
        return Err(BUFFER);
    }
    buffer[at..count].copy_from_slice(&piece);
    let mut marks = play.marks[..play.open].to_vec();
    if is_opening(tag) {
        marks.push(play.count);
    } else {
        marks.pop();
    }
    Ok(Play::from(&play.held().after(job, step), count, &marks))
}

// Advice on any play, or a refusal's number; none if the search gives up.
pub fn play_advice(job: &Job, play: &Play, replies: &Replies, allowed: usize) -> Option<Result<u32, u32>> {
    let advice = || Search::new(job, replies, allowed).advice(&play.held());
    if fits(job, play, None) { advice().map(Ok) } else { Some(Err(PLAY)) }
}

// The losing reply of any play, if there is one, for a buffer of some length, or a refusal's number; none if the search gives up.
pub fn play_losing(
    job: &Job,
    play: &Play,
    replies: &Replies,
    allowed: usize,
    buffer: usize,
) -> Option<Result<Option<Word>, u32>> {
    if !fits(job, play, None) {
        return Some(Err(PLAY));
    }
    if play.position == job.record.len() {
        return Some(Err(AT_END));
    }
    if !fetch_allowed(job.record[play.position]) {
        return Some(Err(NO_FETCH));
    }
    Some(match Search::new(job, replies, allowed).losing(&play.held())? {
        Some(reply) if reply.len() > MOST_TAGS => Err(LOSING_LONG),
        Some(reply) if reply.len() > buffer => Err(LOSING_BUFFER),
        found => Ok(found),
    })
}
