// Histories, and what the entries answer.

use super::files::{load, number};
use super::game::{Move, all_replies};
use super::plays::{Play, play_advice, play_move, play_losing};
use crate::jobs::Job;
use crate::numbers::*;

pub fn moves(history: &[u8]) -> Result<Vec<Move>, u32> {
    let mut all = vec![];
    let mut left = history;
    while let Some((&kind, rest)) = left.split_first() {
        let (step, after) = match kind {
            MOVE_READ => (Move::Read, rest),
            MOVE_FETCH => {
                let (length, rest) = rest.split_at_checked(2).ok_or(HISTORY)?;
                let (reply, after) = rest.split_at_checked(number(length)).ok_or(HISTORY)?;
                (Move::Fetch(reply.to_vec()), after)
            }
            _ => return Err(HISTORY),
        };
        all.push(step);
        left = after;
    }
    Ok(all)
}

pub fn history(moves: &[Move]) -> Vec<u8> {
    let bytes = |step: &Move| match step {
        Move::Read => vec![MOVE_READ],
        Move::Fetch(reply) => [&[MOVE_FETCH], &(reply.len() as u16).to_le_bytes()[..], reply].concat(),
    };
    moves.iter().flat_map(bytes).collect()
}

// The play after a history's moves, each lent the same buffer, or the first refusal.
fn played(job: &Job, moves: &[Move], buffer: &mut [u8]) -> Result<Play, u32> {
    moves.iter().try_fold(Play::start(job), |play, step| play_move(job, &play, step, buffer))
}

pub fn check_entry(file: &[u8]) -> u32 {
    load(file).err().unwrap_or(ACCEPTED)
}

// The play after a history's moves, for the entries that lend them no buffer. No move has more tags to add than a reply may have, so the
// one lent here is long enough for each.
fn played_freely(file: &[u8], history: &[u8]) -> Result<(Job, Play), u32> {
    let job = load(file)?;
    let moves = moves(history)?;
    let play = played(&job, &moves, &mut vec![0; MOST_TAGS * (moves.len() + 1)])?;
    Ok((job, play))
}

// The advice after a history; none if the search gives up or a form is not finite.
pub fn advice_entry(file: &[u8], history: &[u8], allowed: usize) -> Option<u32> {
    match played_freely(file, history) {
        Err(number) => Some(number),
        Ok((job, play)) => play_advice(&job, &play, &all_replies(&job, allowed)?, allowed)?.ok(),
    }
}

// The losing reply after a history, put into the buffer; none as for advice.
pub fn losing_entry(file: &[u8], history: &[u8], buffer: &mut [u8], allowed: usize) -> Option<u32> {
    let outcome = match played_freely(file, history) {
        Err(number) => Err(number),
        Ok((job, play)) => play_losing(&job, &play, &all_replies(&job, allowed)?, allowed, buffer.len())?,
    };
    Some(match outcome {
        Err(number) => number,
        Ok(None) => NONE,
        Ok(Some(reply)) => {
            buffer[..reply.len()].copy_from_slice(&reply);
            LOSING + reply.len() as u32
        }
    })
}

pub fn finished_entry(file: &[u8], history: &[u8], buffer: &mut [u8]) -> u32 {
    let mut own = buffer.to_vec();
    let outcome = load(file).and_then(|job| played(&job, &moves(history)?, &mut own));
    match outcome {
        Err(number) => number,
        Ok(play) => {
            buffer.copy_from_slice(&own);
            FINISHED + play.count as u32
        }
    }
}
