// Histories that are refused, each on the job with a note.

use crate::numbers::*;
use crate::solver::Move;
use crate::vocabulary::{DATE, GETMATCH, NOTE};
use crate::words::{closing, element, empties, tower};

pub fn reads(count: usize) -> Vec<Move> {
    vec![Move::Read; count]
}

// As many reads, and then a fetch.
pub fn fetch_after(count: usize, reply: &[u8]) -> Vec<Move> {
    [reads(count), vec![Move::Fetch(reply.to_vec())]].concat()
}

pub struct Refused {
    pub name: &'static str,
    // Of the conditions that hold for the refused move, the first of them due.
    pub numbers: &'static [u32],
    pub moves: Vec<Move>,
    // Of the buffer.
    pub length: usize,
}

const ENOUGH: usize = 5_000;

pub fn refused() -> Vec<Refused> {
    let (date, note, unlawful) = (empties(&[DATE]), empties(&[NOTE]), empties(&[GETMATCH]));
    let (long, deep) = (empties(&[DATE; MOST_TAGS / 2 + 1]), tower(DATE, DEEPEST_REPLY + 1));
    let open = [DATE];
    let row = |name, numbers, moves, length| Refused { name, numbers, moves, length };
    let at_note = |name, numbers, reply: &[u8], length| row(name, numbers, fetch_after(1, reply), length);
    let at_place = |name, numbers, reply: &[u8], length| row(name, numbers, fetch_after(5, reply), length);
    let at_end = |name, numbers, reply: &[u8]| row(name, numbers, fetch_after(6, reply), ENOUGH);
    vec![
        row("read after the end", &[AT_END], reads(7), ENOUGH),
        row("read long after the end", &[AT_END], reads(5_000), ENOUGH),
        row("read after the end, no room", &[AT_END, BUFFER], reads(7), 6),
        at_end("fetch after the end", &[AT_END, NO_FETCH], &date),
        at_end("fetch after the end, no reply", &[AT_END, REPLY], &open),
        at_end("fetch after the end, unlawful", &[AT_END, UNLAWFUL], &unlawful),
        row("fetch at the first tag", &[NO_FETCH], fetch_after(0, &date), ENOUGH),
        row("fetch at a fetchable opening tag", &[NO_FETCH], fetch_after(2, &date), ENOUGH),
        at_note("fetch of a note", &[NO_FETCH], &date, ENOUGH),
        at_note("fetch of a note, empty reply", &[NO_FETCH], &[], ENOUGH),
        at_note("fetch of a note, no reply", &[NO_FETCH, REPLY], &open, ENOUGH),
        row("fetch at an opening tag, 4,098 tags", &[NO_FETCH, REPLY], fetch_after(0, &long), ENOUGH),
        at_note("fetch of a note, unlawful", &[NO_FETCH, UNLAWFUL], &unlawful, ENOUGH),
        at_note("fetch of a note, no room", &[NO_FETCH, BUFFER], &date, 1),
        row("fetch at the first tag, no buffer", &[NO_FETCH, BUFFER], fetch_after(0, &date), 0),
        at_place("left open", &[REPLY], &open, ENOUGH),
        at_place("closed too often", &[REPLY], &[closing(DATE)], ENOUGH),
        at_place("byte 32", &[REPLY], &element(DATE, &[32]), ENOUGH),
        at_place("byte 255", &[REPLY], &[255], ENOUGH),
        at_place("crossed", &[REPLY], &[DATE, NOTE, closing(DATE), closing(NOTE)], ENOUGH),
        at_place("4,098 tags", &[REPLY, UNLAWFUL], &long, ENOUGH),
        at_place("65,534 tags", &[REPLY, UNLAWFUL], &empties(&[DATE; 32_767]), ENOUGH),
        at_place("65 deep", &[REPLY, UNLAWFUL], &deep, ENOUGH),
        at_place("left open, no room", &[REPLY, BUFFER], &[&note[..], &open].concat(), 5),
        at_place("65 deep, no room", &[REPLY, BUFFER], &deep, 5),
        at_place("unlawful", &[UNLAWFUL], &unlawful, ENOUGH),
        at_place("empty and unlawful", &[UNLAWFUL], &[], ENOUGH),
        at_place("unlawful, no room", &[UNLAWFUL, BUFFER], &empties(&[NOTE; 20]), 5),
        at_place("4,096 tags, unlawful, no room", &[UNLAWFUL, BUFFER], &empties(&[DATE; MOST_TAGS / 2]), 5),
        at_place("64 deep, unlawful", &[UNLAWFUL], &tower(DATE, DEEPEST_REPLY), ENOUGH),
        row("first read, no buffer", &[BUFFER], reads(1), 0),
        row("third read, two bytes", &[BUFFER], reads(3), 2),
        row("last read, a byte short", &[BUFFER], reads(6), 5),
        // The part after all moves would fit, the part after five of them does not.
        at_place("inner part too long", &[BUFFER], &date, 4),
    ]
}
