// Jobs whose forms leave no choice but how often something is repeated, so that shortest replies about the bound of 4,096 tags, wide and
// deep, are counted and not searched.

use crate::jobs::{Form, Job, Target};
use crate::numbers::*;
use crate::solver::Effect;
use crate::vocabulary::{GETMATCH, GETPLACE, GETSAP, GETSPEC, NOTE};
use crate::words::{Word, closing, element, empties};
use std::collections::BTreeMap;

// The target's last state, from which nothing leads away.
const LOST: u8 = MOST_STATES - 1;

fn lost_target() -> Target {
    Target { accepting: 1, ..Target::all_to(MOST_STATES, LOST) }
}

// Takes in that a reply of so many tags leads to a state.
fn reach(effect: &mut Effect, state: u8, tags: usize) {
    let least = effect.entry(state).or_insert(tags);
    *least = tags.min(*least);
}

// What a job was made for: the first of a form's shortest replies from one state of the target to another.
pub struct Made {
    pub code: u8,
    pub from: u8,
    pub to: u8,
    pub tags: usize,
    pub reply: Word,
}

fn made(code: u8, from: u8, to: u8, tags: usize, reply: Word) -> Made {
    Made { code, from, to, tags, reply }
}

impl Made {
    // What is due in a buffer where this is the losing reply.
    pub fn loses(&self, buffer: usize) -> Result<&Word, u32> {
        match self.tags {
            ..=MOST_TAGS if self.tags <= buffer => Ok(&self.reply),
            ..=MOST_TAGS => Err(LOSING_BUFFER),
            _ => Err(LOSING_LONG),
        }
    }
}

// A job with an empty record, the effect of each form at each state of the target, and what it was made for.
pub struct Counted {
    pub name: &'static str,
    pub job: Job,
    pub effects: BTreeMap<u8, Vec<Effect>>,
    pub made_for: Vec<Made>,
}

impl Counted {
    // The job with one element to fetch. It begins where the reply does, and only where the reply leads is outside the form: after one
    // read this is the losing reply.
    pub fn lost_by(&self, made: &Made) -> Job {
        let target = Target { start: made.from, accepting: !(1 << made.to), ..self.job.target.clone() };
        Job { target, record: empties(&[made.code]), ..self.job.clone() }
    }
}

fn counted(name: &'static str, target: Target, forms: Vec<(u8, Form, Vec<Effect>)>, made_for: Vec<Made>) -> Counted {
    let effects = forms.iter().map(|(code, _, effects)| (*code, effects.clone())).collect();
    let forms = forms.into_iter().map(|(code, form, _)| (code, form)).collect();
    Counted { name, job: Job { target, forms, record: vec![] }, effects, made_for }
}

// A form with the empty reply and no other.
fn nothing(code: u8) -> (u8, Form, Vec<Effect>) {
    (code, Form::nothing(), effects_at(|q| Effect::from([(q, 0)])))
}

fn effects_at(effect: impl Fn(u8) -> Effect) -> Vec<Effect> {
    (0..MOST_STATES).map(effect).collect()
}

// ---- wide: elements in levels, and each has as many children, of the next level, as its code says

// A level's code, and how many children an element of it has.
type Level = (u8, u8);

// 1 + 16 = 17; 1 + 15 x 17 = 256 elements: 4,096 tags for eight of them side by side.
const EIGHTH: [Level; 3] = [(8, 15), (9, 16), (0, 0)];

// 1 + 5 = 6; 1 + 21 x 6 = 127; 1 + 1 x 127 = 128; 1 + 16 x 128 = 2,049 elements: 4,098 tags.
const TOO_LONG: [Level; 5] = [(4, 16), (5, 1), (6, 21), (7, 5), (0, 0)];

// 1 + 3 = 4; 1 + 22 x 4 = 89; 1 + 23 x 89 = 2,048 elements: 4,096 tags.
const COUNTED: [Level; 4] = [(1, 23), (2, 22), (3, 3), (0, 0)];

// 1 + 5 = 6; 1 + 12 x 6 = 73; 1 + 14 x 73 = 1,023; 1 + 2 x 1,023 = 2,047 elements: 4,096 tags with a note.
const WITH_NOTE: [Level; 5] = [(10, 2), (12, 14), (13, 12), (14, 5), (0, 0)];

// Where notes may stand among the elements of the first level.
#[derive(Clone, Copy, PartialEq)]
enum Notes {
    Nowhere,
    Anywhere,
    // One, before all else.
    First,
}

// The elements of one of the first level, with all that is within it.
fn elements(levels: &[Level]) -> usize {
    levels.iter().rev().fold(1, |inner, &(_, children)| 1 + children as usize * inner)
}

// One element of the first level, with all that is within it.
fn whole(levels: &[Level]) -> Word {
    levels.iter().rev().fold(vec![], |inside, &(code, children)| element(code, &inside.repeat(children as usize)))
}

// The target is in the state of as many children as there are so far. An element that has not its number of them, or comes after the
// thirtieth, leads to LOST. A note is empty, and counts as two.
fn wide_target() -> Target {
    let mut target = lost_target();
    let mut counts = |code: u8, children: u8, by: u8| {
        for q in 0..LOST {
            target.opening[q as usize][code as usize] = 0;
            if q + by < LOST {
                target.closing[children as usize][q as usize][code as usize] = q + by;
            }
        }
    };
    for &(code, children) in EIGHTH.iter().chain(&TOO_LONG).chain(&COUNTED).chain(&WITH_NOTE) {
        counts(code, children, 1);
    }
    counts(NOTE, 0, 2);
    target
}

// Any number of elements of each level, within one of the level before; a state for each level, which a kept state names too.
fn wide_form(levels: &[Level], notes: Notes) -> Form {
    let leaf = levels.len() as u8;
    let mut form = Form { accepting: 1, ..Form::new(leaf + 1, 0) };
    for (level, &(code, _)) in (0..).zip(levels) {
        form.opening.push([level, code, level + 1, level]);
        form.closing.push([level + 1, level, code, level]);
    }
    if notes == Notes::First {
        form.start = leaf + 1;
        form.states += 1;
    }
    if notes != Notes::Nowhere {
        form.opening.push([form.start, NOTE, leaf, leaf]);
        form.closing.push([leaf, leaf, NOTE, 0]);
    }
    form
}

// So many elements and notes, side by side, lead as much further. The shortest way to LOST is an element without the children that it
// should have, after the note if there must be one, or a note that leads too far.
fn wide_effect(levels: &[Level], notes: Notes, q: u8) -> Effect {
    let (numbers, lost) = match notes {
        Notes::First => (1..=1, if q + 2 < LOST { 4 } else { 2 }),
        Notes::Anywhere => (0..=LOST, if q < LOST { 2 } else { 0 }),
        Notes::Nowhere => (0..=0, if q < LOST { 2 } else { 0 }),
    };
    let mut effect = Effect::from([(LOST, lost)]);
    for number in numbers {
        for first in 0..LOST {
            let state = q + first + 2 * number;
            if state < LOST {
                reach(&mut effect, state, 2 * (first as usize * elements(levels) + number as usize));
            }
        }
    }
    effect
}

fn wide() -> Counted {
    let form = |code, levels: &'static [Level], notes| {
        (code, wide_form(levels, notes), effects_at(|q| wide_effect(levels, notes, q)))
    };
    let forms = vec![
        form(GETMATCH, &EIGHTH, Notes::Nowhere),
        form(GETSAP, &TOO_LONG, Notes::Nowhere),
        form(GETSPEC, &COUNTED, Notes::Anywhere),
        form(GETPLACE, &WITH_NOTE, Notes::First),
    ];
    let note = empties(&[NOTE]);
    let made_for = vec![
        made(GETMATCH, 0, 8, 4_096, whole(&EIGHTH).repeat(8)),
        made(GETMATCH, 0, 9, 4_608, whole(&EIGHTH).repeat(9)),
        made(GETSAP, 0, 1, 4_098, whole(&TOO_LONG)),
        made(GETSPEC, 0, 1, 4_096, whole(&COUNTED)),
        // A note in place of two elements, and a note more.
        made(GETSPEC, 0, 2, 2, note.clone()),
        made(GETSPEC, 0, 3, 4_098, [whole(&COUNTED), note.clone()].concat()),
        made(GETPLACE, 0, 3, 4_096, [note.clone(), whole(&WITH_NOTE)].concat()),
        made(GETPLACE, 0, 4, 8_190, [note, whole(&WITH_NOTE).repeat(2)].concat()),
    ];
    counted("wide", wide_target(), forms, made_for)
}

// ---- deep: a tower of elements A around an X, and no other reply

const A: u8 = 0;
const X: u8 = 1;

// What the depth is counted by: the target going in and coming out, the form coming out. No two have a divisor in common.
const GOING_IN: usize = 31;
const COMING_OUT: usize = 30;
const FORM: usize = 7;

// At the X the target must be in state 0, and starts again from there. A note leads to state 7 wherever it stands.
fn deep_target() -> Target {
    let mut target = lost_target();
    for q in 0..LOST as usize {
        target.opening[q][A as usize] = ((q + 1) % GOING_IN) as u8;
        target.opening[q][NOTE as usize] = q as u8;
        for r in 0..LOST as usize {
            target.closing[r][q][A as usize] = ((r + 1) % COMING_OUT) as u8;
            target.closing[r][q][NOTE as usize] = 7;
        }
    }
    target.opening[0][X as usize] = 0;
    target.closing[0][0][X as usize] = 0;
    target
}

// State 0 goes in, those from 1 on come out and open nothing more. The number of elements A leaves the rest given, divided by seven. With
// notes, a note may be in the place of the X, and the number of elements A is then a multiple of seven.
fn deep_form(rest: u8, notes: bool) -> Form {
    let mut form = Form { accepting: 1 << (1 + rest), ..Form::new(1 + FORM as u8, 0) };
    form.opening.extend([[0, A, 0, 0], [0, X, 1, 1]]);
    form.closing.push([1, 1, X, 1]);
    for turn in 0..FORM as u8 {
        form.closing.push([1 + turn, 0, A, 1 + (turn + 1) % FORM as u8]);
    }
    if notes {
        form.opening.push([0, NOTE, 1, 2]);
        form.closing.push([1, 2, NOTE, 1 + rest]);
    }
    form
}

// One number of elements A after another; they come round with the product of the three.
fn deep_effect(rest: usize, notes: bool, q: u8) -> Effect {
    let mut effect = Effect::new();
    for around in 0..GOING_IN * COMING_OUT * FORM {
        let tags = 2 * (around + 1);
        if around % FORM == rest {
            let met = q != LOST && (q as usize + around).is_multiple_of(GOING_IN);
            reach(&mut effect, if met { (around % COMING_OUT) as u8 } else { LOST }, tags);
        }
        if notes && around % FORM == 0 {
            reach(&mut effect, if q == LOST { LOST } else { ((around + 7) % COMING_OUT) as u8 }, tags);
        }
    }
    effect
}

// So many elements A around a word.
fn around(number: usize, word: &[u8]) -> Word {
    [&vec![A; number], word, &vec![closing(A); number]].concat()
}

fn deep() -> Counted {
    let form =
        |code, rest: u8, notes| (code, deep_form(rest, notes), effects_at(|q| deep_effect(rest as usize, notes, q)));
    // 2,047 and 2,048 leave 3 and 4, divided by seven.
    let forms = vec![form(GETMATCH, 3, false), form(GETSAP, 4, false), form(GETSPEC, 3, true), nothing(GETPLACE)];
    let x = empties(&[X]);
    // 2,047 elements A: from 30 a step to 0 and 66 times round 31; out to 7. One more: from 29, and out to 8.
    let made_for = vec![
        made(GETMATCH, 30, 7, 4_096, around(2_047, &x)),
        made(GETMATCH, 30, 14, 4_530, around(2_264, &x)),
        made(GETSAP, 29, 8, 4_098, around(2_048, &x)),
        made(GETSPEC, 30, 7, 2, empties(&[NOTE])),
        made(GETPLACE, 30, 30, 0, vec![]),
    ];
    counted("deep", deep_target(), forms, made_for)
}

// ---- stepped: elements S and S before each A, one of them before the X: from each element the way goes on to a child or to a sibling

const S: u8 = 2;

// The target stays where it was over an S.
fn stepped_target() -> Target {
    let mut target = deep_target();
    for q in 0..LOST {
        target.opening[q as usize][S as usize] = q;
        target.closing[q as usize][q as usize][S as usize] = q;
    }
    target
}

// State 0 before both, 1 and 2 after them, 3 coming out; 4 to 6 within what is empty.
fn stepped_form() -> Form {
    let opening = vec![[0, S, 4, 0], [1, S, 5, 0], [1, X, 6, 0], [2, A, 0, 1]];
    let closing = vec![[4, 0, S, 1], [5, 0, S, 2], [6, 0, X, 3], [3, 1, A, 3]];
    Form { accepting: 1 << 3, opening, closing, ..Form::new(7, 0) }
}

fn stepped_effect(q: u8) -> Effect {
    let mut effect = Effect::new();
    for around in 0..GOING_IN * COMING_OUT {
        let met = q != LOST && (q as usize + around).is_multiple_of(GOING_IN);
        reach(&mut effect, if met { (around % COMING_OUT) as u8 } else { LOST }, 2 * (3 * around + 2));
    }
    effect
}

fn stepped_word(around: usize) -> Word {
    let before = [&empties(&[S, S])[..], &[A]].concat();
    [before.repeat(around), empties(&[S, X]), vec![closing(A); around]].concat()
}

fn stepped() -> Counted {
    let forms = vec![
        (GETMATCH, stepped_form(), effects_at(stepped_effect)),
        nothing(GETSAP),
        nothing(GETSPEC),
        nothing(GETPLACE),
    ];
    // 682 elements A: 22 times round 31; out to 22. One more: from 30, and out to 23.
    let made_for = vec![
        made(GETMATCH, 0, 22, 4_096, stepped_word(682)),
        made(GETMATCH, 30, 23, 4_102, stepped_word(683)),
        made(GETMATCH, 0, 0, 4, stepped_word(0)),
    ];
    counted("stepped", stepped_target(), forms, made_for)
}

pub fn counted_jobs() -> Vec<Counted> {
    vec![wide(), deep(), stepped()]
}
