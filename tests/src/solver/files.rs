// Files: the bodies that the contents list, and what is read from them.

use super::forms::has_lawful_reply;
use crate::jobs::{Form, Job, Rule, Target, roles};
use crate::numbers::*;
use crate::vocabulary::{CODES, codes_with_form};
use crate::words::{depth, only_tags, well_nested};
use std::collections::BTreeMap;

// Of bytes, least first.
pub fn number(bytes: &[u8]) -> usize {
    bytes.iter().rev().fold(0, |number, &byte| number << 8 | byte as usize)
}

fn read_target(body: &[u8]) -> Option<Target> {
    let (head, results) = body.split_at_checked(Target::HEAD)?;
    let (states, start, accepting) = (head[0], head[1], number(&head[2..]));
    let n = states as usize;
    let (rows, rest) = results.as_chunks();
    if !(1..=MOST_STATES).contains(&states) || rows.len() != n + n * n || !rest.is_empty() {
        return None;
    }
    if start >= states || results.iter().any(|&s| s >= states) || accepting >> n != 0 {
        return None;
    }
    let closing = rows[n..].chunks(n).map(|of_state| of_state.to_vec()).collect();
    Some(Target { states, start, accepting: accepting as u32, opening: rows[..n].to_vec(), closing })
}

fn read_form(body: &[u8]) -> Option<Form> {
    let (head, rules) = body.split_at_checked(Form::HEAD)?;
    let (states, start, accepting) = (head[0], head[1], head[2]);
    let (openings, closings) = (number(&head[3..5]), number(&head[5..]));
    let (rules, rest): (&[Rule], _) = rules.as_chunks();
    if openings.max(closings) > MOST_RULES || rules.len() != openings + closings || !rest.is_empty() {
        return None;
    }
    if !(1..=MOST_FORM_STATES).contains(&states) || start >= states || u32::from(accepting) >> states != 0 {
        return None;
    }
    let (opening, closing) = rules.split_at(openings);
    let below = |rule: &Rule, bounds: Rule| (0..4).all(|i| rule[i] < bounds[i]);
    let opening_fit = opening.iter().all(|r| below(r, [states, CODES, states, states]));
    let closing_fit = closing.iter().all(|r| below(r, [states, states, CODES, states]));
    (opening_fit && closing_fit).then(|| Form {
        states,
        start,
        accepting,
        opening: opening.to_vec(),
        closing: closing.to_vec(),
    })
}

// The bodies in the order of the roles; none if the contents are not as they should be.
fn bodies(file: &[u8]) -> Option<Vec<&[u8]>> {
    let count = number(&file[..2]);
    if count != roles().count() {
        return None;
    }
    let mut bodies = vec![];
    let mut at = 2 + 4 * count;
    for (entry, role) in file[2..at].chunks(4).zip(roles()) {
        if (entry[0], entry[1]) != role.label() {
            return None;
        }
        let end = at + number(&entry[2..]);
        bodies.push(file.get(at..end)?);
        at = end;
    }
    (at == file.len()).then_some(bodies)
}

// A file's job, or the number of its refusal.
pub fn load(file: &[u8]) -> Result<Job, u32> {
    if !(SMALLEST_FILE..=LARGEST_FILE).contains(&file.len()) {
        return Err(FILE_SIZE);
    }
    let bodies = bodies(file);
    let Some([target, replies @ .., record]) = bodies.as_deref() else { return Err(CONTENTS) };
    let target = read_target(target).ok_or(TARGET)?;
    let mut forms = BTreeMap::new();
    for (code, reply) in codes_with_form().into_iter().zip(replies) {
        forms.insert(code, read_form(reply).ok_or(REPLY_FORM)?);
    }
    if !forms.values().all(has_lawful_reply) {
        return Err(NO_REPLY);
    }
    if record.len() > MOST_TAGS || !only_tags(record) || !well_nested(record) {
        return Err(RECORD);
    }
    if depth(record) > DEEPEST_RECORD {
        return Err(RECORD_DEEP);
    }
    Ok(Job { target, forms, record: record.to_vec() })
}
