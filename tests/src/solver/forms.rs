// Reply forms and their lawful replies.

use crate::jobs::Form;
use crate::numbers::*;
use crate::words::{Word, closing, code, is_opening};
use std::collections::{BTreeSet, HashMap, HashSet};

fn accepting(form: &Form, state: u8) -> bool {
    form.accepting >> state & 1 == 1
}

// Whether a well-nested word is lawful (SPEC 2.8): the runs one by one, each configuration once.
pub fn lawful(form: &Form, word: &[u8]) -> bool {
    let mut seen = HashSet::new();
    let mut left = vec![(0, form.start, vec![])];
    while let Some((at, state, kept)) = left.pop() {
        if !seen.insert((at, state, kept.clone())) {
            continue;
        }
        if at == word.len() {
            if kept.is_empty() && accepting(form, state) {
                return true;
            }
        } else if is_opening(word[at]) {
            for rule in &form.opening {
                if rule[0] == state && rule[1] == code(word[at]) {
                    left.push((at + 1, rule[2], [&kept[..], &[rule[3]]].concat()));
                }
            }
        } else if let Some((&last, below)) = kept.split_last() {
            for rule in &form.closing {
                if rule[0] == state && rule[1] == last && rule[2] == code(word[at]) {
                    left.push((at + 1, rule[3], below.to_vec()));
                }
            }
        }
    }
    false
}

// Two states of a form: a word leads from the first to the second.
type Pair = (u8, u8);

// The parts of a word between two states, if it is not empty: an element's inside, and what follows the element.
fn parts(form: &Form, (from, to): Pair) -> Vec<(Pair, Pair)> {
    let mut all = vec![];
    for o in form.opening.iter().filter(|o| o[0] == from) {
        for c in form.closing.iter().filter(|c| c[1] == o[3] && c[2] == o[1]) {
            all.push(((o[2], c[0]), (c[3], to)));
        }
    }
    all
}

// From which state of a form some well-nested word leads to which.
type Leads = [[bool; MOST_FORM_STATES as usize]; MOST_FORM_STATES as usize];

fn has(leads: &Leads, (from, to): Pair) -> bool {
    leads[from as usize][to as usize]
}

fn leads(form: &Form) -> Leads {
    let mut leads = Leads::default();
    let mut more = true;
    while more {
        more = false;
        for pair in (0..form.states).flat_map(|from| (0..form.states).map(move |to| (from, to))) {
            let joined = || parts(form, pair).iter().any(|&(inside, rest)| has(&leads, inside) && has(&leads, rest));
            if !has(&leads, pair) && (pair.0 == pair.1 || joined()) {
                leads[pair.0 as usize][pair.1 as usize] = true;
                more = true;
            }
        }
    }
    leads
}

// Between which states the lawful replies lead.
fn ends(form: &Form, leads: &Leads) -> Vec<Pair> {
    let last = (0..form.states).filter(|&state| accepting(form, state));
    last.map(|state| (form.start, state)).filter(|&pair| has(leads, pair)).collect()
}

pub fn has_lawful_reply(form: &Form) -> bool {
    !ends(form, &leads(form)).is_empty()
}

// The most tags of a lawful reply; none if there is no most. A pair of states met again within itself adds an element each time.
pub fn longest_reply(form: &Form) -> Option<usize> {
    let leads = leads(form);
    let mut known = HashMap::new();
    let mut most = 0;
    for pair in ends(form, &leads) {
        most = most.max(longest_between(form, &leads, pair, &mut vec![], &mut known)?);
    }
    Some(most)
}

fn longest_between(
    form: &Form,
    leads: &Leads,
    pair: Pair,
    within: &mut Vec<Pair>,
    known: &mut HashMap<Pair, usize>,
) -> Option<usize> {
    if let Some(&most) = known.get(&pair) {
        return Some(most);
    }
    if within.contains(&pair) {
        return None;
    }
    within.push(pair);
    let mut most = 0;
    for (inside, rest) in parts(form, pair) {
        if has(leads, inside) && has(leads, rest) {
            let inner = longest_between(form, leads, inside, within, known)?;
            let after = longest_between(form, leads, rest, within, known)?;
            most = most.max(inner.saturating_add(after).saturating_add(2));
        }
    }
    within.pop();
    known.insert(pair, most);
    Some(most)
}

// The lawful replies of a finite form; none if the form is not finite, or takes more steps than allowed.
pub fn replies(form: &Form, steps: usize) -> Option<Vec<Word>> {
    replies_within(form, longest_reply(form)?, steps)
}

// The lawful replies of no more tags than the longest wanted, found by following every run; none if it takes more steps than allowed.
pub fn replies_within(form: &Form, longest: usize, steps: usize) -> Option<Vec<Word>> {
    let mut found = BTreeSet::new();
    let mut seen = HashSet::new();
    // A word so far, the codes of its open elements, and the run's state and kept states.
    let mut left = vec![(vec![], vec![], form.start, vec![])];
    while let Some((word, codes, state, kept)) = left.pop() {
        if !seen.insert((word.clone(), state, kept.clone())) {
            continue;
        }
        if seen.len() > steps {
            return None;
        }
        if codes.is_empty() && accepting(form, state) {
            found.insert(word.clone());
        }
        if word.len() + codes.len() + 2 <= longest {
            for o in form.opening.iter().filter(|o| o[0] == state) {
                let longer = [&word[..], &[o[1]]].concat();
                left.push((longer, [&codes[..], &[o[1]]].concat(), o[2], [&kept[..], &[o[3]]].concat()));
            }
        }
        if let (Some((&c, around)), Some((&k, below))) = (codes.split_last(), kept.split_last()) {
            for r in form.closing.iter().filter(|r| r[0] == state && r[1] == k && r[2] == c) {
                let longer = [&word[..], &[closing(c)]].concat();
                left.push((longer, around.to_vec(), r[3], below.to_vec()));
            }
        }
    }
    Some(found.into_iter().collect())
}
