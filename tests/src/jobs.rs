// Job files: target, reply forms and record built into bodies, and the contents before them.

use crate::numbers::*;
use crate::vocabulary::{CODES, codes_with_form};
use crate::words::{Word, code, is_opening};
use std::collections::BTreeMap;

// A result for each code.
pub type Row = [u8; CODES as usize];

// The deposit form's automaton.
#[derive(Clone, Debug, PartialEq)]
pub struct Target {
    pub states: u8,
    pub start: u8,
    pub accepting: u32,
    // By the state, and by the state and the kept one.
    pub opening: Vec<Row>,
    pub closing: Vec<Vec<Row>>,
}

impl Target {
    // The bytes of a body before its results.
    pub const HEAD: usize = 6;

    // Every tag leads to one state.
    pub fn all_to(states: u8, to: u8) -> Target {
        let opening = vec![[to; CODES as usize]; states as usize];
        Target { states, start: 0, accepting: 0, opening: opening.clone(), closing: vec![opening; states as usize] }
    }

    // No tag leads anywhere else, and an element leads back to where it began.
    pub fn resting(states: u8) -> Target {
        let opening: Vec<Row> = (0..states).map(|q| [q; CODES as usize]).collect();
        Target { opening: opening.clone(), closing: vec![opening; states as usize], ..Target::all_to(states, 0) }
    }

    pub fn body(&self) -> Vec<u8> {
        let mut body = vec![self.states, self.start];
        body.extend(self.accepting.to_le_bytes());
        body.extend(self.opening.iter().chain(self.closing.iter().flatten()).flatten());
        body
    }
}

// An opening rule is state, code, next, kept; a closing rule is state, kept, code, next.
pub type Rule = [u8; 4];

// A reply form's automaton.
#[derive(Clone, Debug, PartialEq)]
pub struct Form {
    pub states: u8,
    pub start: u8,
    pub accepting: u8,
    pub opening: Vec<Rule>,
    pub closing: Vec<Rule>,
}

impl Form {
    // The bytes of a body before its rules.
    pub const HEAD: usize = 7;

    // No rules, and no reply.
    pub fn new(states: u8, start: u8) -> Form {
        Form { states, start, accepting: 0, opening: vec![], closing: vec![] }
    }

    // Only the empty reply.
    pub fn nothing() -> Form {
        Form { accepting: 1, ..Form::new(1, 0) }
    }

    // One empty element of one of the codes: state 0 before it, 1 within it, 2 after it.
    pub fn one_of(codes: &[u8]) -> Form {
        let opening = codes.iter().map(|&c| [0, c, 1, 0]).collect();
        let closing = codes.iter().map(|&c| [1, 0, c, 2]).collect();
        Form { accepting: 0b100, opening, closing, ..Form::new(3, 0) }
    }

    // Any number of elements of a code, within each other too.
    pub fn any(code: u8) -> Form {
        Form { opening: vec![[0, code, 0, 0]], closing: vec![[0, 0, code, 0]], ..Form::nothing() }
    }

    // These words and no others: a state for each beginning of a word that another tag follows, and one for all ends.
    pub fn of(words: &[Word]) -> Form {
        let goes_on = |start: &[u8]| words.iter().any(|word| word.len() > start.len() && word.starts_with(start));
        let mut starts: Vec<&[u8]> = words.iter().flat_map(|word| (0..=word.len()).map(|end| &word[..end])).collect();
        starts.retain(|start| goes_on(start));
        starts.sort();
        starts.dedup();
        let state = |start: &[u8]| starts.iter().position(|other| *other == start).unwrap_or(starts.len()) as u8;
        let mut form = Form::new(starts.len() as u8 + 1, state(&[]));
        for word in words {
            for (i, &tag) in word.iter().enumerate() {
                let (from, to) = (state(&word[..i]), state(&word[..i + 1]));
                if is_opening(tag) {
                    form.opening.push([from, tag, to, 0]);
                } else {
                    form.closing.push([from, 0, code(tag), to]);
                }
            }
            form.accepting |= 1 << state(word);
        }
        form
    }

    // The largest one.
    pub fn largest() -> Form {
        let m = MOST_FORM_STATES;
        let mut form = Form { accepting: 1 << (m - 1), ..Form::new(m, m - 1) };
        for i in 0..MOST_RULES {
            let (a, b, c) = (i as u8 % m, (i / m as usize) as u8 % m, i as u8 % CODES);
            form.opening.push([a, c, b, (a + b) % m]);
            form.closing.push([b, (a + b) % m, c, a]);
        }
        form
    }

    pub fn body(&self) -> Vec<u8> {
        let mut body = vec![self.states, self.start, self.accepting];
        body.extend((self.opening.len() as u16).to_le_bytes());
        body.extend((self.closing.len() as u16).to_le_bytes());
        body.extend(self.opening.iter().chain(&self.closing).flatten());
        body
    }
}

#[derive(Clone, Debug, PartialEq)]
pub struct Job {
    pub target: Target,
    // By code.
    pub forms: BTreeMap<u8, Form>,
    pub record: Word,
}

// The same form for every code that has one.
pub fn all_forms(form: &Form) -> BTreeMap<u8, Form> {
    codes_with_form().into_iter().map(|code| (code, form.clone())).collect()
}

impl Job {
    pub fn parts(&self) -> Parts {
        let body = |role| match role {
            Role::Target => self.target.body(),
            Role::Reply(code) => self.forms[&code].body(),
            Role::Record => self.record.clone(),
        };
        let entries: Vec<Part> =
            roles().map(|role| Part { role, label: role.label(), body: body(role), off: 0 }).collect();
        Parts { count: entries.len() as u16, entries, tail: vec![], cut: 0 }
    }

    pub fn file(&self) -> Vec<u8> {
        self.parts().file()
    }
}

// What a body is.
#[derive(Clone, Copy, Debug, PartialEq)]
pub enum Role {
    Target,
    Reply(u8),
    Record,
}

impl Role {
    // Kind and code, as an entry of the contents has them.
    pub fn label(self) -> (u8, u8) {
        match self {
            Role::Target => (1, 0),
            Role::Reply(code) => (2, code),
            Role::Record => (3, 0),
        }
    }
}

// Each body of a file, in the one order: target, replies by rising code, record.
pub fn roles() -> impl Iterator<Item = Role> {
    let replies = codes_with_form().into_iter().map(Role::Reply);
    [Role::Target].into_iter().chain(replies).chain([Role::Record])
}

// A body and its entry in the contents.
#[derive(Clone)]
pub struct Part {
    pub role: Role,
    pub label: (u8, u8),
    pub body: Vec<u8>,
    // How much the length in the entry is off.
    pub off: i32,
}

// A file before it is packed: right as Job::parts gives it, and open to damage of every sort.
#[derive(Clone)]
pub struct Parts {
    pub count: u16,
    pub entries: Vec<Part>,
    // Bytes after the last body.
    pub tail: Vec<u8>,
    // How many bytes are missing at the end.
    pub cut: usize,
}

impl Parts {
    pub fn part(&mut self, role: Role) -> &mut Part {
        self.entries.iter_mut().find(|part| part.role == role).expect("a part for each role")
    }

    pub fn body(&mut self, role: Role) -> &mut Vec<u8> {
        &mut self.part(role).body
    }

    pub fn in_order(&self, order: &[usize]) -> Parts {
        Parts { entries: order.iter().map(|&i| self.entries[i].clone()).collect(), ..self.clone() }
    }

    pub fn file(&self) -> Vec<u8> {
        let mut file = self.count.to_le_bytes().to_vec();
        for part in &self.entries {
            file.extend([part.label.0, part.label.1]);
            file.extend(((part.body.len() as i32 + part.off) as u16).to_le_bytes());
        }
        for part in &self.entries {
            file.extend(&part.body);
        }
        file.extend(&self.tail);
        file.truncate(file.len().saturating_sub(self.cut));
        file
    }
}

// Every order of the numbers below n.
pub fn orders(n: usize) -> Vec<Vec<usize>> {
    let longer = |order: Vec<usize>| (0..n).map(move |at| [&order[..at], &[n - 1], &order[at..]].concat());
    if n == 0 { vec![vec![]] } else { orders(n - 1).into_iter().flat_map(longer).collect() }
}
