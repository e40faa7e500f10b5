// Files with faults: each condition of the loader alone, and each two of different numbers together.

use crate::jobs::{Form, Job, Parts, Role, Rule, Target, all_forms};
use crate::marked::target_d;
use crate::numbers::*;
use crate::vocabulary::{CODES, DATE, GETMATCH, GETPLACE, GETSAP, GETSPEC, NOTE, codes_with_form};
use crate::words::{closing, element, empties, tower};

// A job that loads, with rules in each form, so that every part of it can be damaged alone.
pub fn sound() -> Job {
    let forms = all_forms(&Form::one_of(&[DATE, NOTE]));
    Job { target: target_d(), forms, record: empties(&[GETPLACE, GETMATCH]) }
}

// The same with another record: an empty note, and then a note in a getplace.
pub fn with_note() -> Job {
    Job { record: [empties(&[NOTE]), element(GETPLACE, &empties(&[NOTE]))].concat(), ..sound() }
}

// And with any number of dates, within each other too, for the getplace.
pub fn roomy() -> Job {
    let mut job = with_note();
    job.forms.insert(GETPLACE, Form::any(DATE));
    job
}

// Damage to a file: the condition that then holds, and how it is done. Of two, that of the earlier number is done last.
pub struct Fault {
    pub number: u32,
    name: String,
    act: Box<dyn Fn(&mut Parts) + Sync>,
}

fn fault(number: u32, name: impl Into<String>, act: impl Fn(&mut Parts) + Sync + 'static) -> Fault {
    Fault { number, name: name.into(), act: Box::new(act) }
}

fn on(role: Role, act: impl Fn(&mut Vec<u8>)) -> impl Fn(&mut Parts) {
    move |p| act(p.body(role))
}

fn put(role: Role, at: usize, byte: u8) -> impl Fn(&mut Parts) {
    on(role, move |body| body[at] = byte)
}

fn put_both(role: Role, places: [usize; 2], byte: u8) -> impl Fn(&mut Parts) {
    on(role, move |body| places.iter().for_each(|&at| body[at] = byte))
}

fn replace(role: Role, new: Vec<u8>) -> impl Fn(&mut Parts) {
    on(role, move |body| *body = new.clone())
}

fn shorten(role: Role, length: usize) -> impl Fn(&mut Parts) {
    on(role, move |body| body.truncate(length))
}

fn add(role: Role, piece: impl AsRef<[u8]>) -> impl Fn(&mut Parts) {
    on(role, move |body| body.extend(piece.as_ref()))
}

fn add_before(role: Role, piece: Vec<u8>) -> impl Fn(&mut Parts) {
    on(role, move |body| *body = [&piece[..], body].concat())
}

fn relabel(role: Role, label: (u8, u8)) -> impl Fn(&mut Parts) {
    move |p| p.part(role).label = label
}

fn exchange_labels(one: Role, other: Role) -> impl Fn(&mut Parts) {
    move |p| {
        relabel(one, other.label())(p);
        relabel(other, one.label())(p);
    }
}

// The entries change places, and their bodies do not.
fn exchange_entries(one: Role, other: Role) -> impl Fn(&mut Parts) {
    move |p| {
        exchange_labels(one, other)(p);
        let longer = p.body(other).len() as i32 - p.body(one).len() as i32;
        p.part(one).off += longer;
        p.part(other).off -= longer;
    }
}

// The size of the whole file is made this, by bytes after the last body or by a cut.
fn resize(length: usize) -> impl Fn(&mut Parts) {
    move |p| {
        let now = p.file().len();
        p.tail.extend(vec![0; length.saturating_sub(now)]);
        p.cut += now.saturating_sub(length);
    }
}

// A form with as many rules as said, all sound and of use to nobody.
fn many_rules(role: Role, opening: usize, closing: usize) -> impl Fn(&mut Parts) {
    const RULE: Rule = [0; 4];
    replace(role, Form { opening: vec![RULE; opening], closing: vec![RULE; closing], ..Form::nothing() }.body())
}

// Where things stand in the bodies of the sound job. Its automata have as many states.
const STATES: usize = 0;
const START: usize = 1;
const MASK: usize = 2;
const N: u8 = 3;

// The results of its target.
const OPENED: usize = Target::HEAD;
const CLOSED: usize = OPENED + CODES as usize * N as usize;

// The rules of its forms: two opening ones, two closing ones.
const COUNTS: usize = 3;
const OPENING: [usize; 2] = [Form::HEAD, Form::HEAD + 4];
const CLOSING: [usize; 2] = [Form::HEAD + 8, Form::HEAD + 12];

// One fault for each condition, for the pairs.
pub fn conditions() -> Vec<Fault> {
    let (target, record) = (Role::Target, Role::Record);
    let (getspec, getplace) = (Role::Reply(GETSPEC), Role::Reply(GETPLACE));
    let reply = |code| Role::Reply(code).label();
    let mut all = vec![
        fault(FILE_SIZE, "25 bytes", resize(SMALLEST_FILE - 1)),
        fault(FILE_SIZE, "one byte above the largest", resize(LARGEST_FILE + 1)),
        fault(CONTENTS, "an entry less in the count", |p| p.count -= 1),
        fault(CONTENTS, "unknown kind", relabel(target, (4, 0))),
        fault(CONTENTS, "code at the target", relabel(target, (target.label().0, 1))),
        fault(CONTENTS, "code at the record", relabel(record, (record.label().0, GETMATCH))),
        fault(CONTENTS, "reply of a note", relabel(Role::Reply(GETMATCH), reply(NOTE))),
        fault(CONTENTS, "getmatch twice, getspec missing", relabel(getspec, reply(GETMATCH))),
        fault(CONTENTS, "record first", |p| p.entries.rotate_right(1)),
        fault(CONTENTS, "target last", |p| p.entries.rotate_left(1)),
        fault(CONTENTS, "getmatch and getsap exchanged", |p| p.entries.swap(1, 2)),
        fault(CONTENTS, "entries of target and record exchanged, not the bodies", exchange_entries(target, record)),
        fault(CONTENTS, "codes of getspec and getplace exchanged", exchange_labels(getspec, getplace)),
        fault(CONTENTS, "bytes after the last body", |p| p.tail.push(0)),
        fault(CONTENTS, "the last body cut", |p| p.cut += 1),
        fault(CONTENTS, "a body length too large", |p| p.part(Role::Reply(GETSAP)).off += 1),
        fault(TARGET, "n 0", replace(target, vec![0; Target::HEAD])),
        fault(TARGET, "n 33", replace(target, Target::all_to(MOST_STATES + 1, 0).body())),
        fault(TARGET, "target one byte short", on(target, |body| body.truncate(body.len() - 1))),
        fault(TARGET, "target without a body", shorten(target, 0)),
        fault(TARGET, "start n", put(target, START, N)),
        fault(TARGET, "mask bit n", put(target, MASK, 0b1010)),
        fault(TARGET, "opening result n", put(target, OPENED + 5, N)),
        fault(TARGET, "closing result n", put(target, CLOSED + 100, N)),
    ];
    for code in codes_with_form() {
        let form = Role::Reply(code);
        let at = |name: &str| format!("{name} at {code}");
        all.extend([
            fault(REPLY_FORM, at("m 0"), replace(form, vec![0; Form::HEAD])),
            fault(REPLY_FORM, at("m 9"), put(form, STATES, MOST_FORM_STATES + 1)),
            fault(REPLY_FORM, at("reply one byte short"), on(form, |body| body.truncate(body.len() - 1))),
            fault(REPLY_FORM, at("reply without a body"), shorten(form, 0)),
            fault(REPLY_FORM, at("start m"), put(form, START, N)),
            fault(REPLY_FORM, at("mask bit m"), put(form, MASK, 0b1100)),
            fault(REPLY_FORM, at("opening rule's state m"), put(form, OPENING[1], N)),
            fault(REPLY_FORM, at("opening rule's code 16"), put(form, OPENING[0] + 1, CODES)),
            fault(REPLY_FORM, at("opening rule's next m"), put(form, OPENING[1] + 2, N)),
            fault(REPLY_FORM, at("opening rule's kept m"), put(form, OPENING[0] + 3, N)),
            fault(REPLY_FORM, at("closing rule's state m"), put(form, CLOSING[0], N)),
            fault(REPLY_FORM, at("closing rule's kept m"), put(form, CLOSING[1] + 1, N)),
            fault(REPLY_FORM, at("closing rule's code 16"), put(form, CLOSING[1] + 2, CODES)),
            fault(REPLY_FORM, at("closing rule's next m"), put(form, CLOSING[0] + 3, N)),
            fault(REPLY_FORM, at("513 opening rules"), many_rules(form, MOST_RULES + 1, 0)),
            fault(REPLY_FORM, at("513 closing rules"), many_rules(form, 0, MOST_RULES + 1)),
            fault(NO_REPLY, at("nothing accepting"), put(form, MASK, 0)),
            fault(NO_REPLY, at("crossed codes"), put_both(form, CLOSING.map(|rule| rule + 2), 5)),
        ]);
    }
    all.extend([
        fault(RECORD, "4,098 tags", add(record, empties(&[NOTE; MOST_TAGS / 2 - 1]))),
        fault(RECORD, "a byte above 31", add(record, [32])),
        fault(RECORD, "an element left open", add(record, [DATE])),
        fault(RECORD, "a closing tag too many", add_before(record, vec![closing(DATE)])),
        fault(RECORD, "crossed elements", add(record, [DATE, NOTE, closing(DATE), closing(NOTE)])),
        fault(RECORD_DEEP, "depth 5", add(record, tower(DATE, DEEPEST_RECORD + 1))),
    ]);
    all
}

// Further faults, each tried alone.
pub fn more_faults() -> Vec<Fault> {
    let (target, record) = (Role::Target, Role::Record);
    let entries = sound().parts().entries;
    let mut all = vec![
        fault(FILE_SIZE, "no byte at all", resize(0)),
        fault(FILE_SIZE, "one byte", resize(1)),
        fault(FILE_SIZE, "100,000 bytes", resize(100_000)),
        fault(FILE_SIZE, "1,000,000 bytes", resize(1_000_000)),
        fault(FILE_SIZE, "one byte above the largest, in the record", |p| {
            let missing = LARGEST_FILE + 1 - p.file().len();
            p.body(Role::Record).extend(vec![0; missing]);
        }),
        fault(CONTENTS, "26 zero bytes", |p| {
            *p = Parts { count: 0, entries: vec![], tail: vec![0; SMALLEST_FILE - 2], cut: 0 };
        }),
        fault(CONTENTS, "every length 65,535", |p| {
            p.entries.iter_mut().for_each(|part| part.off = 65_535 - part.body.len() as i32);
        }),
        fault(CONTENTS, "target labelled as a reply of code 0", relabel(target, Role::Reply(0).label())),
        fault(TARGET, "n 255", put(target, STATES, 255)),
        fault(TARGET, "n 2 with the tables of 3", put(target, STATES, N - 1)),
        fault(TARGET, "n 4 with the tables of 3", put(target, STATES, N + 1)),
        fault(TARGET, "target one byte long", add(target, [0])),
        fault(TARGET, "start 255", put(target, START, 255)),
        fault(TARGET, "mask bit 31", put(target, MASK + 3, 0x80)),
        fault(TARGET, "first opening result", put(target, OPENED, N)),
        fault(TARGET, "last opening result", put(target, CLOSED - 1, 255)),
        fault(TARGET, "first closing result", put(target, CLOSED, 255)),
        fault(TARGET, "last closing result", put(target, CLOSED + 143, N)),
        fault(TARGET, "26 bytes, the contents right", |p| p.entries.iter_mut().for_each(|part| part.body.clear())),
        fault(RECORD, "4,097 bytes", replace(record, vec![NOTE; MOST_TAGS + 1])),
        fault(RECORD, "byte 255", add(record, [255])),
        fault(RECORD, "a byte above 31 within an element", add(record, element(DATE, &[32]))),
        fault(RECORD, "another code's closing tag", add(record, [DATE, closing(NOTE)])),
        fault(RECORD, "a closing tag alone", replace(record, vec![closing(DATE)])),
        fault(RECORD, "an opening tag alone", replace(record, vec![DATE])),
        fault(RECORD, "ill nested and deep", replace(record, [tower(DATE, DEEPEST_RECORD + 1), vec![NOTE]].concat())),
        fault(RECORD, "deep, ill nested within", replace(record, [vec![DATE; 6], vec![closing(DATE); 4]].concat())),
        fault(RECORD, "too long and deep", replace(record, tower(DATE, MOST_TAGS / 2 + 1))),
        fault(RECORD_DEEP, "depth 5 first", add_before(record, tower(NOTE, DEEPEST_RECORD + 1))),
        fault(RECORD_DEEP, "depth 6", add(record, tower(GETMATCH, DEEPEST_RECORD + 2))),
        fault(RECORD_DEEP, "4,096 tags in a tower", replace(record, tower(DATE, MOST_TAGS / 2))),
    ];
    let right = entries.len() as u16;
    for count in [0, 1, right + 1, right + 256, right * 256] {
        all.push(fault(CONTENTS, format!("count {count}"), move |p| p.count = count));
    }
    for (e, part) in entries.iter().enumerate() {
        let role = part.role;
        for kind in [0, 4, 255] {
            all.push(fault(CONTENTS, format!("kind {kind} at entry {e}"), relabel(role, (kind, part.label.1))));
        }
        for off in [-1, 1, 256] {
            all.push(fault(CONTENTS, format!("length of entry {e} off by {off}"), move |p| p.part(role).off = off));
        }
        for other in entries.iter().filter(|other| other.role != role) {
            let name = format!("{:?} listed in place of {role:?}", other.role);
            all.push(fault(CONTENTS, name, relabel(role, other.label)));
        }
        for other in &entries[e + 1..] {
            let name = format!("{role:?} and {:?} listed in place of each other", other.role);
            all.push(fault(CONTENTS, name, exchange_labels(role, other.role)));
        }
    }
    for length in 0..=Target::HEAD {
        all.push(fault(TARGET, format!("target of {length} bytes"), shorten(target, length)));
    }
    for code in codes_with_form() {
        let form = Role::Reply(code);
        let at = |name: &str| format!("{name} at {code}");
        let no_rules = Form { accepting: 0x80, ..Form::new(MOST_FORM_STATES, 0) };
        for other in [0, NOTE, CODES, 255] {
            all.push(fault(CONTENTS, format!("code {other} for {code}"), relabel(form, Role::Reply(other).label())));
        }
        for length in 0..=Form::HEAD {
            all.push(fault(REPLY_FORM, format!("reply {code} of {length} bytes"), shorten(form, length)));
        }
        all.extend([
            fault(REPLY_FORM, at("m 255"), put(form, STATES, 255)),
            fault(REPLY_FORM, at("m 1 with rules for 3"), put(form, STATES, 1)),
            fault(REPLY_FORM, at("mask bit 7"), put(form, MASK, 0x84)),
            fault(REPLY_FORM, at("start 255"), put(form, START, 255)),
            fault(REPLY_FORM, at("reply one byte long"), add(form, [0])),
            fault(REPLY_FORM, at("a rule not counted"), add(form, [0; 4])),
            fault(REPLY_FORM, at("opening count 65,535"), put_both(form, [COUNTS, COUNTS + 1], 255)),
            fault(REPLY_FORM, at("closing count 258"), put(form, COUNTS + 3, 1)),
            fault(REPLY_FORM, at("code 255"), put(form, CLOSING[0] + 2, 255)),
            fault(NO_REPLY, at("accepting only within an element"), put(form, MASK, 0b010)),
            fault(NO_REPLY, at("another state kept"), put_both(form, CLOSING.map(|rule| rule + 1), 1)),
            fault(NO_REPLY, at("elements without end"), put_both(form, OPENING.map(|rule| rule + 2), 0)),
            fault(NO_REPLY, at("no rules"), replace(form, no_rules.body())),
        ]);
    }
    all
}

// The order of the loader's numbers (SPEC 7.3).
const ORDER: [u32; 7] = [FILE_SIZE, CONTENTS, TARGET, REPLY_FORM, NO_REPLY, RECORD, RECORD_DEEP];

// A file with faults, and the number of its refusal.
pub struct Faulty {
    pub name: String,
    pub file: Vec<u8>,
    pub number: u32,
}

pub fn alone(fault: &Fault) -> Faulty {
    let mut parts = sound().parts();
    (fault.act)(&mut parts);
    Faulty { name: fault.name.clone(), file: parts.file(), number: fault.number }
}

fn together(one: &Fault, other: &Fault) -> Faulty {
    let rank = |fault: &Fault| ORDER.iter().position(|&n| n == fault.number).expect("a number of the loader");
    let (first, second) = if rank(one) < rank(other) { (one, other) } else { (other, one) };
    let mut parts = sound().parts();
    (second.act)(&mut parts);
    (first.act)(&mut parts);
    let name = format!("{} ({}) with {} ({})", first.name, first.number, second.name, second.number);
    Faulty { name, file: parts.file(), number: first.number }
}

pub fn pairs(faults: &[Fault]) -> Vec<Faulty> {
    let mut all = vec![];
    for (i, one) in faults.iter().enumerate() {
        all.extend(faults[i + 1..].iter().filter(|other| other.number != one.number).map(|other| together(one, other)));
    }
    all
}
