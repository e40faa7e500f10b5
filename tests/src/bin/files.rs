// The loader from outside: files built right and wrong, and what the program says of them. Argument: the program.

use sakonite_tests::faults::{alone, conditions, more_faults, pairs, sound};
use sakonite_tests::harness::{Tally, answer, argument, for_each, hex};
use sakonite_tests::jobs::{Form, Job, Parts, Role, Target, all_forms, orders};
use sakonite_tests::marked::{self, P5_LISTING, marked};
use sakonite_tests::numbers::*;
use sakonite_tests::random::Random;
use sakonite_tests::solver::load;
use sakonite_tests::vocabulary::{CODES, DATE, GETMATCH, GETPLACE, GETSAP, codes_with_form, name};
use sakonite_tests::words::{empties, tower};

enum Due {
    // The verdict is not at stake.
    Loads,
    Prints(String),
    Refused(u32),
}

struct Case {
    name: String,
    file: Vec<u8>,
    due: Due,
}

fn case(name: impl Into<String>, file: Vec<u8>, due: Due) -> Case {
    Case { name: name.into(), file, due }
}

fn judge(tally: &Tally, program: &str, Case { name, file, due }: &Case) {
    let found = answer(program, file);
    let by_solver = load(file).err();
    let refused = if let Due::Refused(number) = due { Some(*number) } else { None };
    tally.check(by_solver == refused, || format!("{name}: the second solver says {by_solver:?}"));
    match due {
        Due::Prints(printed) => tally.equal(name, &found, printed),
        Due::Refused(number) => tally.equal(name, &found, &format!("refused {number}\n")),
        Due::Loads => {
            let first = found.lines().next().unwrap_or("");
            tally.check(first == "verdict yes" || first == "verdict no", || format!("{name}: loads, found '{first}'"));
        }
    }
}

// On a resting target every effect is the state itself, and all of the record comes to nothing.
fn resting(states: u8) -> Job {
    Job { target: Target { accepting: 1, ..Target::resting(states) }, ..sound() }
}

// The shortest reply is the empty one, where a form's start is accepting, or else one element, as the sound job's forms have it.
fn resting_listing(job: &Job) -> String {
    let mut lines = "verdict yes\n".to_string();
    for (&code, form) in &job.forms {
        let tags = if form.accepting >> form.start & 1 == 1 { 0 } else { 2 };
        for q in 0..job.target.states {
            lines += &format!("{} {q}: {q}/{tags}\n", name(code));
        }
    }
    lines
}

// A job on a resting target with something changed.
fn rests(name: impl Into<String>, states: u8, change: impl Fn(&mut Job)) -> Case {
    let mut job = resting(states);
    change(&mut job);
    case(name, job.file(), Due::Prints(resting_listing(&job)))
}

// Sizes at their bounds.
fn bounds() -> Vec<Case> {
    let mut all = vec![];
    for states in 1..=MOST_STATES {
        all.push(rests(format!("n {states}"), states, |_| ()));
    }
    all.push(rests("n 32, every state accepting", MOST_STATES, |job| {
        job.target.accepting = u32::MAX;
        job.target.start = MOST_STATES - 1;
    }));
    for states in 1..=MOST_FORM_STATES {
        let mut job = sound();
        let accepting = 0xff >> (MOST_FORM_STATES - states);
        job.forms.insert(GETSAP, Form { accepting, ..Form::new(states, 0) });
        all.push(case(format!("m {states}"), job.file(), Due::Loads));
    }
    let with_record = |name: &str, record: &[u8]| rests(name, 3, |job| job.record = record.to_vec());
    let deepest = |code| {
        let tower = tower(code, DEEPEST_RECORD);
        tower.repeat(MOST_TAGS / tower.len())
    };
    all.push(with_record("empty record", &[]));
    all.push(with_record("4,096 tags", &empties(&[DATE; MOST_TAGS / 2])));
    all.push(with_record("4,096 fetchable tags, depth 4", &deepest(GETMATCH)));
    for depth in 1..=DEEPEST_RECORD {
        all.push(with_record(&format!("depth {depth}"), &tower(DATE, depth)));
    }
    for code in 0..CODES {
        all.push(with_record(&format!("code {code}"), &empties(&[code])));
    }
    all.push(rests("512 repeated rules", 2, |job| {
        job.forms.insert(GETMATCH, Form { opening: vec![[0, 0, 0, 0]; MOST_RULES], ..Form::nothing() });
        job.forms.insert(GETPLACE, Form { closing: vec![[0, 0, CODES - 1, 0]; MOST_RULES], ..Form::nothing() });
    }));
    let largest = rests("the largest file", MOST_STATES, |job| {
        job.forms = all_forms(&Form::largest());
        job.record = deepest(GETPLACE);
    });
    assert_eq!(largest.file.len(), LARGEST_FILE);
    all.push(largest);
    all
}

// One order is right. In any other the contents are refused, whatever the bodies are.
fn every_order() -> Vec<Case> {
    let p5 = marked::job("P5").parts();
    let mut bad = sound().parts();
    bad.body(Role::Reply(GETMATCH))[2] = 0;
    bad.body(Role::Record).push(99);
    let mut worse = bad.clone();
    worse.body(Role::Reply(GETPLACE))[1] = 3;
    let mut all = vec![];
    for order in orders(p5.entries.len()) {
        let mut add = |name, parts: &Parts, due| {
            let due = if order.is_sorted() { due } else { Due::Refused(CONTENTS) };
            all.push(case(format!("{name} in order {order:?}"), parts.in_order(&order).file(), due));
        };
        add("P5", &p5, Due::Prints(P5_LISTING.to_string()));
        add("17 and 15", &bad, Due::Refused(NO_REPLY));
        add("14, 17 and 15", &worse, Due::Refused(REPLY_FORM));
    }
    all
}

// Files with some bytes changed, as the second solver judges them.
fn changed(seed: u64) -> Case {
    let mut random = Random::new(seed);
    let mut job = resting(1 + random.below(2) as u8);
    let form = random.form_of_any_sort();
    job.forms.insert(random.pick(&codes_with_form()), form);
    let mut file = job.file();
    for _ in 0..1 + random.below(3) {
        let at = match random.below(3) {
            0 => random.below(SMALLEST_FILE),
            _ => random.below(file.len()),
        };
        file[at] = match random.below(4) {
            0 => random.byte(),
            1 => file[at].wrapping_add(1),
            2 => file[at].wrapping_sub(1),
            _ => random.below(16) as u8,
        };
    }
    if random.chance(10) {
        file.truncate(random.below(file.len()));
    }
    let due = load(&file).err().map_or(Due::Loads, Due::Refused);
    case(format!("changed file, seed {seed}: {}", hex(&file)), file, due)
}

const CHANGED: u64 = 2_000;

fn main() {
    let program = argument(1, "the program to run");
    let tally = Tally::default();
    let conditions = conditions();
    let mut cases = vec![case("the sound job", sound().file(), Due::Loads)];
    let faulty = conditions.iter().chain(&more_faults()).map(alone).chain(pairs(&conditions)).collect::<Vec<_>>();
    cases.extend(faulty.into_iter().map(|f| case(f.name, f.file, Due::Refused(f.number))));
    cases.extend(bounds());
    cases.extend(every_order());
    for p in marked() {
        let first = if p.yes { "verdict yes" } else { "verdict no" };
        let found = answer(&program, &p.job.file());
        tally.equal(p.name, found.lines().next().unwrap_or(""), first);
    }
    cases.extend((0..CHANGED).map(changed));

    println!("{} files", cases.len());
    for_each(cases.len(), |i| judge(&tally, &program, &cases[i]));
    tally.end()
}
