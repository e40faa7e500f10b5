// The marked plays.

use crate::jobs::{Form, Job, Target};
use crate::vocabulary::{DATE, GETMATCH, GETPLACE, GETSAP, GETSPEC, NOTE};
use crate::words::{Word, element, empties};

// Target D: a date, and then any number of getmatch, with nothing inside.
pub fn target_d() -> Target {
    let mut d = Target::all_to(3, 2);
    d.accepting = 0b010;
    let (date, getmatch) = (DATE as usize, GETMATCH as usize);
    d.opening[0][date] = 0;
    d.closing[0][0][date] = 1;
    d.opening[1][getmatch] = 1;
    d.closing[1][1][getmatch] = 1;
    d
}

// P10's form of getspec: a date, then getmatch as often as one likes.
fn date_and_matches() -> Form {
    let mut form = Form::one_of(&[DATE]);
    form.states = 4;
    form.opening.push([2, GETMATCH, 3, 2]);
    form.closing.push([3, 2, GETMATCH, 2]);
    form
}

pub struct Marked {
    pub name: &'static str,
    pub job: Job,
    pub yes: bool,
}

// P1 to P10.
pub fn marked() -> Vec<Marked> {
    let play = |name, yes, record: Word| {
        let forms = [
            (GETMATCH, Form::one_of(&[DATE])),
            (GETSAP, Form::nothing()),
            (GETSPEC, Form::one_of(&[DATE, NOTE])),
            (GETPLACE, Form { accepting: 0b101, ..Form::one_of(&[DATE]) }),
        ];
        Marked { name, job: Job { target: target_d(), forms: forms.into(), record }, yes }
    };
    let with_spec = |mut marked: Marked, form| {
        marked.job.forms.insert(GETSPEC, form);
        marked
    };
    let p7 = [element(GETSAP, &empties(&[NOTE])), empties(&[GETMATCH])].concat();
    let p8 = [element(GETSAP, &empties(&[GETPLACE])), empties(&[DATE])].concat();
    vec![
        play("P1", false, vec![]),
        play("P2", true, empties(&[DATE])),
        play("P3", true, empties(&[GETMATCH])),
        play("P4", false, empties(&[GETSPEC])),
        play("P5", true, empties(&[GETPLACE, GETMATCH])),
        play("P6", false, empties(&[GETMATCH, GETPLACE])),
        play("P7", true, p7),
        play("P8", true, p8),
        with_spec(play("P9", false, empties(&[GETSPEC])), Form::one_of(&[GETMATCH])),
        with_spec(play("P10", true, empties(&[GETSPEC])), date_and_matches()),
    ]
}

// Those whose forms are all finite.
pub fn finite() -> impl Iterator<Item = Marked> {
    marked().into_iter().filter(|p| p.name != "P10")
}

pub fn job(name: &str) -> Job {
    marked().into_iter().find(|p| p.name == name).expect("a marked play").job
}

pub const P5_LISTING: &str = "verdict yes
getmatch 0: 1/2
getmatch 1: 2/2
getmatch 2: 2/2
getsap 0: 0/0
getsap 1: 1/0
getsap 2: 2/0
getspec 0: 1/2 2/2
getspec 1: 2/2
getspec 2: 2/2
getplace 0: 0/0 1/2
getplace 1: 1/0 2/2
getplace 2: 2/0
";
