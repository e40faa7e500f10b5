// Random jobs.

use super::Random;
use crate::jobs::{Form, Job, Target};
use crate::numbers::*;
use crate::solver::{self, Held, Move, Play, Position, Replies, Spelling, replies_at};
use crate::vocabulary::{CODES, codes_with_form};
use crate::words::{Word, open_after};
use std::collections::BTreeMap;

// Jobs are drawn until the search is within this.
const POSITIONS: usize = 6_000;

// A job, its lawful replies, and the second solver's verdict.
pub struct Drawn {
    pub job: Job,
    pub replies: Replies,
    pub yes: bool,
    // Drawn so that no choices made before the first reply would do.
    pub turning: bool,
}

// What a draw is to show.
#[derive(Clone, Copy, PartialEq)]
enum Stake {
    Anything,
    // A yes that takes a fetch, or a no that some replies would have turned to yes.
    Fetching,
    // A yes that takes a choice after a reply.
    Turning,
}

impl Random {
    // A target: any results, or results that mostly stay, or results of which most lead to one state.
    fn target(&mut self) -> Target {
        let states = self.pick(&[1, 2, 2, 3, 3, 4, 4, 5, 6, 8, 12, MOST_STATES]);
        let mut target = Target::all_to(states, 0);
        let (dead, sort, bias) = (self.state(states), self.below(5), 30 + self.below(50));
        for (c, q) in (0..CODES as usize).flat_map(|c| (0..states).map(move |q| (c, q))) {
            target.opening[q as usize][c] = match sort {
                0 if self.chance(bias) => q,
                1 if self.chance(bias) => dead,
                _ => self.state(states),
            };
            for r in 0..states {
                target.closing[r as usize][q as usize][c] = match sort {
                    0 if self.chance(bias) => q,
                    1 if self.chance(bias) => dead,
                    2 if self.chance(bias) => r,
                    _ => self.state(states),
                };
            }
        }
        target.start = self.state(states);
        target
    }

    // A record of so many elements at most.
    fn record(&mut self, most: usize, fetchable: usize) -> Word {
        let mut elements = self.below(most + 1);
        let mut word = vec![];
        while elements > 0 {
            word.extend(self.forest(&mut elements, DEEPEST_RECORD, fetchable));
        }
        word
    }

    fn accepting(&mut self, states: u8) -> u32 {
        let percent = self.pick(&[30, 45, 60, 75]);
        (0..states).filter(|_| self.chance(percent)).map(|s| 1u32 << s).sum()
    }

    // A job within the bounds, half of them to be no, and most with something at stake.
    pub fn job(&mut self) -> Drawn {
        let (wanted, stake) = match self.below(100) {
            0..5 => (true, Stake::Turning),
            5..20 => (self.chance(50), Stake::Anything),
            _ => (self.chance(45), Stake::Fetching),
        };
        loop {
            let (mut forms, mut replies) = (BTreeMap::new(), Replies::new());
            for code in codes_with_form() {
                let (form, words) = self.finite_form();
                forms.insert(code, form);
                replies.insert(code, words);
            }
            let record = if stake == Stake::Turning { self.record(5, 90) } else { self.record(12, 60) };
            let mut job = Job { target: self.target(), forms, record };
            for _ in 0..6 {
                job.target.accepting = self.accepting(job.target.states);
                let Some(yes) = solver::verdict(&job, &replies, POSITIONS) else { break };
                if yes == wanted && shows(&job, &replies, yes, stake) {
                    return Drawn { job, replies, yes, turning: stake == Stake::Turning };
                }
            }
        }
    }

    // A record of few elements, with one to fetch.
    fn short_record(&mut self) -> Word {
        let record = self.record(4, 80);
        if record.iter().any(|&tag| solver::fetch_allowed(tag)) { record } else { self.short_record() }
    }

    // A job with finite forms that have several replies of one length, and its lawful replies.
    pub fn crowded_job(&mut self) -> (Job, Replies) {
        let (mut forms, mut replies) = (BTreeMap::new(), Replies::new());
        for code in codes_with_form() {
            let (form, words) = self.crowded_form();
            forms.insert(code, form);
            replies.insert(code, words);
        }
        let mut target = self.target();
        target.accepting = self.accepting(target.states);
        (Job { target, forms, record: self.short_record() }, replies)
    }

    // Forms with lawful replies, and at least so many of them without a longest.
    fn endless_forms(&mut self, at_least: usize) -> BTreeMap<u8, Form> {
        let codes = codes_with_form();
        let mut forms = vec![];
        while forms.len() < codes.len() {
            let form = self.blurred_form();
            let endless = solver::longest_reply(&form).is_none();
            if solver::has_lawful_reply(&form) && (endless || forms.len() >= at_least) {
                forms.push(form);
            }
        }
        self.shuffle(&mut forms);
        codes.into_iter().zip(forms).collect()
    }

    // A job of some size with endless forms.
    pub fn endless_job(&mut self) -> Job {
        let forms = self.endless_forms(1);
        let mut target = self.target();
        target.accepting = self.accepting(target.states);
        Job { target, forms, record: self.record(40, 50) }
    }

    // A target that counts tags, round and round, by as much as the tag says.
    fn counting_target(&mut self) -> Target {
        let states = self.pick(&[5, 7, 11, 16, 31, MOST_STATES]);
        let mut target = Target::all_to(states, 0);
        for c in 0..CODES as usize {
            let (going_in, coming_out) = (self.state(states), self.state(states));
            for q in 0..states {
                target.opening[q as usize][c] = (q + going_in) % states;
                for r in 0..states {
                    target.closing[r as usize][q as usize][c] = (r + coming_out) % states;
                }
            }
        }
        target.start = self.state(states);
        target
    }

    // A job with endless forms and few states outside the form, so that it takes longer replies to lose a play.
    pub fn job_to_lose(&mut self) -> Job {
        let forms = self.endless_forms(4);
        let mut target = if self.chance(60) { self.counting_target() } else { self.target() };
        let every = u32::MAX >> (MOST_STATES - target.states);
        let outside = 1 << self.state(target.states) | 1 << self.state(target.states);
        target.accepting = every & !outside;
        Job { target, forms, record: self.short_record() }
    }

    // A play that fits, at a position; moves need not lead there.
    pub fn play_at(&mut self, job: &Job, position: usize) -> Play {
        let states = job.target.states;
        let open = open_after(&job.record[..position]);
        let count = self.pick(&[0, 1, 5, 30, 30, 300]);
        let mut marks: Vec<usize> = (0..open).map(|_| self.below(count + 1)).collect();
        marks.sort();
        let state = self.state(states);
        let kept = (0..open).map(|_| self.state(states)).collect();
        Play::from(&Held { position, state, kept }, count, &marks)
    }
}

fn shows(job: &Job, replies: &Replies, yes: bool, stake: Stake) -> bool {
    let start = Spelling::default();
    match stake {
        Stake::Anything => true,
        Stake::Fetching if yes => !solver::in_form(&job.target, &job.record),
        Stake::Fetching => some_reply_wins(job, replies, &start, &mut POSITIONS.clone()),
        Stake::Turning => {
            let fetches = job.record.iter().filter(|&&tag| solver::fetch_allowed(tag)).count();
            !(0..1 << fetches).any(|choices| chosen_wins(job, replies, &start, choices))
        }
    }
}

// Whether some moves and some lawful replies end in the form. A long search is given up.
fn some_reply_wins(job: &Job, replies: &Replies, at: &Spelling, left: &mut usize) -> bool {
    if at.position == job.record.len() {
        return at.form_met(job);
    }
    if *left == 0 {
        return false;
    }
    *left -= 1;
    let possible = replies_at(replies, job.record[at.position]).unwrap_or_default();
    let fetches = possible.iter().map(|reply| Move::Fetch(reply.clone()));
    fetches.chain([Move::Read]).any(|step| some_reply_wins(job, replies, &at.after(job, &step), left))
}

// Whether every lawful reply ends in the form, where the lowest bit of the choices left says whether to fetch next.
fn chosen_wins(job: &Job, replies: &Replies, at: &Spelling, choices: u32) -> bool {
    if at.position == job.record.len() {
        return at.form_met(job);
    }
    let wins = |step: Move, left| chosen_wins(job, replies, &at.after(job, &step), left);
    match replies_at(replies, job.record[at.position]) {
        None => wins(Move::Read, choices),
        Some(_) if choices & 1 == 0 => wins(Move::Read, choices >> 1),
        Some(possible) => possible.iter().all(|reply| wins(Move::Fetch(reply.clone()), choices >> 1)),
    }
}
