// Random words and reply forms.

use super::Random;
use crate::jobs::{Form, Rule};
use crate::numbers::*;
use crate::solver;
use crate::vocabulary::fetchable_codes;
use crate::words::{Word, code, element, empties, is_opening};

// Forms are drawn until they are within these, so that the search ends soon.
const STEPS: usize = 3_000;
const MOST_REPLIES: usize = 5;
const LONGEST_REPLY: usize = 12;
const MOST_CROWDED: usize = 300;

// How many in a hundred codes in a reply are fetchable. They are never fetched.
const FETCHABLE: usize = 40;

impl Random {
    // Fetchable codes more often than others.
    fn code(&mut self, fetchable: usize) -> u8 {
        if self.chance(fetchable) { self.pick(&fetchable_codes()) } else { self.pick(&[0, 1, 5, 9, 11]) }
    }

    // A well-nested word with at most so many elements and this depth.
    pub(super) fn forest(&mut self, elements: &mut usize, depth: usize, fetchable: usize) -> Word {
        let mut word = vec![];
        while *elements > 0 && depth > 0 {
            *elements -= 1;
            let code = self.code(fetchable);
            let inside = if self.chance(55) { self.forest(elements, depth - 1, fetchable) } else { vec![] };
            word.extend(element(code, &inside));
            if self.chance(35) {
                break;
            }
        }
        word
    }

    fn opening_rule(&mut self, states: u8) -> Rule {
        [self.state(states), self.code(FETCHABLE), self.state(states), self.state(states)]
    }

    fn closing_rule(&mut self, states: u8) -> Rule {
        [self.state(states), self.state(states), self.code(FETCHABLE), self.state(states)]
    }

    // Any rules at all.
    pub fn form_of_any_sort(&mut self) -> Form {
        let states = 1 + self.state(MOST_FORM_STATES);
        let rules = self.below(10);
        let mut form = Form::new(states, self.state(states));
        form.accepting = self.below(1 << states) as u8;
        for _ in 0..rules {
            let o = self.opening_rule(states);
            form.opening.push(o);
            if self.chance(80) {
                form.closing.push([self.state(states), o[3], o[1], self.state(states)]);
            }
            if self.chance(30) {
                form.closing.push(self.closing_rule(states));
            }
        }
        form
    }

    // A path of rules for each of some words. Paths share states where there are too few, and then spell more words than those.
    fn form_of_words(&mut self) -> Form {
        let states = 2 + self.state(MOST_FORM_STATES - 1);
        let mut form = Form::new(states, self.state(states));
        let mut fresh: Vec<u8> = (0..states).collect();
        self.shuffle(&mut fresh);
        fresh.retain(|&s| s != form.start);
        for _ in 0..1 + self.below(3) {
            let mut elements = self.below(4);
            let word = self.forest(&mut elements, 3, FETCHABLE);
            let mut state = form.start;
            let mut kept = vec![];
            for tag in word {
                let next = fresh.pop().unwrap_or_else(|| self.state(states));
                if is_opening(tag) {
                    kept.push(self.state(states));
                    form.opening.push([state, tag, next, kept[kept.len() - 1]]);
                } else {
                    form.closing.push([state, kept.pop().expect("well nested"), code(tag), next]);
                }
                state = next;
            }
            form.accepting |= 1 << state;
        }
        form
    }

    // States in levels: an element leads on within a level, its inside lies on a deeper one.
    fn form_of_levels(&mut self) -> Form {
        let states = 3 + self.state(MOST_FORM_STATES - 2);
        let level = |s: u8| s * 3 / states;
        let last = (0..states).filter(|&s| level(s) == 0).max().expect("state 0");
        let mut form = Form { accepting: 1 << last, ..Form::new(states, 0) };
        if self.chance(30) {
            form.accepting |= 1;
        }
        for _ in 0..3 + self.below(8) {
            let (from, to) = (self.state(states), self.state(states));
            let (first, second) = (self.state(states), self.state(states));
            let deeper = level(first) > level(from) && level(second) > level(from);
            if level(from) == level(to) && from < to && deeper {
                let (code, kept) = (self.code(FETCHABLE), self.state(states));
                form.opening.push([from, code, first, kept]);
                form.closing.push([second, kept, code, to]);
            }
        }
        form
    }

    // Elements within each other, six at most, and perhaps fewer; a kept state tells how deep an element lies.
    fn form_of_towers(&mut self) -> Form {
        let last = MOST_FORM_STATES - 1;
        let depth = 2 + self.state(5);
        let mut form = Form { accepting: 1 << last, ..Form::new(MOST_FORM_STATES, 0) };
        for level in 0..depth {
            let (code, kept) = (self.code(FETCHABLE), last - level);
            form.opening.push([level, code, level + 1, kept]);
            form.closing.push([last, kept, code, last]);
            if level + 1 == depth || self.chance(40) {
                form.closing.push([level + 1, kept, code, last]);
            }
        }
        form
    }

    // A form of some sort, with rules repeated, rules that lead nowhere, and the rules in any order.
    pub(super) fn blurred_form(&mut self) -> Form {
        let mut form = match self.below(8) {
            0 => self.form_of_any_sort(),
            1 => self.form_of_towers(),
            2 | 3 => self.form_of_levels(),
            _ => self.form_of_words(),
        };
        if self.chance(25) {
            for _ in 0..1 + self.below(3) {
                form.opening.push(self.opening_rule(form.states));
                form.closing.push(self.closing_rule(form.states));
            }
        }
        if self.chance(25) && !form.opening.is_empty() && !form.closing.is_empty() {
            form.opening.push(self.pick(&form.opening));
            form.closing.push(self.pick(&form.closing));
        }
        self.shuffle(&mut form.opening);
        self.shuffle(&mut form.closing);
        form
    }

    // The same elements with another code, in the place of some.
    fn with_other_code(&mut self, form: &mut Form) {
        let other = self.code(FETCHABLE);
        let [state, code, next, kept] = self.pick(&form.opening);
        form.opening.push([state, other, next, kept]);
        let same: Vec<Rule> = form.closing.iter().filter(|c| c[1] == kept && c[2] == code).copied().collect();
        form.closing.extend(same.iter().map(|c| [c[0], kept, other, c[3]]));
    }

    // A new state beside an old one: all rules are listed again, with the new one in some of the old one's places. Words have several runs
    // then, and keep several states.
    fn with_twin(&mut self, form: &mut Form) {
        let (old, twin) = (self.state(form.states), form.states);
        for (rules, code_at) in [(&mut form.opening, 1), (&mut form.closing, 2)] {
            for mut rule in rules.clone() {
                for i in (0..4).filter(|&i| i != code_at) {
                    if rule[i] == old && self.chance(70) {
                        rule[i] = twin;
                    }
                }
                rules.push(rule);
            }
        }
        form.states += 1;
        form.accepting |= (form.accepting >> old & 1) << twin;
    }

    // An element that holds another, or is followed by one.
    fn form_of_two(&mut self) -> Form {
        let [a, b, c] = [0; 3].map(|_| self.code(FETCHABLE));
        Form::of(&[element(a, &empties(&[b])), empties(&[a, c])])
    }

    // A finite form with several lawful replies of one length, and these.
    pub(super) fn crowded_form(&mut self) -> (Form, Vec<Word>) {
        loop {
            let mut form = match self.below(5) {
                0 => self.form_of_towers(),
                1 => self.form_of_two(),
                2 | 3 => self.form_of_levels(),
                _ => self.form_of_words(),
            };
            for _ in 0..1 + self.below(4) {
                if !form.opening.is_empty() {
                    self.with_other_code(&mut form);
                }
            }
            if form.states < MOST_FORM_STATES && self.chance(60) {
                self.with_twin(&mut form);
            }
            self.shuffle(&mut form.opening);
            self.shuffle(&mut form.closing);
            if solver::longest_reply(&form).is_none_or(|longest| longest > LONGEST_REPLY) {
                continue;
            }
            let Some(replies) = solver::replies(&form, STEPS) else { continue };
            let as_long = |word: &Word| replies.iter().filter(|other| other.len() == word.len()).count();
            if replies.len() <= MOST_CROWDED && replies.iter().any(|word| as_long(word) > 2) {
                return (form, replies);
            }
        }
    }

    // A finite form with its lawful replies, of which there is one at least.
    pub(super) fn finite_form(&mut self) -> (Form, Vec<Word>) {
        loop {
            let form = self.blurred_form();
            if solver::longest_reply(&form).is_none_or(|longest| longest > LONGEST_REPLY) {
                continue;
            }
            let Some(replies) = solver::replies(&form, STEPS) else { continue };
            // Forms with but the empty reply come up too often.
            let dull = replies == [vec![]] && self.chance(80);
            if !replies.is_empty() && replies.len() <= MOST_REPLIES && !dull {
                return (form, replies);
            }
        }
    }
}
