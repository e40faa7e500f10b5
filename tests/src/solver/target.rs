// The target's runs.

use crate::jobs::Target;
use crate::words::{code, is_opening};

// The run over a word whose elements may be open at its end, from a state with states kept.
pub fn run(target: &Target, word: &[u8], state: u8, kept: &[u8]) -> (u8, Vec<u8>) {
    let mut state = state;
    let mut kept = kept.to_vec();
    for &tag in word {
        if is_opening(tag) {
            kept.push(state);
            state = target.opening[state as usize][code(tag) as usize];
        } else {
            let q = kept.pop().expect("a closing tag closes an element");
            state = target.closing[state as usize][q as usize][code(tag) as usize];
        }
    }
    (state, kept)
}

pub fn accepts(target: &Target, state: u8) -> bool {
    target.accepting >> state & 1 == 1
}

pub fn in_form(target: &Target, word: &[u8]) -> bool {
    accepts(target, run(target, word, target.start, &[]).0)
}
