// Words of tags.

use crate::vocabulary::CODES;

pub type Word = Vec<u8>;

pub fn closing(code: u8) -> u8 {
    CODES + code
}

pub fn is_opening(tag: u8) -> bool {
    tag < CODES
}

// An opening or a closing tag's code.
pub fn code(tag: u8) -> u8 {
    tag % CODES
}

pub fn only_tags(bytes: &[u8]) -> bool {
    bytes.iter().all(|&byte| byte < 2 * CODES)
}

// An element of a code, around the tags given.
pub fn element(code: u8, inside: &[u8]) -> Word {
    [&[code], inside, &[closing(code)]].concat()
}

// Empty elements, one after another.
pub fn empties(codes: &[u8]) -> Word {
    codes.iter().flat_map(|&c| element(c, &[])).collect()
}

// Elements of one code within each other, as many as the depth says.
pub fn tower(code: u8, depth: usize) -> Word {
    (0..depth).fold(vec![], |word, _| element(code, &word))
}

// Where the longest well-nested word from a place on ends; none if an element there is not closed by a tag of its own.
fn nested_to(word: &[u8], from: usize) -> Option<usize> {
    let mut at = from;
    while at < word.len() && is_opening(word[at]) {
        let end = nested_to(word, at + 1)?;
        if end == word.len() || word[end] != closing(word[at]) {
            return None;
        }
        at = end + 1;
    }
    Some(at)
}

pub fn well_nested(word: &[u8]) -> bool {
    nested_to(word, 0) == Some(word.len())
}

// How many elements are open after some first tags of a well-nested word.
pub fn open_after(tags: &[u8]) -> usize {
    let opened = tags.iter().filter(|&&tag| is_opening(tag)).count();
    2 * opened - tags.len()
}

pub fn depth(word: &[u8]) -> usize {
    let (mut open, mut deepest) = (0, 0);
    for &tag in word {
        open = if is_opening(tag) { open + 1 } else { open - 1 };
        deepest = deepest.max(open);
    }
    deepest
}
