// The vocabulary, and which codes a file has a reply form for.

pub const CODES: u8 = 16;

// By code: the name, and the mark that says fetchable.
#[rustfmt::skip]
const TABLE: [(&str, bool); CODES as usize] = [
    ("project", false), ("object", false), ("element", false), ("sample", false),
    ("series", false), ("ring", false), ("species", false), ("sapwood", false),
    ("match", false), ("date", false), ("place", false), ("note", false),
    ("getmatch", true), ("getsap", true), ("getspec", true), ("getplace", true),
];

pub const DATE: u8 = 9;
pub const NOTE: u8 = 11;
pub const GETMATCH: u8 = 12;
pub const GETSAP: u8 = 13;
pub const GETSPEC: u8 = 14;
pub const GETPLACE: u8 = 15;

pub fn name(code: u8) -> &'static str {
    TABLE[code as usize].0
}

pub fn fetchable(code: u8) -> bool {
    TABLE[code as usize].1
}

// A form is read and judged for each of these, whether or not the code can be fetched.
pub fn has_form(code: u8) -> bool {
    fetchable(code)
}

// In rising order.
pub fn fetchable_codes() -> Vec<u8> {
    (0..CODES).filter(|&code| fetchable(code)).collect()
}

pub fn codes_with_form() -> Vec<u8> {
    (0..CODES).filter(|&code| has_form(code)).collect()
}
