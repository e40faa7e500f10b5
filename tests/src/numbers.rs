// The numbers of docs/SPEC.md, each once; the names are those of the header.

// Sizes: a file with no byte in any body, and the largest.
pub const SMALLEST_FILE: usize = 26;
pub const LARGEST_FILE: usize = 37_436;

// Of a target and of a reply form.
pub const MOST_STATES: u8 = 32;
pub const MOST_FORM_STATES: u8 = 8;

// Opening and closing ones each.
pub const MOST_RULES: usize = 512;

// Of a record and of an arriving reply.
pub const MOST_TAGS: usize = 4_096;
pub const DEEPEST_RECORD: usize = 4;
pub const DEEPEST_REPLY: usize = 64;

// A shortest reply of more tags is long.
pub const MOST_COUNTED: usize = 4_096;

// No refusal.
pub const ACCEPTED: u32 = 0;

// Advice.
pub const LOST: u32 = 0;
pub const READ: u32 = 1;
pub const FETCH: u32 = 2;
pub const IN_FORM: u32 = 3;
pub const OUTSIDE: u32 = 4;

// A finished part is answered by this plus its length.
pub const FINISHED: u32 = 100;

// No losing reply, or this plus its length.
pub const NONE: u32 = 0;
pub const LOSING: u32 = 100;

// Refusals.
pub const FILE_SIZE: u32 = 11;
pub const CONTENTS: u32 = 12;
pub const TARGET: u32 = 13;
pub const REPLY_FORM: u32 = 14;
pub const RECORD: u32 = 15;
pub const RECORD_DEEP: u32 = 16;
pub const NO_REPLY: u32 = 17;
pub const REPLY: u32 = 18;
pub const UNLAWFUL: u32 = 19;
pub const HISTORY: u32 = 20;
pub const PLAY: u32 = 21;
pub const AT_END: u32 = 22;
pub const NO_FETCH: u32 = 23;
pub const BUFFER: u32 = 24;
pub const LOSING_LONG: u32 = 25;
pub const LOSING_BUFFER: u32 = 26;

// The first byte of a move.
pub const MOVE_READ: u8 = 0x20;
pub const MOVE_FETCH: u8 = 0x21;
