// The second solver: each condition straight from docs/SPEC.md.
//
// The game is searched over the words spelled. Replies are listed, so the forms must be finite; whether the record ended in the form is
// found by running the target over the final word. Effects are only listed for printing, and nothing is decided by them.

mod entries;
mod files;
mod forms;
mod game;
mod plays;
mod target;

pub use entries::{advice_entry, check_entry, finished_entry, history, moves, losing_entry};
pub use files::load;
pub use forms::{has_lawful_reply, lawful, longest_reply, replies, replies_within};
pub use game::{
    Effect, Held, Move, Position, Replies, Search, Spelling, all_replies, effect, effect_line, fetch_allowed, listing,
    replies_at, verdict,
};
pub use plays::{PLACES, Play, fits, play_advice, play_move, play_losing, small_and_nested};
pub use target::in_form;
