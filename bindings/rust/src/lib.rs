//! alphamu for Rust: which card should declarer play now, over the layouts that are thought
//! possible?
//!
//! There are two ways to ask. By text, a deal file and a layout file go in, and the program's text
//! comes out: [`report`], [`card`], [`fusion`], [`list_layouts`], [`check`]. By bits, hands are
//! sets of cards, and the answer is numbers: [`Question`]. In this ending dummy has the 3 and 2 of
//! spades, declarer the king and jack, and West the queen or the ace beside the 5:
//!
//! ```no_run
//! use alphamu::{cards, Question, DUMMY};
//! let set = |hand| cards(hand).unwrap();
//! let (declarer, dummy, unseen) = (set("KJ..."), set("32..."), set("AQ75..."));
//! let question = Question { declarer, dummy, unseen, leader: DUMMY, need: 1, moves: 2, ..Question::default() };
//! let choice = question.card(&[set("Q5..."), set("A5...")], &[1, 1])?;
//! assert_eq!((choice.card, choice.weight), (0, 1));
//! # Ok::<(), alphamu::Error>(())
//! ```
//!
//! Nothing is kept between calls, so any number of threads may ask at once. Each needs a stack of
//! 512 KiB.
#![warn(missing_docs)]

mod bits;
mod cards;
mod error;
mod raw;
mod text;

pub use bits::{Node, Question, Strategy, Vector, Worth};
pub use cards::{card_name, card_number, cards, from_dds, hand, to_dds};
pub use error::Error;
pub use raw::Choice;
pub use text::{card, check, fusion, list_layouts, report};

/// The most nodes that the search after one card may enter, in the program's default.
pub const NODES: u64 = 10_000_000;

/// The suits, as trumps: spades.
pub const SPADES: u32 = 0;
/// Hearts.
pub const HEARTS: u32 = 1;
/// Diamonds.
pub const DIAMONDS: u32 = 2;
/// Clubs.
pub const CLUBS: u32 = 3;
/// No trump.
pub const NO_TRUMP: u32 = 4;

/// The seats, clockwise: declarer.
pub const DECLARER: u32 = 0;
/// The defender on declarer's left.
pub const LEFT: u32 = 1;
/// Dummy.
pub const DUMMY: u32 = 2;
/// The defender on declarer's right.
pub const RIGHT: u32 = 3;

/// The version of the library's interface. These bindings are for version 1.
pub fn version() -> u32 {
    // SAFETY: the call takes nothing and writes nothing.
    unsafe { raw::alphamu_version() }
}
