//! Why there is no answer.
use std::fmt;

pub const DONE: u32 = 0;
pub const NO_ROOM: u32 = 8;

/// Why there is no answer: a number of alphamu.h, and a line that says it in words. By text the
/// number is the program's status and the line the one that it writes to standard error.
#[derive(Clone, Debug, PartialEq, Eq)]
pub struct Error {
    /// The number.
    pub status: u32,
    /// The line, without its end.
    pub line: String,
}

impl Error {
    /// The error of a question by bits.
    pub(crate) fn of_bits(status: u32) -> Self {
        Error {
            status,
            line: line_of(status).to_owned(),
        }
    }
}

impl fmt::Display for Error {
    fn fmt(&self, f: &mut fmt::Formatter<'_>) -> fmt::Result {
        write!(f, "{} (status {})", self.line, self.status)
    }
}

impl std::error::Error for Error {}

fn line_of(status: u32) -> &'static str {
    match status {
        6 => "a defender is to play, or no card is left",
        7 => "a search needs more nodes",
        9 => "out of memory",
        32 => "a hand has a bit from 52 on",
        33 => "a card is in two of declarer, dummy and unseen",
        34 => "the trick has more than 3 cards, or one that is no card",
        35 => "a card of the trick is in it twice, or still in a hand",
        36 => "the sizes of the hands and the trick don't go together",
        37 => "leader isn't 0 to 3",
        38 => "trump isn't 0 to 4",
        39 => "need isn't 0 to 13",
        40 => "there is no layout",
        41 => "there are more than 256 layouts",
        42 => "a layout isn't a part of unseen, or not of the size of Left's hand",
        43 => "there isn't one weight for each layout",
        44 => "a weight isn't 1 to 1,000,000",
        45 => "moves aren't 1 to 26",
        46 => "nodes are 0",
        47 => "the front has fewer vectors",
        _ => "no answer",
    }
}
