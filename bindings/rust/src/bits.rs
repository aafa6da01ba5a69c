//! Questions by bits: hands as sets of cards in, numbers out.
use crate::error::{Error, DONE, NO_ROOM};
use crate::{raw, Choice, NODES, NO_TRUMP};
use std::ops::Range;

/// A position in which declarer or dummy is to play.
///
/// Its calls take the layouts as the cards that the defender on declarer's left still holds in
/// each, and as many weights. Leave out layouts in which a defender would have revoked: a question
/// doesn't know earlier tricks.
#[derive(Clone, Debug, PartialEq, Eq)]
pub struct Question {
    /// The cards that declarer still holds: bit i for card i, spades 0 to 12 from the two up, then
    /// hearts, diamonds and clubs.
    pub declarer: u64,
    /// The cards of dummy.
    pub dummy: u64,
    /// The cards of the two defenders together.
    pub unseen: u64,
    /// The cards of the present trick in the order of play. They are in no hand.
    pub trick: Vec<u32>,
    /// The seat that led to it, or is to lead.
    pub leader: u32,
    /// The trumps, 0 to 3, or 4 for no trump.
    pub trump: u32,
    /// How many tricks declarer's side still needs, the present one counted.
    pub need: u32,
    /// How many cards of declarer's side are planned, 1 to 26.
    pub moves: u32,
    /// The most nodes that the search after one card may enter.
    pub nodes: u64,
}

impl Default for Question {
    /// A question at no trump with declarer to lead and no cards yet, which needs its hands, `need`
    /// and `moves`.
    fn default() -> Self {
        let (declarer, dummy, unseen, trick) = (0, 0, 0, Vec::new());
        Question {
            declarer,
            dummy,
            unseen,
            trick,
            leader: crate::DECLARER,
            trump: NO_TRUMP,
            need: 0,
            moves: 0,
            nodes: NODES,
        }
    }
}

/// One bit for each layout, set if the contract is made there.
#[derive(Clone, Copy, Debug, Default, PartialEq, Eq)]
pub struct Vector(pub [u64; 4]);

impl Vector {
    /// Whether the contract is made in a layout, counted from 0.
    pub fn makes(&self, layout: usize) -> bool {
        self.0
            .get(layout / 64)
            .map_or(false, |word| word >> (layout % 64) & 1 != 0)
    }
}

/// What a card is worth.
#[derive(Clone, Copy, Debug, PartialEq, Eq)]
pub struct Worth {
    /// The card.
    pub card: u32,
    /// The most that a strategy wins which begins with the card.
    pub weight: u32,
    /// What a simulation with open hands believes: at least as much.
    pub double_dummy: u32,
    /// The first best vector of the front after the card, which weighs `weight`.
    pub vector: Vector,
}

/// A card that is played, and the places in the strategy of its replies, the nodes of the cards
/// that can come next: none if the strategy stops after the card, one if declarer or dummy plays
/// next, and otherwise one for each card that the defender may play.
#[derive(Clone, Debug, PartialEq, Eq)]
pub struct Node {
    /// The card. The first node has none: it stands for what has been played already.
    pub card: Option<u32>,
    /// The places of its replies.
    pub replies: Range<usize>,
}

/// A strategy of declarer's side. Play begins at place 0. At declarer's or dummy's turn play
/// [`Strategy::next_card`], and after each card, whoever plays it, go on at [`Strategy::after`].
#[derive(Clone, Debug, PartialEq, Eq)]
pub struct Strategy {
    /// The nodes, from the one that stands for what has been played already.
    pub nodes: Vec<Node>,
}

impl Strategy {
    /// The card to play at a place at which declarer or dummy is to play. None if the strategy has
    /// stopped: no moves are left, or the result is decided.
    pub fn next_card(&self, place: usize) -> Option<u32> {
        let first = self.nodes.get(place)?.replies.clone().next()?;
        self.nodes.get(first)?.card
    }

    /// The place to which a card leads. None if the strategy has no reply to it.
    pub fn after(&self, place: usize, card: u32) -> Option<usize> {
        let mut replies = self.nodes.get(place)?.replies.clone();
        replies.find(|it| {
            self.nodes
                .get(*it)
                .map_or(false, |node| node.card == Some(card))
        })
    }
}

fn done(status: u32) -> Result<(), Error> {
    if status == DONE {
        Ok(())
    } else {
        Err(Error::of_bits(status))
    }
}

/// What a call writes to an array, with a second try if there is more of it.
fn all<T: Clone + Default>(
    room: usize,
    call: impl Fn(*mut T, usize, *mut usize) -> u32,
) -> Result<Vec<T>, Error> {
    let mut found = vec![T::default(); room];
    loop {
        let mut written = 0;
        let status = call(found.as_mut_ptr(), found.len(), &mut written);
        if status == NO_ROOM {
            found.resize(written, T::default());
            continue;
        }
        done(status)?;
        found.truncate(written);
        return Ok(found);
    }
}

// SAFETY of the calls below: each pointer is that of a value or of a slice with its length, and
// never null; what is written to is borrowed by nobody else; and the library keeps no pointer.
impl Question {
    /// The card to play: the first that keeps the greatest weight.
    pub fn card(&self, lefts: &[u64], weights: &[u32]) -> Result<Choice, Error> {
        let (question, mut choice) = (self.raw()?, Choice::default());
        let (many, weighed) = (lefts.len(), weights.len());
        done(unsafe {
            raw::alphamu_bits_card(
                &question,
                lefts.as_ptr(),
                many,
                weights.as_ptr(),
                weighed,
                &mut choice,
            )
        })?;
        Ok(choice)
    }

    /// What each legal card is worth, in card order.
    pub fn worths(&self, lefts: &[u64], weights: &[u32]) -> Result<Vec<Worth>, Error> {
        let (question, many, weighed) = (self.raw()?, lefts.len(), weights.len());
        let found = all(13, |worths, room, written| unsafe {
            raw::alphamu_bits_cards(
                &question,
                lefts.as_ptr(),
                many,
                weights.as_ptr(),
                weighed,
                worths,
                room,
                written,
            )
        })?;
        let worth = |it: raw::Worth| {
            let (card, weight, double_dummy) = (it.card, it.weight, it.double_dummy);
            Worth {
                card,
                weight,
                double_dummy,
                vector: Vector(it.vector),
            }
        };
        Ok(found.into_iter().map(worth).collect())
    }

    /// The vectors of the front: those with more ones first, and of two with as many the one with a
    /// 1 at the first layout in which they differ.
    pub fn front(&self, lefts: &[u64], weights: &[u32]) -> Result<Vec<Vector>, Error> {
        let (question, many, weighed) = (self.raw()?, lefts.len(), weights.len());
        let words = all(256, |vectors, room, written| unsafe {
            raw::alphamu_bits_front(
                &question,
                lefts.as_ptr(),
                many,
                weights.as_ptr(),
                weighed,
                vectors,
                room,
                written,
            )
        })?;
        Ok(words
            .chunks_exact(4)
            .map(|it| Vector([it[0], it[1], it[2], it[3]]))
            .collect())
    }

    /// The strategy for the vector at a place of the front, 0 for the first one. It makes the
    /// contract in exactly the layouts of the vector, whatever the defenders do.
    pub fn strategy(
        &self,
        lefts: &[u64],
        weights: &[u32],
        vector: usize,
    ) -> Result<Strategy, Error> {
        let (question, many, weighed) = (self.raw()?, lefts.len(), weights.len());
        let found = all(1024, |nodes, room, written| unsafe {
            raw::alphamu_bits_strategy(
                &question,
                lefts.as_ptr(),
                many,
                weights.as_ptr(),
                weighed,
                vector,
                nodes,
                room,
                written,
            )
        })?;
        let node = |it: raw::Node| Node {
            card: (it.card < 52).then_some(it.card),
            replies: it.first_reply..it.first_reply + it.replies,
        };
        Ok(Strategy {
            nodes: found.into_iter().map(node).collect(),
        })
    }

    fn raw(&self) -> Result<raw::Question, Error> {
        if self.trick.len() > 3 {
            return Err(Error::of_bits(34));
        }
        let mut trick = [0; 3];
        trick[..self.trick.len()].copy_from_slice(&self.trick);
        let Question {
            declarer,
            dummy,
            unseen,
            leader,
            trump,
            need,
            moves,
            nodes,
            ..
        } = *self;
        Ok(raw::Question {
            declarer,
            dummy,
            unseen,
            nodes,
            trick,
            played: self.trick.len() as u32,
            leader,
            trump,
            need,
            moves,
        })
    }
}
