//! Cards, and sets of them.

const SUITS: &[u8; 4] = b"SHDC";
const RANKS: &[u8; 13] = b"23456789TJQKA";

fn suit_of(letter: u8) -> Option<usize> {
    SUITS
        .iter()
        .position(|it| *it == letter.to_ascii_uppercase())
}

fn rank_of(letter: u8) -> Option<usize> {
    RANKS
        .iter()
        .position(|it| *it == letter.to_ascii_uppercase())
}

/// The set of a hand as PBN writes it: spades, hearts, diamonds and clubs with full stops between
/// them, as `KJ.A5..`. None if it isn't written so, or if a card is in it twice.
pub fn cards(hand: &str) -> Option<u64> {
    let suits: Vec<&str> = hand.split('.').collect();
    if suits.len() != 4 {
        return None;
    }
    let mut found = 0u64;
    for (suit, rank) in suits
        .iter()
        .enumerate()
        .flat_map(|(suit, ranks)| ranks.bytes().map(move |it| (suit, it)))
    {
        let bit = 1 << (13 * suit + rank_of(rank)?);
        if found & bit != 0 {
            return None;
        }
        found |= bit;
    }
    Some(found)
}

/// A set of cards as PBN writes a hand, from the ace down.
pub fn hand(cards: u64) -> String {
    let ranks = |suit: usize| {
        (0..13)
            .rev()
            .filter(move |rank| cards >> (13 * suit + rank) & 1 != 0)
    };
    let suits: Vec<String> = (0..4)
        .map(|suit| ranks(suit).map(|rank| RANKS[rank] as char).collect())
        .collect();
    suits.join(".")
}

/// The number of a card, 0 to 51, by its name, as `S3` or `HT`.
pub fn card_number(name: &str) -> Option<u32> {
    match *name.as_bytes() {
        [suit, rank] => Some((13 * suit_of(suit)? + rank_of(rank)?) as u32),
        _ => None,
    }
}

/// The name of a card by its number. None if it is more than 51.
pub fn card_name(card: u32) -> Option<String> {
    let (suit, rank) = (SUITS.get(card as usize / 13)?, RANKS[card as usize % 13]);
    Some([*suit as char, rank as char].iter().collect())
}

/// The set of four holdings of DDS, spades first, as `remainCards` has them for a hand.
pub fn from_dds(holdings: [u32; 4]) -> u64 {
    (0..4).fold(0, |found, suit| {
        found | u64::from(holdings[suit] >> 2 & 0x1fff) << (13 * suit)
    })
}

/// A set of cards as four holdings of DDS.
pub fn to_dds(cards: u64) -> [u32; 4] {
    [0, 13, 26, 39].map(|at| (cards >> at & 0x1fff) as u32 * 4)
}
