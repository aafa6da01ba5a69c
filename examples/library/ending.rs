//! The front page's suit combination: K 10 2 in dummy opposite A Q 9 4 3, with an entry to each hand.
//!
//! As src/main.rs of a crate whose Cargo.toml has the dependency alphamu = { path = "bindings/rust" }:
//!     cargo run                     by bits: what each card is worth, the card to play, and how a strategy begins
//!     cargo run -- DEAL LAYOUTS     by text: the card to play, from two files
use alphamu::{card_name, card_number, cards, Question, Strategy};
use std::error::Error;

/// In how many ways the other 21 cards of the defenders fill up West's hand, by the number of his spades.
const WAYS: [u32; 6] = [45, 65, 78, 78, 65, 45];
const MISSING: [&str; 5] = ["S5", "S6", "S7", "S8", "SJ"];
/// The defenders' other cards, in the order in which they fill up West's seven.
const OTHERS: [&str; 9] = ["HK", "DK", "HQ", "DQ", "HJ", "DJ", "HT", "DT", "H9"];

/// What West has in a layout, with its weight. The layout has a bit for each missing spade.
fn layout(number: usize) -> Option<(u64, u32)> {
    let spades: Vec<&str> = (0..5).filter(|it| number >> it & 1 != 0).map(|it| MISSING[it]).collect();
    let mut hand = 0;
    for name in spades.iter().chain(&OTHERS[..7 - spades.len()]) {
        hand |= 1 << card_number(name)?;
    }
    Some((hand, WAYS[spades.len()]))
}

fn by_bits() -> Result<(), Box<dyn Error>> {
    let hand = |text| cards(text).ok_or("no hand");
    let (declarer, dummy, unseen) = (hand("AQ943.2.A.")?, hand("KT2.A.432.")?, hand("J8765.KQJT9.KQJT.")?);
    let question = Question { declarer, dummy, unseen, need: 7, moves: 26, ..Question::default() };
    let (lefts, weights): (Vec<u64>, Vec<u32>) = (0..32).filter_map(layout).unzip();
    let (name, total) = (|card| card_name(card).ok_or("no card"), weights.iter().sum::<u32>());
    for it in question.worths(&lefts, &weights)? {
        println!("{} wins {} of {total}; a simulation believes in {}", name(it.card)?, it.weight, it.double_dummy);
    }
    println!("play {}", name(question.card(&lefts, &weights)?.card)?);
    begin_strategy(&Question { moves: 6, ..question }.strategy(&lefts, &weights, 0)?).ok_or("no card")?;
    Ok(())
}

/// Prints how a strategy begins: its first card, and the card that answers each card of the next player.
fn begin_strategy(strategy: &Strategy) -> Option<()> {
    let first = strategy.next_card(0)?;
    println!("a strategy: play {}", card_name(first)?);
    for reply in strategy.nodes[strategy.after(0, first)?].replies.clone() {
        let (theirs, ours) = (strategy.nodes[reply].card?, strategy.next_card(reply)?);
        println!("on {} play {}", card_name(theirs)?, card_name(ours)?);
    }
    Some(())
}

fn by_text(deal: &str, layouts: &str) -> Result<(), Box<dyn Error>> {
    print!("{}", alphamu::card(&std::fs::read(deal)?, &std::fs::read(layouts)?, 26, alphamu::NODES)?);
    Ok(())
}

fn main() -> Result<(), Box<dyn Error>> {
    let words: Vec<String> = std::env::args().skip(1).collect();
    match words.as_slice() {
        [deal, layouts] => by_text(deal, layouts),
        _ => by_bits(),
    }
}
