//! Several cards on one pair, the plain way: every word goes to every card, and each takes its own turn with it.

use super::card::{Card, Ran};
use super::parity::all_words;
use super::sheet::{Rows, VALUES};
use super::Refusal;

/// A bench has at most this many cards.
pub const MOST_CARDS: usize = 32;

/// Whether two cards would answer the same messages.
fn are_alike(one: &Card, other: &Card) -> bool {
    one.letter == other.letter && one.address == other.address
}

/// Whether there are at most 32, no two alike, and all hold the same open message: they hear one line.
fn are_a_bench(cards: &[Card]) -> bool {
    let like_one_before = |at: usize| cards[..at].iter().any(|other| are_alike(&cards[at], other));
    cards.len() <= MOST_CARDS
        && !(0..cards.len()).any(like_one_before)
        && cards.iter().all(|card| card.open == cards[0].open)
}

/// Numbers 1, 8, 2, 1 for offers and scans, and 3.
fn admit<'s, 'v>(
    cards: &[Card],
    bench: &'s [i32],
    maker: &'s [i32],
    values: &'v mut [i32],
) -> Result<(Rows<'s>, &'v mut [[i32; VALUES]]), Refusal> {
    if !cards.iter().all(Card::is_sound_without_sheets) {
        return Err(Refusal::Card);
    }
    if !are_a_bench(cards) {
        return Err(Refusal::Cards);
    }
    let rows = Rows::of(bench, maker).ok_or(Refusal::Sheet)?;
    if !cards.iter().all(|card| card.has_sound_offer(&rows) && card.scan.is_sound(&rows)) {
        return Err(Refusal::Card);
    }
    let (values, rest) = values.as_chunks_mut::<VALUES>();
    if !rest.is_empty() || values.len() != cards.len() {
        return Err(Refusal::Values);
    }
    if !values.iter_mut().all(|own| rows.admit(own).is_some()) {
        return Err(Refusal::Values);
    }
    Ok((rows, values))
}

/// Takes words, each to every card, until all are taken or the next word's reply no longer fits: then no card
/// takes that word. Each card has 128 values. Refused with 1, 8, 2, 1, 3, 4.
pub fn run(
    cards: &mut [Card],
    bench: &[i32],
    maker: &[i32],
    values: &mut [i32],
    words: &[u16],
    out: &mut [u8],
) -> Result<Ran, Refusal> {
    let (rows, values) = admit(cards, bench, maker, values)?;
    if !all_words(words) {
        return Err(Refusal::Word);
    }
    let (mut taken, mut written) = (0, 0);
    let mut before = cards.to_vec();
    'words: for &word in words {
        before.copy_from_slice(cards);
        let mut length = 0;
        for (card, own) in cards.iter_mut().zip(values.iter_mut()) {
            match card.take(word, &rows, own, &mut out[written + length..]) {
                Some(replied) => length += replied,
                None => {
                    // Silence changes no value, and no other card replies to this word.
                    cards.copy_from_slice(&before);
                    break 'words;
                }
            }
        }
        taken += 1;
        written += length;
    }
    Ok(Ran { taken, written })
}
