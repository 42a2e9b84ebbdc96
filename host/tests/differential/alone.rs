//! What holds on each side by itself of several cards on one pair. With room for every reply, each card's replies, picked
//! out of the bench's, are what it alone gives, and it is left as it alone would be. The normal form plays like the
//! recording. With other values of one card, no other card's replies or values change, whatever the room.

use crate::case::Lent;
use crate::side::{Side, SIDES};

/// What a run leaves.
#[derive(PartialEq)]
struct Left {
    taken: usize,
    replies: Vec<u8>,
    cards: Vec<i32>,
    values: Vec<i32>,
}

fn play(side: &Side, bus: bool, lent: &Lent, words: &[u16], room: usize) -> Result<Left, String> {
    let Lent { card: mut cards, bench, maker, mut values } = lent.clone();
    let (mut replies, mut counts) = (vec![0; room], [0; 2]);
    let call = if bus { side.bus_run } else { side.run };
    let result = call(&mut cards, &bench, &maker, &mut values, words, &mut replies, &mut counts);
    if result != 0 {
        return Err(format!("{}: a run gave {result}", side.name));
    }
    replies.truncate(counts[1] as usize);
    Ok(Left { taken: counts[0] as usize, replies, cards, values })
}

/// Letter and address of a reply.
pub(crate) fn speaker(reply: &[u8]) -> [i32; 2] {
    let mut characters = reply.iter().map(|byte| byte & 0x7F);
    let letter = characters.next().map_or(0, i32::from);
    let digits = characters.take_while(u8::is_ascii_digit);
    [letter, digits.fold(0, |address, digit| 10 * address + i32::from(digit - b'0'))]
}

/// The replies, each with its `*`.
pub(crate) fn each_reply(replies: &[u8]) -> impl Iterator<Item = &[u8]> {
    replies.split_inclusive(|byte| byte & 0x7F == b'*')
}

impl Left {
    /// The replies, the row and the values of one card.
    fn of(&self, at: usize) -> (Vec<u8>, &[i32], &[i32]) {
        let row = &self.cards[23 * at..23 * at + 23];
        let own = each_reply(&self.replies).filter(|reply| speaker(reply) == row[..2]);
        (own.flatten().copied().collect(), row, &self.values[128 * at..128 * at + 128])
    }
}

/// Several sound cards; `other` are sound values for the one at this place.
pub(crate) fn alone(
    world: &Lent,
    words: &[u16],
    room: usize,
    at: usize,
    other: &[i32],
) -> Result<i64, String> {
    let enough = words.len() * 7 + 33;
    for side in &SIDES {
        let failed = |what: &str, at: usize| Err(format!("{}: {what}, card {at}", side.name));
        let whole = play(side, true, world, words, enough)?;
        let mut length = 0;
        for card in 0..world.cards() {
            let by_itself = play(side, false, &world.one(card), words, enough)?;
            length += by_itself.replies.len();
            if by_itself.of(0) != whole.of(card) || by_itself.taken != whole.taken {
                return failed("by itself it gives other replies or is left otherwise", card);
            }
        }
        if (length, words.len()) != (whole.replies.len(), whole.taken) {
            return failed("not every reply is a card's, or not every word was taken; none", 0);
        }
        if world.card.get(2).is_none_or(|&open| open == 0) {
            let normal = play(side, true, world, &side.normal_form(words)?, enough)?;
            for card in 0..world.cards() {
                let (wanted, got) = (whole.of(card), normal.of(card));
                if (wanted.0, &wanted.1[13..16], wanted.2) != (got.0, &got.1[13..16], got.2) {
                    return failed("the normal form draws other replies or leaves it otherwise", card);
                }
            }
        }
        let mut altered = world.clone();
        altered.values[128 * at..128 * at + 128].copy_from_slice(other);
        let (before, after) =
            (play(side, true, world, words, room)?, play(side, true, &altered, words, room)?);
        if (before.taken, before.replies.len()) != (after.taken, after.replies.len()) {
            return failed("with its other values not as many words or bytes", at);
        }
        for card in (0..world.cards()).filter(|&card| card != at) {
            if before.of(card) != after.of(card) {
                return failed(
                    "with other values of another card it gives other replies or is left otherwise",
                    card,
                );
            }
        }
    }
    Ok(0)
}
