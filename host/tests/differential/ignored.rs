//! What holds on each side by itself: a card takes no notice of its neighbours. Played with them and
//! without, a recording draws the same replies and leaves the same values and offer. Its normal form, which
//! keeps them, plays like it too.

use crate::case::Lent;
use crate::side::{differing, SIDES};
use kavtziron_host::reference::calls;
use kavtziron_host::reference::card::Card;
use kavtziron_host::reference::hearing::for_each_heard;
use kavtziron_host::reference::message::Message;

/// The messages for the card among those it hears in the words, what it has open going before them.
fn own_messages(card: &Card, words: &[u16]) -> Vec<Message> {
    let mut own = Vec::new();
    for_each_heard(&mut card.open.clone(), words, |_, message| {
        if (message.letter, message.address) == (card.letter, card.address) {
            own.push(message);
        }
    });
    own
}

/// Plays a recording whole and its messages for the card alone, on each side. These come behind a silence,
/// which drops what the card has open. The normal form is played where nothing is open.
pub(crate) fn ignored(world: &Lent, words: &[u16]) -> Result<i64, String> {
    let card = calls::card_of(&world.card).ok_or("the card has no row of 23")?;
    let own = own_messages(&card, words);
    for side in &SIDES {
        let whole = side.play(world, words)?;
        let mut alone = vec![256];
        for message in &own {
            side.spell(message, &mut alone)?;
        }
        let mut others = vec![("its messages alone", alone)];
        if card.open.length == 0 {
            others.push(("the normal form", side.normal_form(words)?));
        }
        for (what, other) in others {
            let played = side.play(world, &other)?;
            if played != whole {
                return Err(differing(side.name, what, &whole, &played));
            }
        }
    }
    Ok(0)
}
