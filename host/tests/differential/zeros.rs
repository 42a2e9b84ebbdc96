//! What holds on each side by itself of both zeros: the first revision answers them alike, and a recording
//! without minus zero draws the same at both revisions. The normal form keeps the sign of zero, and plays
//! like the recording at both.

use crate::case::Lent;
use crate::side::{differing, Played, SIDES};
use kavtziron_host::gen::without_minus_zeros;
use kavtziron_host::reference::hearing::{for_each_heard, Open};
use kavtziron_host::reference::message::Message;

/// The messages heard in a recording.
fn heard(words: &[u16]) -> Vec<Message> {
    let mut messages = Vec::new();
    for_each_heard(&mut Open::NONE.clone(), words, |_, message| messages.push(message));
    messages
}

/// The same with the card at a revision.
pub(crate) fn at_revision(world: &Lent, revision: i32) -> Lent {
    let mut world = world.clone();
    world.card[22] = revision;
    world
}

/// Plays a recording, the same without minus zero, and the normal form, at both revisions, on each side. The
/// card has nothing open.
pub(crate) fn zeros(world: &Lent, words: &[u16]) -> Result<i64, String> {
    let (first, second) = (at_revision(world, 1), at_revision(world, 2));
    let (plain, messages) = (without_minus_zeros(words), heard(words));
    for side in &SIDES {
        let (whole, again) = (side.play(&first, words)?, side.play(&second, words)?);
        let normal = side.normal_form(words)?;
        let same = |what: &str, one: &Played, other: &Played| match one == other {
            true => Ok(()),
            false => Err(differing(side.name, what, one, other)),
        };
        same("without minus zero", &whole, &side.play(&first, &plain)?)?;
        same("without minus zero at the second revision", &whole, &side.play(&second, &plain)?)?;
        same("the normal form at the first revision", &whole, &side.play(&first, &normal)?)?;
        same("the normal form at the second revision", &again, &side.play(&second, &normal)?)?;
        if heard(&normal) != messages || side.normal_form(&normal)? != normal {
            return Err(format!("{}: the normal form isn't heard as the recording is", side.name));
        }
        if side.normal_form(&plain)? != without_minus_zeros(&normal) {
            return Err(format!("{}: without minus zero more of the normal form differs", side.name));
        }
    }
    Ok(0)
}
