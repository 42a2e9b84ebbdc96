//! Groups of several cards on one pair: messages for another letter or address, through `kav_step` and
//! `kav_run`.

use super::run::{bytes_of_run, in_parts};
use super::step::walk;
use super::{some_words, Bench, Checked};
use crate::case::{Case, Lent};
use kavtziron_host::gen::{self, Rng, World};
use kavtziron_host::reference::calls;

/// A card that most often has an offer, with no message open, a neighbour's or any.
fn on_a_pair(rng: &mut Rng) -> World {
    let mut world = World::new(rng);
    if rng.percent(70) {
        world.offer(rng);
    }
    match rng.below(4) {
        0 | 1 => world.open_with(b""),
        2 => {
            let mut text = Vec::new();
            gen::neighbours_message(rng, &world, world.offered(), &mut text);
            text.retain(|&character| character != b'*');
            text.truncate(10);
            world.open_with(&text);
        }
        _ => {}
    }
    world
}

/// A recording of several cards. What the card has open is closed or dropped first, or goes on.
fn talk(rng: &mut Rng, world: &World, length: usize) -> Vec<u16> {
    let mut words = gen::recording(rng, world, length, gen::PAIR);
    let first = rng.pick(&[u16::from(gen::on_line(b'*')), 256]);
    if world.card[2] > 0 && rng.percent(80) {
        words.insert(0, first);
    }
    words
}

/// A body of each type for the identifier offered and for `]`: the value offered, another, minus zero.
fn bodies(rng: &mut Rng, world: &World) -> Vec<String> {
    let (identifier, value) = (world.card[14], world.card[15]);
    let decimals = world.rows.iter().find(|row| row[0] == identifier).map_or(0, |row| row[2]);
    let offered = format!("{:04}{}", value.abs(), decimals + if value < 0 { 5 } else { 0 });
    let other = format!("{:04}{}", rng.below(10_000), rng.pick(&[0, 1, 2, 3, 5, 6, 7, 8]));
    let minus_zero = format!("0000{}", decimals + 5);
    let mut bodies = vec!["??".to_string()];
    for identifier in [identifier as u8 as char, ']'] {
        for body in ["?", "+", "-", "I"] {
            bodies.push(format!("{identifier}{body}"));
        }
        bodies.extend([&offered, &other, &minus_zero].map(|digits| format!("{identifier}#{digits}")));
    }
    bodies
}

/// Each message for another card, at a card with an offer: silence, with no room at all in a run, and the
/// card's own Type 4 behind it is answered.
pub(crate) fn neighbours_messages(rng: &mut Rng, _: u64, bench: &mut Bench) -> Checked {
    let mut world = World::new(rng);
    world.offer(rng);
    if world.card[13] == 0 {
        return Ok(());
    }
    let word = u16::from(gen::on_line(b'*'));
    let own = format!("{}{}{}I", world.card[0] as u8 as char, world.card[1], world.card[14] as u8 as char);
    for body in bodies(rng, &world) {
        let mut text = Vec::new();
        gen::neighbours_head(rng, &world, &mut text);
        text.extend_from_slice(body.as_bytes());
        world.open_with(&text);
        let lent: Lent = world.clone().into();
        for (room, wanted) in [(32, -5), (33, 0)] {
            bench.expect(Case::Step { world: lent.clone(), word, room, cause: 2 }, wanted)?;
        }
        bench.expect(Case::Run { world: lent, words: vec![word], room: 0, counts: 2 }, 0)?;
        let mut after = world.clone();
        let World { card, bench: first, maker, values, .. } = &mut after;
        calls::step(card, first, maker, values, word, &mut [0; 33], &mut [0; 2]);
        after.open_with(own.as_bytes());
        let length = own.len() - 1 + 5 + 2;
        bench.expect(Case::Step { world: after.into(), word, room: 33, cause: 2 }, length as i64)?;
    }
    Ok(())
}

pub(crate) fn neighbours_walk(rng: &mut Rng, _: u64, bench: &mut Bench) -> Checked {
    let world = on_a_pair(rng);
    let length = 20 + rng.below(80);
    let words = talk(rng, &world, length);
    walk(rng, world, &words, bench)
}

/// One recording with no room, too little, just enough and more, and some in parts.
pub(crate) fn neighbours_run(rng: &mut Rng, _: u64, bench: &mut Bench) -> Checked {
    let world = on_a_pair(rng);
    let length = 20 + rng.below(200);
    let words = talk(rng, &world, length);
    let lent: Lent = world.clone().into();
    let total = bytes_of_run(&lent, &words);
    for room in [0, rng.below(total + 1), total.saturating_sub(1), total, total + 1 + rng.below(40)] {
        bench.check(Case::Run { world: lent.clone(), words: words.clone(), room, counts: 2 })?;
    }
    if rng.percent(10) {
        in_parts(rng, world, &words, bench)?;
    }
    Ok(())
}

/// A recording of several cards, or any, against the messages in it that are for the card.
pub(crate) fn neighbours_ignored(rng: &mut Rng, _: u64, bench: &mut Bench) -> Checked {
    let world = on_a_pair(rng);
    let length = rng.below(200);
    let words = if rng.percent(70) { talk(rng, &world, length) } else { some_words(rng, &world, length) };
    bench.expect(Case::Ignored { world: world.into(), words }, 0)
}
