//! Groups of single words: `kav_step`, and with `kav_run` every set of refusals.

use super::{cause_length, Bench, Checked};
use crate::case::{Case, Lent};
use kavtziron_host::gen::{self, Rng, World};
use kavtziron_host::reference::calls;

fn any_word(rng: &mut Rng) -> u16 {
    match rng.below(10) {
        0..=4 => u16::from(gen::on_line(b'*')),
        5 => 256,
        6 => rng.next() as u16 & 0xFF,
        7 => u16::from(gen::on_line(rng.pick(b"LR"))),
        8 => gen::wrong_word(rng),
        _ => u16::from(gen::on_line(rng.next() as u8)),
    }
}

pub(crate) fn step_random(rng: &mut Rng, _: u64, bench: &mut Bench) -> Checked {
    let world = World::new(rng);
    let word = any_word(rng);
    let room = match rng.below(20) {
        0 => 32,
        1 => rng.below(36),
        _ => 33 + rng.below(3),
    };
    let cause = if rng.percent(5) { rng.below(2) } else { cause_length(rng) };
    bench.check(Case::Step { world: world.into(), word, room, cause })?;
    Ok(())
}

/// One thing lent changed anywhere to anything.
pub(crate) fn step_spoiled(rng: &mut Rng, _: u64, bench: &mut Bench) -> Checked {
    let mut world = World::new(rng);
    for _ in 0..1 + rng.below(2) {
        let lent = match rng.below(4) {
            0 => &mut world.card,
            1 => &mut world.bench,
            2 => &mut world.maker,
            _ => &mut world.values,
        };
        if !lent.is_empty() {
            let at = rng.below(lent.len());
            lent[at] = match rng.below(3) {
                0 => lent[at].wrapping_add(rng.within(-2, 2)),
                1 => lent[at] ^ (1 << rng.below(32)),
                _ => rng.wild(),
            };
        }
    }
    let word = any_word(rng);
    let room = 33 + rng.below(3);
    let cause = cause_length(rng);
    bench.check(Case::Step { world: world.into(), word, room, cause })?;
    Ok(())
}

pub(crate) fn step_walk(rng: &mut Rng, _: u64, bench: &mut Bench) -> Checked {
    let world = World::new(rng);
    let length = 10 + rng.below(50);
    let words = gen::recording(rng, &world, length, gen::ROUGH);
    walk(rng, world, &words, bench)
}

/// A recording word by word: the card and values that each step leaves go to the next.
pub(super) fn walk(rng: &mut Rng, mut world: World, words: &[u16], bench: &mut Bench) -> Checked {
    for &word in words {
        let room = 33 + rng.below(2);
        let lent: Lent = world.clone().into();
        bench.check(Case::Step { world: lent, word, room, cause: cause_length(rng) })?;
        let World { card, bench: first, maker, values, .. } = &mut world;
        calls::step(card, first, maker, values, word, &mut [0; 33], &mut [0; 2]);
    }
    Ok(())
}

/// Every word there is, to a card in the middle of something.
pub(crate) fn every_word(rng: &mut Rng, number: u64, bench: &mut Bench) -> Checked {
    let world = World::new(rng);
    bench.check(Case::Step { world: world.into(), word: number as u16, room: 34, cause: 3 })?;
    Ok(())
}

/// Every set of refusals at once, and so each alone and each adjacent pair: the number is known.
pub(crate) fn refusals(rng: &mut Rng, number: u64, bench: &mut Bench) -> Checked {
    let has = |bit: u64| number >> bit & 1 == 1;
    let mut world = World::new(rng);
    let mut first = 0;
    let words_from = world.clone();
    if has(4) {
        gen::break_values(rng, &mut world);
        first = 3;
    }
    if has(3) {
        gen::break_offer(rng, &mut world);
        first = 1;
    }
    if has(7) {
        gen::break_scan(rng, &mut world);
        first = 1;
    }
    if has(1) {
        gen::break_sheet(rng, &mut world.bench);
        first = 2;
    }
    if has(2) {
        gen::break_sheet(rng, &mut world.maker);
        first = 2;
    }
    if has(0) {
        gen::break_card(rng, &mut world.card);
        first = 1;
    }
    if first == 0 && has(5) {
        first = 4;
    }
    let lent: Lent = world.into();

    let word = if has(5) { gen::wrong_word(rng) } else { u16::from(gen::on_line(b'*')) };
    let short = if rng.percent(50) { 32 } else { rng.below(33) };
    let room = if has(6) { short } else { 33 + rng.below(4) };
    let cause = if has(8) { rng.below(2) } else { cause_length(rng) };
    let case = Case::Step { world: lent.clone(), word, room, cause };
    match if first == 0 && (has(6) || has(8)) { 5 } else { first } {
        0 => bench.expect_served(case)?,
        refusal => bench.expect(case, -refusal)?,
    }

    let length = rng.below(40);
    let mut words = gen::recording(rng, &words_from, length, gen::ROUGH);
    if has(5) {
        words.insert(rng.below(words.len() + 1), gen::wrong_word(rng));
    }
    let counts = if has(6) { rng.below(2) } else { 2 + rng.below(3) };
    let room = rng.below(40);
    let wanted = if first == 0 && has(6) { 5 } else { first };
    bench.expect(Case::Run { world: lent, words, room, counts }, -wanted)
}
