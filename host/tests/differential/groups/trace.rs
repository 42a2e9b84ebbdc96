//! Groups of recordings through `kav_trace`.

use super::run::bytes_of_run;
use super::{room_near, some_words, Bench, Checked};
use crate::case::{Case, Lent};
use crate::drawn_trace::{Class, FAULTS};
use kavtziron_host::gen::{self, Rng, World};
use kavtziron_host::reference::calls::{self, NOTE};

/// A length of the notes for so many words that is served.
fn enough(rng: &mut Rng, words: usize) -> usize {
    NOTE * words + rng.pick(&[0, 0, 0, 1, 4, 5, 11])
}

/// One that isn't, for one word or more.
fn short(rng: &mut Rng, words: usize) -> usize {
    let length = NOTE * words;
    let any = rng.below(length);
    rng.pick(&[length - 1, length - 1, length - NOTE, words, any])
}

/// A recording for a trace. What is open at first is often closed or dropped at once.
fn recording(rng: &mut Rng, world: &World, length: usize) -> Vec<u16> {
    let mut words = some_words(rng, world, length);
    if world.card[2] > 0 && rng.percent(50) {
        words.insert(0, rng.pick(&[u16::from(gen::on_line(b'*')), u16::from(gen::on_line(b'*')), 256]));
    }
    words
}

/// Sound, with room for every reply or not, and notes and counts long enough or not.
pub(crate) fn trace_random(rng: &mut Rng, _: u64, bench: &mut Bench) -> Checked {
    let world = World::new(rng);
    let length = rng.below(100);
    let words = recording(rng, &world, length);
    let lent: Lent = world.into();
    let near = room_near(rng, bytes_of_run(&lent, &words));
    let room = rng.pick(&[0, near, near, near, near]);
    let (few, short_counts) = (!words.is_empty() && rng.percent(6), rng.percent(6));
    let notes = if few { short(rng, words.len()) } else { enough(rng, words.len()) };
    let counts = if short_counts { rng.below(3) } else { rng.pick(&[3, 3, 4]) };
    let wanted = if few || short_counts { -5 } else { 0 };
    bench.expect(Case::Trace { world: lent, words, room, notes, counts }, wanted)
}

/// One or two things lent changed anywhere to anything.
pub(crate) fn trace_spoiled(rng: &mut Rng, _: u64, bench: &mut Bench) -> Checked {
    let world = World::new(rng);
    let length = rng.below(40);
    let mut words = recording(rng, &world, length);
    let mut lent: Lent = world.into();
    for _ in 0..1 + rng.below(2) {
        let numbers = match rng.below(5) {
            0 | 1 => &mut lent.card,
            2 => &mut lent.bench,
            3 => &mut lent.maker,
            _ => &mut lent.values,
        };
        if !numbers.is_empty() {
            let at = rng.below(numbers.len());
            match rng.below(12) {
                0 => {
                    numbers.remove(at);
                }
                1 => numbers.insert(at, 0),
                2..=4 => numbers[at] = numbers[at].wrapping_add(rng.within(-2, 2)),
                5..=7 => numbers[at] ^= 1 << rng.below(32),
                _ => numbers[at] = rng.wild(),
            }
        }
    }
    if rng.percent(10) {
        words.insert(rng.below(words.len() + 1), gen::wrong_word(rng));
    }
    let (room, notes) = (rng.below(80), enough(rng, words.len()).saturating_sub(rng.below(3)));
    let counts = rng.pick(&[2, 3, 3, 3, 3, 3, 3, 4]);
    bench.check(Case::Trace { world: lent, words, room, notes, counts })?;
    Ok(())
}

/// Every set of refusals at once, and so each alone and each two: 1 (the card), 2, 1 (its offer or scan), 3, 4, 5 (notes), 5
/// (counts).
pub(crate) fn trace_refusals(rng: &mut Rng, number: u64, bench: &mut Bench) -> Checked {
    const NUMBERS: [i64; FAULTS] = [1, 2, 1, 3, 4, 5, 5];
    // So that the first hundredth has each two.
    let has = |fault: usize| (number * 45 % 128) >> fault & 1 == 1;
    let mut world = World::new(rng);
    let length = rng.below(40);
    let mut words = recording(rng, &world, length);
    // With no word no notes are too short.
    words.push(256);
    if has(3) {
        gen::break_values(rng, &mut world);
    }
    if has(2) {
        match rng.below(2) {
            0 => gen::break_offer(rng, &mut world),
            _ => gen::break_scan(rng, &mut world),
        }
    }
    if has(1) {
        let sheet = if rng.percent(50) { &mut world.bench } else { &mut world.maker };
        gen::break_sheet(rng, sheet);
    }
    if has(0) {
        gen::break_card(rng, &mut world.card);
    }
    if has(4) {
        words.insert(rng.below(words.len() + 1), gen::wrong_word(rng));
    }
    let notes = if has(5) { short(rng, words.len()) } else { enough(rng, words.len()) };
    let counts = if has(6) { rng.below(3) } else { 3 + rng.below(2) };
    let wanted = (0..FAULTS).find(|&fault| has(fault)).map_or(0, |fault| -NUMBERS[fault]);
    let room = rng.below(60);
    bench.expect(Case::Trace { world: world.into(), words, room, notes, counts }, wanted)?;
    bench.drawn.trace.count_faults(has);
    Ok(())
}

/// A few words with each count of 0 to 4 numbers and each length of the notes from none to more than enough.
pub(crate) fn trace_lengths(rng: &mut Rng, _: u64, bench: &mut Bench) -> Checked {
    let world = World::new(rng);
    let length = rng.below(7);
    let words = recording(rng, &world, length);
    let lent: Lent = world.into();
    let (room, enough) = (rng.below(34), NOTE * words.len());
    for counts in 0..5 {
        for notes in 0..enough + 3 {
            let wanted = if notes < enough || counts < 3 { -5 } else { 0 };
            let (world, words) = (lent.clone(), words.clone());
            bench.expect(Case::Trace { world, words, room, notes, counts }, wanted)?;
        }
    }
    Ok(())
}

/// One recording with every room from none to more than enough.
pub(crate) fn trace_rooms(rng: &mut Rng, _: u64, bench: &mut Bench) -> Checked {
    let world = World::new(rng);
    let length = 10 + rng.below(40);
    let words = recording(rng, &world, length);
    let lent: Lent = world.into();
    for room in 0..bytes_of_run(&lent, &words) + 3 {
        let (world, words, notes) = (lent.clone(), words.clone(), enough(rng, words.len()));
        bench.expect(Case::Trace { world, words, room, notes, counts: 3 }, 0)?;
    }
    Ok(())
}

/// Traces one after the other, each from what the one before it left, most of them stopped for want of room.
pub(crate) fn trace_in_parts(rng: &mut Rng, _: u64, bench: &mut Bench) -> Checked {
    let mut world = World::new(rng);
    let length = 40 + rng.below(100);
    let words = recording(rng, &world, length);
    let mut from = 0;
    for part in 0..10 {
        let end = from + rng.below(words.len() - from + 1);
        let (words, room) = (words[from..end].to_vec(), rng.below(50));
        let (lent, notes): (Lent, _) = (world.clone().into(), enough(rng, words.len()));
        bench.expect(Case::Trace { world: lent, words: words.clone(), room, notes, counts: 3 }, 0)?;
        if part > 0 {
            bench.drawn.trace.count(Class::InParts);
        }
        let mut counts = [0; 2];
        let World { card, bench: first, maker, values, .. } = &mut world;
        calls::run(card, first, maker, values, &words, &mut vec![0; room], &mut counts);
        from += counts[0] as usize;
    }
    Ok(())
}

pub(crate) fn trace_long(rng: &mut Rng, _: u64, bench: &mut Bench) -> Checked {
    let world = World::new(rng);
    let length = 1_000 + rng.below(4_000);
    let words = recording(rng, &world, length);
    let lent: Lent = world.into();
    let room = room_near(rng, bytes_of_run(&lent, &words));
    let notes = enough(rng, words.len());
    bench.expect(Case::Trace { world: lent, words, room, notes, counts: 3 }, 0)
}
