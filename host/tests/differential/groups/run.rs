//! Groups of recordings through `kav_run`, some of them through `kav_normal_form` as well.

use super::{room_near, some_words, Bench, Checked};
use crate::case::{Case, Lent};
use crate::zeros::at_revision;
use kavtziron_host::gen::{self, Rng, World};
use kavtziron_host::reference::calls;

/// How many bytes the replies to all the words have.
pub(super) fn bytes_of_run(lent: &Lent, words: &[u16]) -> usize {
    let (mut card, mut values) = (lent.card.clone(), lent.values.clone());
    let mut out = vec![0; words.len() * 7 + 33];
    let mut counts = [0; 2];
    calls::run(&mut card, &lent.bench, &lent.maker, &mut values, words, &mut out, &mut counts);
    counts[1] as usize
}

pub(crate) fn run_random(rng: &mut Rng, _: u64, bench: &mut Bench) -> Checked {
    let world = World::new(rng);
    let length = rng.below(120);
    let mut words = some_words(rng, &world, length);
    if rng.percent(3) && !words.is_empty() {
        let at = rng.below(words.len());
        words[at] = gen::wrong_word(rng);
    }
    let lent: Lent = world.into();
    let total = bytes_of_run(&lent, &words);
    let room = room_near(rng, total);
    let counts = rng.pick(&[2, 2, 2, 2, 3, 4]);
    bench.check(Case::Run { world: lent, words, room, counts })?;
    Ok(())
}

/// One recording with every room from none to more than enough.
pub(crate) fn run_rooms(rng: &mut Rng, _: u64, bench: &mut Bench) -> Checked {
    let world = World::new(rng);
    let length = 10 + rng.below(40);
    let words = gen::recording(rng, &world, length, gen::ROUGH);
    let lent: Lent = world.into();
    for room in 0..bytes_of_run(&lent, &words) + 3 {
        bench.check(Case::Run { world: lent.clone(), words: words.clone(), room, counts: 2 })?;
    }
    Ok(())
}

pub(crate) fn run_long(rng: &mut Rng, _: u64, bench: &mut Bench) -> Checked {
    let world = World::new(rng);
    let length = 1_000 + rng.below(20_000);
    let words = some_words(rng, &world, length);
    let lent: Lent = world.into();
    let total = bytes_of_run(&lent, &words);
    let room = room_near(rng, total);
    bench.check(Case::Run { world: lent, words, room, counts: 2 })?;
    Ok(())
}

pub(crate) fn run_in_parts(rng: &mut Rng, _: u64, bench: &mut Bench) -> Checked {
    let world = World::new(rng);
    let length = 20 + rng.below(100);
    let words = gen::recording(rng, &world, length, gen::ROUGH);
    in_parts(rng, world, &words, bench)
}

/// Stopped runs go on from where they stopped, through both sides.
pub(super) fn in_parts(rng: &mut Rng, mut world: World, words: &[u16], bench: &mut Bench) -> Checked {
    let mut from = 0;
    for _ in 0..40 {
        let end = from + rng.below(words.len() - from + 1);
        let part = words[from..end].to_vec();
        let room = rng.below(50);
        let lent: Lent = world.clone().into();
        bench.check(Case::Run { world: lent, words: part.clone(), room, counts: 2 })?;
        let mut out = vec![0; room];
        let mut counts = [0; 2];
        let World { card, bench: first, maker, values, .. } = &mut world;
        calls::run(card, first, maker, values, &part, &mut out, &mut counts);
        from += counts[0] as usize;
    }
    Ok(())
}

/// A card that answers `#` and all hundred thousand data digits, with rows of each kind, at both revisions.
pub(crate) fn every_data(rng: &mut Rng, number: u64, bench: &mut Bench) -> Checked {
    let text = format!("L7m#{number:05}*L7mI*");
    let mut world = World::with_rows(rng, 0, 0);
    world.card[..2].copy_from_slice(&[76, 7]);
    world.bench = gen::row(rng, b'm').to_vec();
    world.rows = gen::rows_of(&world.bench).collect();
    if rng.percent(80) {
        let code = number % 10 % 5;
        world.bench[2] = code.min(3) as i32;
        world.bench[1] = rng.pick(&[2, 3]);
    }
    world.values[109] = gen::value(rng, &world.rows[0]);
    let words: Vec<u16> = gen::words_of(text.as_bytes()).collect();
    bench.check(Case::NormalForm { words: words.clone(), room: 20 })?;
    let lent: Lent = world.into();
    for revision in [1, 2] {
        let (world, words) = (at_revision(&lent, revision), words.clone());
        bench.check(Case::Run { world, words, room: 24, counts: 2 })?;
    }
    Ok(())
}

/// Every two characters behind `L7`, and each as identifier and as body; every two behind `L`.
pub(crate) fn every_pair(rng: &mut Rng, number: u64, bench: &mut Bench) -> Checked {
    let (first, second) = ((number & 0x7F) as u8, (number >> 7 & 0x7F) as u8);
    let mut text = Vec::new();
    text.extend_from_slice(&[b'L', b'7', first, second, b'*']);
    text.extend_from_slice(&[b'L', first, second, b'M', b'?', b'*']);
    text.extend_from_slice(&[b'R', b'4', b'2', first, b'#', b'0', second, b'0', b'1', b'5', b'*']);
    text.extend_from_slice(&[b'L', b'7', b'm', b'#', b'0', b'0', b'0', first, second, b'*']);
    let words: Vec<u16> = gen::words_of(&text).collect();
    let room = words.len();
    bench.check(Case::NormalForm { words: words.clone(), room })?;
    let mut world = World::with_rows(rng, 40, 40);
    world.any_revision(rng);
    let named = rng.pick(&[0, 4, 5]);
    world.scan(rng, named);
    world.card[..2].copy_from_slice(&[76, 7]);
    bench.check(Case::Run { world: world.into(), words, room: 44, counts: 2 })?;
    Ok(())
}

/// A wrong word last, behind a stop for want of room.
pub(crate) fn wrong_word_behind(rng: &mut Rng, _: u64, bench: &mut Bench) -> Checked {
    let world = World::new(rng);
    let length = 40 + rng.below(40);
    let mut words = gen::recording(rng, &world, length, gen::REALISTIC);
    words.push(gen::wrong_word(rng));
    let room = rng.below(34);
    bench.expect(Case::Run { world: world.into(), words, room, counts: 2 }, -4)
}
