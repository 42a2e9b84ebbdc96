//! Groups of several cards through `kav_bus_run` that are served, but for those that are spoiled anywhere.

use super::{room_near, Bench, Checked};
use crate::case::{Case, Lent};
use crate::drawn_bus::Class;
use kavtziron_host::gen::{self, Bus, Mixture, Rng, World};
use kavtziron_host::reference::calls;

/// A count of cards that is served.
fn some_count(rng: &mut Rng) -> usize {
    match rng.below(20) {
        0 => 0,
        1 | 2 => 1,
        3..=7 => 2,
        8..=12 => 3,
        13..=17 => rng.pick(&[4, 4, 5, 5, 8, 8, 13, 30]),
        _ => rng.pick(&[31, 32]),
    }
}

/// Messages of several cards, rough or not, some with many zeros, or babble.
pub(super) fn some_words(rng: &mut Rng, bus: &mut Bus, length: usize) -> Vec<u16> {
    let mixture = rng.pick(&[gen::ROUGH, gen::PAIR, Mixture { spoiled: 0, noise: 0, ..gen::PAIR }]);
    let mut words = match rng.below(10) {
        0 => gen::babble(rng, length),
        _ => bus.recording(rng, length, mixture),
    };
    if rng.percent(20) {
        gen::zeros(rng, &mut words);
    }
    // What is open is closed or dropped first, or goes on.
    if bus.world.card[2] > 0 && rng.percent(60) {
        words.insert(0, rng.pick(&[u16::from(gen::on_line(b'*')), 256]));
    }
    words
}

/// How many bytes the replies to all the words have.
fn bytes_of_run(lent: &Lent, words: &[u16]) -> usize {
    let (mut cards, mut values) = (lent.card.clone(), lent.values.clone());
    let mut out = vec![0; words.len() * 7 + 33];
    let mut counts = [0; 2];
    calls::bus_run(&mut cards, &lent.bench, &lent.maker, &mut values, words, &mut out, &mut counts);
    counts[1] as usize
}

pub(crate) fn bus_random(rng: &mut Rng, _: u64, bench: &mut Bench) -> Checked {
    let count = some_count(rng);
    let mut bus = Bus::new(rng, count);
    let length = rng.below(150);
    let words = some_words(rng, &mut bus, length);
    let lent: Lent = bus.into();
    let total = bytes_of_run(&lent, &words);
    let near = room_near(rng, total);
    let room = rng.pick(&[0, near, near, near, near]);
    let counts = rng.pick(&[2, 2, 2, 3, 4]);
    if counts == 3 {
        bench.drawn.bus.count(Class::CountsThree);
    }
    bench.expect(Case::Bus { world: lent, words, room, counts }, 0)
}

/// One or two things lent changed anywhere to anything.
pub(crate) fn bus_spoiled(rng: &mut Rng, _: u64, bench: &mut Bench) -> Checked {
    let count = rng.pick(&[0, 1, 2, 2, 3, 3, 5, 32, 33]);
    let mut bus = Bus::new(rng, count);
    let length = rng.below(60);
    let words = some_words(rng, &mut bus, length);
    let mut lent: Lent = bus.into();
    for _ in 0..1 + rng.below(2) {
        let numbers = match rng.below(5) {
            0 | 1 => &mut lent.card,
            2 => &mut lent.bench,
            3 => &mut lent.maker,
            _ => &mut lent.values,
        };
        if !numbers.is_empty() {
            let at = rng.below(numbers.len());
            match rng.below(12) {
                0 => {
                    numbers.remove(at);
                }
                1 => numbers.insert(at, 0),
                2..=4 => numbers[at] = numbers[at].wrapping_add(rng.within(-2, 2)),
                5..=7 => numbers[at] ^= 1 << rng.below(32),
                _ => numbers[at] = rng.wild(),
            }
        }
    }
    let room = rng.below(80);
    let counts = rng.pick(&[1, 2, 2, 2, 2, 2, 2, 2]);
    bench.check(Case::Bus { world: lent, words, room, counts })?;
    Ok(())
}

/// An offer at each of several cards, all of them stored in another order, with other messages for all cards and none
/// between. The run is cut off at each room around the replies, and goes on.
pub(crate) fn bus_offers(rng: &mut Rng, _: u64, bench: &mut Bench) -> Checked {
    let count = rng.pick(&[2, 2, 3, 3, 3, 4, 5, 8, 32]);
    let mut bus = Bus::new(rng, count);
    let mut heads = Vec::new();
    for at in 0..count {
        bus.change(at, |world| world.offer(rng));
        let card = bus.card(at);
        if card[13] == 0 {
            return Ok(());
        }
        heads.push(format!("{}{}{}", card[0] as u8 as char, card[1], card[14] as u8 as char));
    }
    bus.world.open_with(b"");
    bus.open_as_in_hand();
    let mut text = String::new();
    let mut total = 0;
    while !heads.is_empty() {
        let head = heads.swap_remove(rng.below(heads.len()));
        match rng.below(3) {
            // A head that is no card's on this bench, and one that no card can have.
            0 => text.push_str(&format!("{}0{}I*", &head[..1], &head[head.len() - 1..])),
            1 => text.push_str("L7*"),
            _ => {}
        }
        text.push_str(&format!("{head}I*"));
        total += head.len() + 5 + 2;
    }
    let words: Vec<u16> = gen::words_of(text.as_bytes()).collect();
    for room in [0, rng.below(total), total - 1, total, total + 1] {
        let lent: Lent = bus.clone().into();
        bench.expect(Case::Bus { world: lent.clone(), words: words.clone(), room, counts: 2 }, 0)?;
        if room >= total && bytes_of_run(&lent, &words) != total {
            let what = format!("the stored offers draw {total} bytes");
            return Err(Box::new(super::Failure {
                what,
                case: Case::Bus { world: lent, words, room, counts: 2 },
            }));
        }
    }
    in_parts(rng, bus, &words, bench)
}

/// One recording with every room from none to more than enough.
pub(crate) fn bus_rooms(rng: &mut Rng, _: u64, bench: &mut Bench) -> Checked {
    let count = rng.pick(&[1, 2, 3, 3, 4]);
    let mut bus = Bus::new(rng, count);
    let length = 10 + rng.below(60);
    let words = bus.recording(rng, length, gen::PAIR);
    let lent: Lent = bus.into();
    for room in 0..bytes_of_run(&lent, &words) + 3 {
        bench.expect(Case::Bus { world: lent.clone(), words: words.clone(), room, counts: 2 }, 0)?;
    }
    Ok(())
}

pub(crate) fn bus_in_parts(rng: &mut Rng, _: u64, bench: &mut Bench) -> Checked {
    let count = some_count(rng);
    let mut bus = Bus::new(rng, count);
    let length = 40 + rng.below(100);
    let words = some_words(rng, &mut bus, length);
    in_parts(rng, bus, &words, bench)
}

/// Runs one after the other, each from what the one before it left, most of them stopped for want of room.
fn in_parts(rng: &mut Rng, mut bus: Bus, words: &[u16], bench: &mut Bench) -> Checked {
    let mut from = 0;
    for part in 0..10 {
        let end = from + rng.below(words.len() - from + 1);
        let (words, room) = (words[from..end].to_vec(), rng.below(50));
        let world: Lent = bus.clone().into();
        bench.expect(Case::Bus { world, words: words.clone(), room, counts: 2 }, 0)?;
        if part > 0 {
            bench.drawn.bus.count(Class::InParts);
        }
        let mut counts = [0; 2];
        let Bus { cards, values, world: World { bench: first, maker, .. } } = &mut bus;
        calls::bus_run(cards, first, maker, values, &words, &mut vec![0; room], &mut counts);
        from += counts[0] as usize;
    }
    Ok(())
}

pub(crate) fn bus_long(rng: &mut Rng, _: u64, bench: &mut Bench) -> Checked {
    let count = some_count(rng);
    let mut bus = Bus::new(rng, count);
    let length = 1_000 + rng.below(4_000);
    let words = some_words(rng, &mut bus, length);
    let lent: Lent = bus.into();
    let total = bytes_of_run(&lent, &words);
    let room = room_near(rng, total);
    bench.expect(Case::Bus { world: lent, words, room, counts: 2 }, 0)
}

/// A bench of one card is that card by `kav_run`, refused or not.
pub(crate) fn bus_single(rng: &mut Rng, _: u64, bench: &mut Bench) -> Checked {
    let mut world = World::new(rng);
    let length = rng.below(100);
    let mut words = super::some_words(rng, &world, length);
    let sound = rng.percent(70);
    if !sound {
        match rng.below(7) {
            0 => {
                let place = rng.below(23);
                gen::break_number(rng, &mut world, place);
            }
            1 => gen::break_offer(rng, &mut world),
            2 => gen::break_scan(rng, &mut world),
            3 => gen::break_sheet(rng, &mut world.bench),
            4 => gen::break_sheet(rng, &mut world.maker),
            5 => gen::break_values(rng, &mut world),
            _ => words.push(gen::wrong_word(rng)),
        }
    }
    let lent: Lent = world.into();
    let total = if sound { bytes_of_run(&lent, &words) } else { 33 };
    let room = room_near(rng, total);
    let counts = rng.pick(&[0, 1, 2, 2, 2, 2, 2, 3]);
    let served = bench.check(Case::Single { world: lent, words, room, counts })? == 0;
    bench.drawn.bus.count(if served { Class::SingleServed } else { Class::SingleRefused });
    Ok(())
}

/// Each card alone beside the bench, the normal form, and the same with other values of one card.
pub(crate) fn bus_alone(rng: &mut Rng, _: u64, bench: &mut Bench) -> Checked {
    let count = rng.pick(&[1, 2, 2, 2, 3, 3, 3, 3, 4, 5, 8, 32]);
    let mut bus = Bus::new(rng, count);
    if rng.percent(60) {
        bus.world.open_with(b"");
        bus.open_as_in_hand();
    }
    let length = 20 + rng.below(150);
    let words = some_words(rng, &mut bus, length);
    let at = rng.below(count);
    let mut other = bus.values[128 * at..128 * at + 128].to_vec();
    for row in &bus.world.rows {
        other[row[0] as usize] = gen::value(rng, row);
    }
    let lent: Lent = bus.into();
    let total = bytes_of_run(&lent, &words);
    let room = room_near(rng, total);
    if total > 24 {
        bench.drawn.bus.count(Class::EachAlone);
    }
    bench.expect(Case::Alone { world: lent, words, room, at, other }, 0)
}
