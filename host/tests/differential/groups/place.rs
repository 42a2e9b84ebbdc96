//! Groups of messages that aren't well formed, through `kav_step`: each character in each place, and all short texts.

use super::cause::{close, star};
use super::{cause_length, Bench, Checked};
use crate::case::Case;
use kavtziron_host::gen::{self, Rng, World};

const ADDRESSES: [&str; 3] = ["7", "07", "70"];
const BODIES: [&str; 9] = ["??", "m?", "m+", "m-", "mI", "m#00231", "m#00001", "]?", "]#99998"];

/// Letters, addresses, bodies, places and characters.
pub(crate) const PLACES: u64 = 2 * 3 * 9 * 11 * 128;

/// A card of either revision with few rows, with and without offer and scan. Most messages are for it.
fn card_for(rng: &mut Rng, letter: u8, address: i32) -> World {
    let mut world = World::with_rows(rng, 1, 1);
    world.any_revision(rng);
    let row = gen::row(rng, b'm');
    let value = gen::value(rng, &row);
    world.set_rows(b'm', Some(row), None, value);
    if rng.percent(75) {
        world.card[..2].copy_from_slice(&[i32::from(letter), address]);
    }
    let named = rng.pick(&[0, 4, 5]);
    world.scan(rng, named);
    if rng.percent(50) {
        world.offer(rng);
    }
    world
}

/// Each character in each place of each shape: in place of the one there, before it, and behind the last. `*`
/// cuts the message short.
pub(crate) fn every_place(rng: &mut Rng, number: u64, bench: &mut Bench) -> Checked {
    let number = number % PLACES * 7_919 % PLACES;
    let (character, rest) = ((number % 128) as u8, number as usize / 128);
    let (place, rest) = (rest % 11, rest / 11);
    let (address, body, letter) = (ADDRESSES[rest % 3], BODIES[rest / 3 % 9], b"LR"[rest / 27]);
    let mut text = [&[letter], address.as_bytes(), body.as_bytes()].concat();
    let world = card_for(rng, letter, address.parse().unwrap());
    let check = |text: &[u8], bench: &mut Bench| {
        let mut world = world.clone();
        world.open_with(text);
        bench.check(Case::Step { world: world.into(), word: star(), room: 33, cause: 2 }).map(|_| ())
    };
    match place {
        // Without its letter no message is open.
        0 if !matches!(character, b'L' | b'R') => {
            text[0] = character;
            text.push(b'*');
            for word in gen::words_of(&text) {
                let case = Case::Step { world: world.clone().into(), word, room: 33, cause: 2 };
                bench.expect_cause(case, [9, 0])?;
            }
            Ok(())
        }
        0 => check(&[&[character], &text[1..]].concat(), bench),
        _ if place > text.len() => Ok(()),
        _ if character == b'*' && place == text.len() => check(&text, bench),
        _ if character == b'*' => close(rng, world, &text[..place], [10, place as i32], bench),
        _ if place == text.len() && place == 10 => Ok(()),
        _ if place == text.len() => {
            text.push(character);
            close(rng, world, &text, [10, place as i32], bench)
        }
        _ => {
            let mut longer = text.clone();
            longer.insert(place, character);
            if longer.len() <= 10 {
                check(&longer, bench)?;
            }
            text[place] = character;
            check(&text, bench)
        }
    }
}

/// The characters of an alphabet that a number spells, as many as it has digits; 0 is none.
fn spelled(mut number: u64, alphabet: &[u8]) -> Vec<u8> {
    let base = alphabet.len() as u64 + 1;
    let mut text = Vec::new();
    while number > 0 {
        if let Some(at) = (number % base).checked_sub(1) {
            text.push(alphabet[at as usize]);
        }
        number /= base;
    }
    text
}

fn check_text(rng: &mut Rng, head: &str, behind: Vec<u8>, bench: &mut Bench) -> Checked {
    let mut text = [head.as_bytes(), &behind].concat();
    text.truncate(10);
    let mut world = card_for(rng, b'L', 7);
    world.open_with(&text);
    let cause = cause_length(rng);
    bench.check(Case::Step { world: world.into(), word: star(), room: 33, cause }).map(|_| ())
}

pub(crate) const SHORT: u64 = 11 * 11 * 11 * 11 * 11;

/// Every five characters and fewer behind a letter.
pub(crate) fn short_texts(rng: &mut Rng, number: u64, bench: &mut Bench) -> Checked {
    check_text(rng, "L", spelled(number, b"L079m?#+I]"), bench)
}

const BEHIND: [&str; 4] = ["L7m#", "L07m#", "R70]#", "L7##"];
pub(crate) const LONG: u64 = 4 * 7 * 7 * 7 * 7 * 7 * 7;

/// Every six characters and fewer behind a `#`, five and fewer where the address has two digits.
pub(crate) fn long_texts(rng: &mut Rng, number: u64, bench: &mut Bench) -> Checked {
    let behind = spelled(number / 4, b"0459?#");
    check_text(rng, BEHIND[number as usize % 4], behind, bench)
}
