//! Groups of messages on `]` and of scans that aren't sound, through `kav_step` and `kav_run`.

use super::{cause_length, Bench, Checked};
use crate::case::{Case, Lent};
use kavtziron_host::gen::{self, Rng, World};

/// Opens a message for the card with this identifier and body.
fn ask(world: &mut World, body: &str) {
    let text = format!("{}{}]{body}", world.card[0] as u8 as char, world.card[1]);
    world.open_with(text.as_bytes());
}

/// Each message on `]`, for cards that name none, four or five: how long the reply is is known, and with
/// rooms around that and around the longest it is served or not.
pub(crate) fn scan_messages(rng: &mut Rng, _: u64, bench: &mut Bench) -> Checked {
    let mut world = World::new(rng);
    if rng.percent(80) {
        world.offer(rng);
    }
    let data = format!("#{:04}{}", rng.below(10_000), rng.pick(&[0, 1, 2, 3, 5, 6, 7, 8]));
    let word = u16::from(gen::on_line(b'*'));
    let minus_zero = format!("#0000{}", rng.within(5, 8));
    for body in ["?", "+", "-", "I", &data, &minus_zero] {
        ask(&mut world, body);
        let named = if body == "?" { world.card[16] as usize } else { 0 };
        let head = 2 + world.card[1].to_string().len();
        let length = match (body, named) {
            ("I", _) => 0,
            (_, 0) => head + 5 + 2,
            _ => head + 2 + 5 * named + 2,
        };
        let lent: Lent = world.clone().into();
        for (room, wanted) in [(32, -5), (33, length as i64), (35, length as i64)] {
            let cause = cause_length(rng);
            bench.expect(Case::Step { world: lent.clone(), word, room, cause }, wanted)?;
        }
        let words: Vec<u16> = [word].into_iter().chain(gen::words_of(b"L7??*")).collect();
        for room in [length.saturating_sub(1), length, length + 1 + rng.below(6)] {
            let words = words.clone();
            bench.expect(Case::Run { world: lent.clone(), words, room, counts: 2 }, 0)?;
        }
    }
    Ok(())
}

/// A scan that isn't sound: after the sheets, before values, words and room. What stands behind the count
/// makes none.
pub(crate) fn scan_broken(rng: &mut Rng, _: u64, bench: &mut Bench) -> Checked {
    let sound = World::new(rng);
    let word = u16::from(gen::on_line(rng.pick(b"*LR0")));
    let mut behind = sound.clone();
    let first = 17 + behind.card[16] as usize;
    behind.card[first..22].iter_mut().for_each(|number| *number = rng.wild());
    let room = 33 + rng.below(2);
    for words in [vec![], vec![word]] {
        bench.expect(Case::Run { world: behind.clone().into(), words, room, counts: 2 }, 0)?;
    }
    bench.check(Case::Step { world: behind.into(), word, room, cause: cause_length(rng) })?;

    let mut wrong = sound;
    gen::break_scan(rng, &mut wrong);
    let mut values = wrong.clone();
    gen::break_values(rng, &mut values);
    let mut sheet = values.clone();
    if rng.percent(50) {
        gen::break_sheet(rng, &mut sheet.bench);
    } else {
        gen::break_sheet(rng, &mut sheet.maker);
    }
    let mut card = sheet.clone();
    gen::break_card(rng, &mut card.card);
    for (world, wanted) in [(wrong, -1), (values, -1), (sheet, -2), (card, -1)] {
        let (lent, word) = (Lent::from(world), rng.pick(&[word, 257]));
        let (room, counts) = (rng.pick(&[0, 32, 33]), rng.pick(&[1, 2]));
        let cause = rng.below(4);
        bench.expect(Case::Step { world: lent.clone(), word, room, cause }, wanted)?;
        bench.expect(Case::Run { world: lent, words: vec![word], room, counts }, wanted)?;
    }
    Ok(())
}
