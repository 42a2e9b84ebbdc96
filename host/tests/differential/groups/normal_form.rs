//! Groups of recordings through `kav_normal_form`.

use super::{room_near, some_words, Bench, Checked};
use crate::case::Case;
use kavtziron_host::gen::{self, Rng, World};
use kavtziron_host::reference::calls;

fn normal_form_length(words: &[u16]) -> usize {
    let mut out = vec![0; words.len()];
    calls::normal_form(words, &mut out).max(0) as usize
}

pub(crate) fn normal_form_random(rng: &mut Rng, _: u64, bench: &mut Bench) -> Checked {
    let world = World::with_rows(rng, 4, 4);
    let length = rng.below(150);
    let mut words = some_words(rng, &world, length);
    let needed = normal_form_length(&words);
    let room = room_near(rng, needed);
    if rng.percent(3) && !words.is_empty() {
        let at = rng.below(words.len());
        words[at] = gen::wrong_word(rng);
    }
    bench.check(Case::NormalForm { words, room })?;
    Ok(())
}

pub(crate) fn normal_form_rooms(rng: &mut Rng, _: u64, bench: &mut Bench) -> Checked {
    let world = World::with_rows(rng, 4, 4);
    let length = rng.below(60);
    let words = some_words(rng, &world, length);
    let needed = normal_form_length(&words);
    for room in 0..words.len() + 4 {
        let wanted = if room < needed { -5 } else { needed as i64 };
        bench.expect(Case::NormalForm { words: words.clone(), room }, wanted)?;
        let mut wrong = words.clone();
        wrong.insert(rng.below(wrong.len() + 1), gen::wrong_word(rng));
        bench.expect(Case::NormalForm { words: wrong, room }, -4)?;
    }
    Ok(())
}

pub(crate) fn normal_form_long(rng: &mut Rng, _: u64, bench: &mut Bench) -> Checked {
    let world = World::with_rows(rng, 4, 4);
    let length = 1_000 + rng.below(20_000);
    let words = some_words(rng, &world, length);
    let needed = normal_form_length(&words);
    let room = room_near(rng, needed);
    bench.check(Case::NormalForm { words, room })?;
    Ok(())
}
