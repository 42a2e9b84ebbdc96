//! Groups of request 5: both zeros at both revisions, through `kav_step`, `kav_run` and `kav_normal_form`,
//! and numbers that are no revision.

use super::cause::{close, star};
use super::run::bytes_of_run;
use super::step::walk;
use super::{some_words, Bench, Checked};
use crate::case::{Case, Lent};
use crate::zeros::at_revision;
use kavtziron_host::gen::{self, Rng, World};

/// Ranges with zero between, at an end and alone, and without it.
const RANGES: [(i32, i32); 6] = [(-100, 100), (0, 100), (-100, 0), (0, 0), (5, 100), (-100, -5)];

/// Access, decimals of the row and of the message, most often equal, which zero, revisions, ranges, offers.
pub(crate) const ZEROS: u64 = 4 * 4 * 7 * 2 * 2 * 6 * 3;

/// A Type 3 of either zero for each sort of row, with each count of decimals. The cause is known.
pub(crate) fn zeros_known(rng: &mut Rng, number: u64, bench: &mut Bench) -> Checked {
    // So that the first hundredth has some of everything.
    let mut rest = number % ZEROS * 7_919 % ZEROS;
    let mut digit = |count: u64| {
        let digit = rest % count;
        rest /= count;
        digit as i32
    };
    let (minus_zero, revision) = (digit(2) == 1, 1 + digit(2));
    let (access, decimals) = (digit(4), digit(4));
    let said = decimals ^ [0, 0, 0, 0, 1, 2, 3][digit(7) as usize];
    let ((least, greatest), offer) = (RANGES[digit(6) as usize], digit(3));

    let mut world = World::with_rows(rng, 2, 2);
    let (identifier, other) = (rng.pick(b"!#+-ILRAN[^m~"), rng.pick(b"\"abz"));
    let code = i32::from(identifier);
    world.set_rows(other, Some([i32::from(other), 2, 0, 1, 0, 9]), None, 5);
    let row = (access > 0).then_some([code, access, decimals, 5, least, greatest]);
    // Hidden by it, a row that would accept the message.
    let hidden = row.filter(|_| rng.percent(50)).map(|_| [code, 2, said, 1, -9_999, 9_999]);
    world.set_rows(identifier, row, hidden, rng.pick(&[least, greatest]));
    world.card[22] = revision;
    let offered = match offer {
        0 => [0, 0, 0],
        1 if access > 1 => [1, code, least],
        _ => [1, i32::from(other), 3],
    };
    world.card[13..16].copy_from_slice(&offered);

    let tests = [
        (access == 0, 1),
        (access == 1, 2),
        (said != decimals, 3),
        (minus_zero && revision == 2, 4),
        (least > 0 || greatest < 0, 5),
    ];
    let cause = tests.iter().find(|test| test.0).map_or(0, |test| test.1);
    let text = format!(
        "{}{}{}#0000{}",
        world.card[0] as u8 as char,
        world.card[1],
        identifier as char,
        said + if minus_zero { 5 } else { 0 }
    );
    close(rng, world, text.as_bytes(), [cause, 0], bench)
}

/// A recording with many zeros of both sorts.
fn recording(rng: &mut Rng, world: &World, length: usize) -> Vec<u16> {
    let mut words = some_words(rng, world, length);
    gen::zeros(rng, &mut words);
    words
}

/// Such a recording and the same without minus zero, word by word at both revisions.
pub(crate) fn zeros_walk(rng: &mut Rng, _: u64, bench: &mut Bench) -> Checked {
    let mut world = World::new(rng);
    world.open_with(b"");
    let length = 10 + rng.below(60);
    let words = recording(rng, &world, length);
    for words in [gen::without_minus_zeros(&words), words] {
        for revision in [1, 2] {
            world.card[22] = revision;
            walk(rng, world.clone(), &words, bench)?;
        }
    }
    Ok(())
}

/// Such a recording and the same without minus zero, at both revisions and in their normal form: what differs
/// and what doesn't.
pub(crate) fn zeros_run(rng: &mut Rng, _: u64, bench: &mut Bench) -> Checked {
    let mut world = World::new(rng);
    world.open_with(b"");
    let length = 20 + rng.below(180);
    let words = recording(rng, &world, length);
    let lent: Lent = world.into();
    for words in [gen::without_minus_zeros(&words), words.clone()] {
        for revision in [1, 2] {
            let world = at_revision(&lent, revision);
            let total = bytes_of_run(&world, &words);
            for room in [rng.below(total + 1), total] {
                let (world, words) = (world.clone(), words.clone());
                bench.expect(Case::Run { world, words, room, counts: 2 }, 0)?;
            }
        }
        let room = words.len();
        bench.check(Case::NormalForm { words, room })?;
    }
    bench.expect(Case::Zeros { world: lent, words }, 0)
}

/// A number that is no revision, or a row of another length: number 1, whatever else is wrong. Both revisions
/// are served.
pub(crate) fn revisions(rng: &mut Rng, _: u64, bench: &mut Bench) -> Checked {
    let sound = World::new(rng);
    let word = rng.pick(&[star(), 256, u16::from(gen::on_line(b'L'))]);
    for revision in [1, 2] {
        let lent = at_revision(&sound.clone().into(), revision);
        let case = Case::Run { world: lent.clone(), words: vec![word], room: 33, counts: 2 };
        bench.expect(case, 0)?;
        bench.expect_served(Case::Step { world: lent, word, room: 33, cause: 2 })?;
    }
    let mut others = sound.clone();
    match rng.below(5) {
        0 => gen::break_sheet(rng, &mut others.bench),
        1 => gen::break_sheet(rng, &mut others.maker),
        2 => gen::break_values(rng, &mut others),
        3 => gen::break_offer(rng, &mut others),
        _ => gen::break_scan(rng, &mut others),
    }
    for world in [sound, others] {
        let any = rng.wild();
        let wild = if matches!(any, 1 | 2) { 0 } else { any };
        let (mut no_revision, mut wild_revision, mut short, mut long) =
            (world.clone(), world.clone(), world.clone(), world);
        no_revision.card[22] = gen::wrong_revision(rng);
        wild_revision.card[22] = wild;
        short.card.truncate(22);
        gen::lengthen_card(rng, &mut long.card);
        for world in [no_revision, wild_revision, short, long] {
            let (lent, word) = (Lent::from(world), rng.pick(&[word, 257]));
            let (room, counts, cause) = (rng.pick(&[0, 32, 33]), rng.pick(&[1, 2]), rng.below(4));
            bench.expect(Case::Step { world: lent.clone(), word, room, cause }, -1)?;
            bench.expect(Case::Run { world: lent, words: vec![word], room, counts }, -1)?;
        }
    }
    Ok(())
}
