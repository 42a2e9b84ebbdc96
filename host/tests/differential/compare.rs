//! Both sides of a case, with guards before and behind each buffer.

use crate::alone::alone;
use crate::case::{Asked, Case, Lent};
use crate::drawn::{suits, Cause, Zero};
use crate::drawn_bus::{classes_of, Class};
use crate::drawn_trace::DrawnTrace;
use crate::ignored::ignored;
use crate::side::{Run, SIDES};
use crate::trace::{compare_trace, Read};
use crate::zeros::zeros;
use kavtziron_host::abi;
use kavtziron_host::reference::calls;
use std::fmt::Debug;

/// Numbers before and behind each buffer that no call may touch.
const GUARD: usize = 8;

/// A number for each place, never 0 and seldom anything that a call writes.
pub(crate) trait Pattern: Copy + PartialEq + Debug {
    fn at(place: usize) -> Self;
}
impl Pattern for u8 {
    fn at(place: usize) -> u8 {
        (place.wrapping_mul(29) % 61) as u8 + 0x85
    }
}
impl Pattern for u16 {
    fn at(place: usize) -> u16 {
        (place.wrapping_mul(29) % 6151) as u16 + 0x8101
    }
}
impl Pattern for i32 {
    fn at(place: usize) -> i32 {
        -1_000_003 - place as i32
    }
}
impl Pattern for u64 {
    fn at(place: usize) -> u64 {
        u64::MAX / 3 + place as u64
    }
}

/// A buffer between two guards.
#[derive(Clone, PartialEq, Debug)]
pub(crate) struct Guarded<T>(Vec<T>);

impl<T: Pattern> Guarded<T> {
    pub(crate) fn room(length: usize) -> Guarded<T> {
        Guarded((0..length + 2 * GUARD).map(T::at).collect())
    }

    pub(crate) fn of(inside: &[T]) -> Guarded<T> {
        let mut guarded = Guarded::room(inside.len());
        guarded.inside().copy_from_slice(inside);
        guarded
    }

    pub(crate) fn inside(&mut self) -> &mut [T] {
        let end = self.0.len() - GUARD;
        &mut self.0[GUARD..end]
    }

    pub(crate) fn seen(&self) -> &[T] {
        &self.0[GUARD..self.0.len() - GUARD]
    }
}

fn same<T: Pattern>(what: &str, archive: &Guarded<T>, reference: &Guarded<T>) -> Result<(), String> {
    alike(what, ["archive", "reference"], [archive, reference])
}

/// Two buffers of these names, lent as the same.
pub(crate) fn alike<T: Pattern>(
    what: &str,
    names: [&str; 2],
    [first, second]: [&Guarded<T>; 2],
) -> Result<(), String> {
    if first == second {
        return Ok(());
    }
    let at = first.0.iter().zip(&second.0).position(|(a, b)| a != b).unwrap_or(0);
    let place = at as isize - GUARD as isize;
    Err(format!(
        "{what}[{place}] (of {}): {} {:?}, {} {:?}",
        first.0.len() - 2 * GUARD,
        names[0],
        first.0[at],
        names[1],
        second.0[at]
    ))
}

pub(crate) fn same_result(archive: i64, reference: i64) -> Result<i64, String> {
    if archive == reference {
        Ok(archive)
    } else {
        Err(format!("result: archive {archive}, reference {reference}"))
    }
}

/// What both sides gave: the result, of a served single word the cause and what a Type 3 of zero drew, and of several
/// cards and of a trace what the run was like.
pub(crate) struct Agreed {
    pub(crate) result: i64,
    pub(crate) cause: Option<Cause>,
    pub(crate) zero: Option<Zero>,
    pub(crate) classes: Vec<Class>,
    pub(crate) trace: Option<DrawnTrace>,
}

impl Agreed {
    pub(crate) fn on(result: i64) -> Agreed {
        Agreed { result, cause: None, zero: None, classes: Vec::new(), trace: None }
    }
}

/// Both sides of one case.
pub(crate) fn compare(case: &Case) -> Result<Agreed, String> {
    match case {
        Case::Step { world, word, room, cause } => compare_step(world, *word, *room, *cause),
        Case::Bus { world, words, room, counts } => {
            let ran = compare_runs(world, words, *room, *counts, [abi::bus_run, calls::bus_run])?;
            let classes = classes_of(world, words, *room, &ran);
            Ok(Agreed { classes, ..Agreed::on(ran.result) })
        }
        Case::Trace { world, words, room, notes, counts } => {
            compare_trace(&Read { world, words }, *room, *notes, *counts)
        }
        _ => compare_other(case).map(Agreed::on),
    }
}

/// What both runs gave and left.
pub(crate) struct Ran {
    pub(crate) result: i64,
    pub(crate) cards: Vec<i32>,
    pub(crate) taken: usize,
    pub(crate) replies: Vec<u8>,
}

/// Two calls that run words, lent the same.
fn compare_runs(
    world: &Lent,
    words: &[u16],
    room: usize,
    length: usize,
    [first, second]: [Run; 2],
) -> Result<Ran, String> {
    let mut cards = [Guarded::of(&world.card), Guarded::of(&world.card)];
    let mut values = [Guarded::of(&world.values), Guarded::of(&world.values)];
    let mut outs = [Guarded::<u8>::room(room), Guarded::room(room)];
    let mut both = [Guarded::<u64>::room(length), Guarded::room(length)];
    let mut results = [0; 2];
    for (side, call) in [first, second].into_iter().enumerate() {
        results[side] = call(
            cards[side].inside(),
            &world.bench,
            &world.maker,
            values[side].inside(),
            words,
            outs[side].inside(),
            both[side].inside(),
        );
    }
    let result = same_result(results[0], results[1])?;
    same("counts", &both[0], &both[1])?;
    same("card", &cards[0], &cards[1])?;
    same("values", &values[0], &values[1])?;
    same("out", &outs[0], &outs[1])?;
    let [taken, written] = match both[0].inside() {
        &mut [taken, written, ..] if result == 0 => [taken as usize, written as usize],
        _ => [0, 0],
    };
    let replies = outs[0].inside()[..written].to_vec();
    Ok(Ran { result, cards: cards[0].inside().to_vec(), taken, replies })
}

fn compare_step(world: &Lent, word: u16, room: usize, length: usize) -> Result<Agreed, String> {
    let mut cards = [Guarded::of(&world.card), Guarded::of(&world.card)];
    let mut values = [Guarded::of(&world.values), Guarded::of(&world.values)];
    let mut outs = [Guarded::<u8>::room(room), Guarded::room(room)];
    let mut causes = [Guarded::<i32>::room(length), Guarded::room(length)];
    let archive = abi::step(
        cards[0].inside(),
        &world.bench,
        &world.maker,
        values[0].inside(),
        word,
        outs[0].inside(),
        causes[0].inside(),
    );
    let reference = calls::step(
        cards[1].inside(),
        &world.bench,
        &world.maker,
        values[1].inside(),
        word,
        outs[1].inside(),
        causes[1].inside(),
    );
    let result = same_result(archive, reference)?;
    same("cause", &causes[0], &causes[1])?;
    same("card", &cards[0], &cards[1])?;
    same("values", &values[0], &values[1])?;
    same("out", &outs[0], &outs[1])?;
    let Ok(written) = usize::try_from(result) else {
        return Ok(Agreed::on(result));
    };
    let cause = [causes[0].inside()[0], causes[0].inside()[1]];
    let zero = Zero::of(&world.card, word, &outs[0].inside()[..written]);
    if !suits(cause, zero, &outs[0].inside()[..written]) {
        return Err(format!("both sides gave cause {cause:?}, which the reply of {result} bytes can't have"));
    }
    Ok(Agreed { cause: Some(cause), zero, ..Agreed::on(result) })
}

/// Gives the result that both gave.
fn compare_other(case: &Case) -> Result<i64, String> {
    match case {
        Case::Step { .. } | Case::Bus { .. } | Case::Trace { .. } => {
            unreachable!("they have functions of their own")
        }
        Case::Run { world, words, room, counts } => {
            let ran = compare_runs(world, words, *room, *counts, [abi::run, calls::run])?;
            Ok(ran.result)
        }
        Case::Single { world, words, room, counts } => {
            let mut result = 0;
            for side in &SIDES {
                let ran = compare_runs(world, words, *room, *counts, [side.bus_run, side.run]);
                let name = side.name;
                result = ran
                    .map_err(|what| {
                        format!("{name}, kav_bus_run for archive, kav_run for reference: {what}")
                    })?
                    .result;
            }
            Ok(result)
        }
        Case::Alone { world, words, room, at, other } => alone(world, words, *room, *at, other),
        Case::Ignored { world, words } => ignored(world, words),
        Case::Zeros { world, words } => zeros(world, words),
        Case::NormalForm { words, room } => {
            let mut outs = [Guarded::<u16>::room(*room), Guarded::room(*room)];
            let archive = abi::normal_form(words, outs[0].inside());
            let reference = calls::normal_form(words, outs[1].inside());
            let result = same_result(archive, reference)?;
            same("out", &outs[0], &outs[1])?;
            Ok(result)
        }
        Case::Write { asked, room } => {
            let Asked { letter, address, identifier, kind, number, decimals, minus_zero } = *asked;
            let mut outs = [Guarded::<u8>::room(*room), Guarded::room(*room)];
            let archive =
                abi::write(letter, address, identifier, kind, number, decimals, minus_zero, outs[0].inside());
            let reference = calls::write(
                letter,
                address,
                identifier,
                kind,
                number,
                decimals,
                minus_zero,
                outs[1].inside(),
            );
            let result = same_result(archive, reference)?;
            same("out", &outs[0], &outs[1])?;
            Ok(result)
        }
        Case::Read { bytes, room } => {
            let mut answers = [Guarded::<i32>::room(*room), Guarded::room(*room)];
            let archive = abi::read(bytes, answers[0].inside());
            let reference = calls::read(bytes, answers[1].inside());
            let result = same_result(archive, reference)?;
            same("answer", &answers[0], &answers[1])?;
            Ok(result)
        }
        Case::Line { at, asked, room } => {
            let Asked { letter, address, identifier, kind, number, decimals, minus_zero } = *asked;
            let mut outs = [Guarded::<u8>::room(*room), Guarded::room(*room)];
            let (at, out) = (*at, outs[0].inside());
            let archive = abi::line(at, letter, address, identifier, kind, number, decimals, minus_zero, out);
            let out = outs[1].inside();
            let reference =
                calls::line(at, letter, address, identifier, kind, number, decimals, minus_zero, out);
            let result = same_result(archive, reference)?;
            same("out", &outs[0], &outs[1])?;
            Ok(result)
        }
        Case::Lookup { bench, maker, identifier, room } => {
            let mut rows = [Guarded::<i32>::room(*room), Guarded::room(*room)];
            let archive = abi::lookup(bench, maker, *identifier, rows[0].inside());
            let reference = calls::lookup(bench, maker, *identifier, rows[1].inside());
            let result = same_result(archive, reference)?;
            same("row", &rows[0], &rows[1])?;
            Ok(result)
        }
    }
}
