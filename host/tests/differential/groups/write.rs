//! Groups of messages to be spelled: `kav_write` and `kav_line`.

use super::{Bench, Checked};
use crate::case::{Asked, Case};
use kavtziron_host::gen::{self, Rng};
use kavtziron_host::reference::listing;

/// The two that there are, and others.
const MINUS_ZEROS: [u32; 10] = [0, 1, 2, 3, 255, 256, 257, 65_536, 1 << 31, u32::MAX];

fn asked(rng: &mut Rng) -> Asked {
    let identifier = match rng.below(8) {
        0 => b'?',
        _ => rng.pick(&gen::identifiers()),
    };
    let kind = if identifier == b'?' { b'?' } else { rng.pick(b"?+-##I") };
    let (number, decimals, minus_zero) = if kind == b'#' {
        let number = rng.within(-9_999, 9_999);
        let number = rng.pick(&[0, 0, -1, 1, 9_999, -9_999, number, number]);
        let minus_zero = if number == 0 { rng.below(2) as u32 } else { 0 };
        (number, rng.below(4) as u32, minus_zero)
    } else {
        (rng.wild(), rng.next() as u32 >> rng.below(32), any_minus_zero(rng))
    };
    let address = if rng.percent(50) { rng.within(1, 9) } else { rng.within(1, 99) } as u32;
    Asked { letter: rng.pick(b"LR"), address, identifier, kind, number, decimals, minus_zero }
}

fn any_minus_zero(rng: &mut Rng) -> u32 {
    match rng.below(4) {
        0 => rng.next() as u32 >> rng.below(32),
        _ => rng.pick(&MINUS_ZEROS),
    }
}

fn break_asked(rng: &mut Rng, asked: &mut Asked) {
    match rng.below(9) {
        0 => asked.letter = rng.pick(&[0, b'M', b'K', 0xCC, 0xD2, b'l', 255]),
        1 => asked.address = rng.pick(&[0, 100, 101, 255, 256, 263, 65_543, u32::MAX, 1 << 31]),
        2 => asked.identifier = rng.pick(&[0, 32, 42, 48, 57, 127, 128, 0xAA, 255, b'm' + 128]),
        3 => asked.kind = rng.pick(&[0, b'A', b'N', b'i', b'L', b'*', 0x80 | b'?', 255, b'2']),
        4 => {
            asked.identifier = b'?';
            asked.kind = rng.pick(b"+-#I");
        }
        5 => {
            asked.kind = b'#';
            asked.number = rng.pick(&[10_000, -10_000, i32::MIN, i32::MAX, 65_536, -65_536]);
        }
        6 => {
            asked.kind = b'#';
            asked.number = 0;
            asked.decimals = rng.pick(&[4, 5, 255, 256, 257, 65_536, u32::MAX]);
        }
        7 => {
            let number = rng.within(-9_999, 9_999);
            asked.kind = b'#';
            asked.number = rng.pick(&[0, 0, number]);
            asked.decimals = rng.below(4) as u32;
            asked.minus_zero = rng.pick(&MINUS_ZEROS[2..]);
        }
        _ => {
            let number = rng.within(1, 9_999);
            asked.kind = b'#';
            asked.number = rng.pick(&[1, -1, 5, 9_999, -9_999, number, -number]);
            asked.decimals = rng.below(4) as u32;
            asked.minus_zero = 1;
        }
    }
}

fn any_asked(rng: &mut Rng) -> Asked {
    let mut asked = asked(rng);
    for _ in 0..rng.below(3) {
        match rng.below(7) {
            0 => asked.letter = rng.next() as u8,
            1 => asked.address = rng.next() as u32 >> rng.below(32),
            2 => asked.identifier = rng.next() as u8,
            3 => asked.kind = rng.next() as u8,
            4 => asked.number = rng.wild(),
            5 => asked.minus_zero = any_minus_zero(rng),
            _ => asked.decimals = rng.next() as u32 >> rng.below(32),
        }
    }
    asked
}

pub(crate) fn write_random(rng: &mut Rng, _: u64, bench: &mut Bench) -> Checked {
    let asked = any_asked(rng);
    let room = rng.below(15);
    bench.check(Case::Write { asked, room })?;
    Ok(())
}

fn spelled_length(asked: &Asked) -> usize {
    1 + if asked.address < 10 { 1 } else { 2 } + 2 + if asked.kind == b'#' { 5 } else { 0 } + 1
}

pub(crate) fn write_rooms(rng: &mut Rng, _: u64, bench: &mut Bench) -> Checked {
    let asked = asked(rng);
    let needed = spelled_length(&asked);
    for room in 0..16 {
        let wanted = if room < needed { -5 } else { needed as i64 };
        bench.expect(Case::Write { asked, room }, wanted)?;
        let mut wrong = asked;
        break_asked(rng, &mut wrong);
        bench.expect(Case::Write { asked: wrong, room }, -7)?;
    }
    Ok(())
}

fn any_at(rng: &mut Rng) -> u64 {
    match rng.below(4) {
        0 => rng.pick(&[0, 9, 10, 99, 100, u64::MAX, u64::MAX - 1, 1 << 32, (1 << 32) - 1, 1 << 63]),
        1 => 10u64.pow(rng.below(20) as u32) - rng.below(2) as u64,
        _ => rng.next() >> rng.below(64),
    }
}

pub(crate) fn line_random(rng: &mut Rng, _: u64, bench: &mut Bench) -> Checked {
    let (at, asked) = (any_at(rng), any_asked(rng));
    let room = rng.below(listing::LONGEST_LINE + 3);
    bench.check(Case::Line { at, asked, room })?;
    Ok(())
}

fn line_length(at: u64, asked: &Asked) -> usize {
    let data = if asked.kind == b'#' { 5 } else { 1 };
    at.to_string().len() + 1 + 1 + asked.address.to_string().len() + 1 + 1 + 1 + 1 + 1 + data + 1
}

pub(crate) fn line_rooms(rng: &mut Rng, _: u64, bench: &mut Bench) -> Checked {
    let (at, asked) = (any_at(rng), asked(rng));
    let needed = line_length(at, &asked);
    for room in 0..listing::LONGEST_LINE + 4 {
        let wanted = if room < needed { -5 } else { needed as i64 };
        bench.expect(Case::Line { at, asked, room }, wanted)?;
        let mut wrong = asked;
        break_asked(rng, &mut wrong);
        bench.expect(Case::Line { at, asked: wrong, room }, -7)?;
    }
    Ok(())
}

const KINDS: [(u8, u8); 6] =
    [(b'?', b'?'), (b'm', b'?'), (b'm', b'+'), (b'm', b'-'), (b'm', b'I'), (b'm', b'#')];
const NUMBERS: [i32; 11] = [0, 1, -1, 5, -5, 9_999, -9_999, 10_000, -10_000, i32::MIN, i32::MAX];
const DECIMALS: [u32; 7] = [0, 1, 2, 3, 4, 256, u32::MAX];

/// Kinds, numbers, decimals and minus zero.
pub(crate) const ASKED: u64 = 6 * 11 * 7 * 10;

/// Each kind with each number, count of decimals and `minus_zero`, which are looked at for Type 3 only.
pub(crate) fn minus_zeros_asked(rng: &mut Rng, number: u64, bench: &mut Bench) -> Checked {
    let number = (number * 7_919 % ASKED) as usize;
    let (identifier, kind) = KINDS[number % 6];
    let asked = Asked {
        letter: rng.pick(b"LR"),
        address: rng.within(1, 99) as u32,
        identifier,
        kind,
        number: NUMBERS[number / 6 % 11],
        decimals: DECIMALS[number / 66 % 7],
        minus_zero: MINUS_ZEROS[number / 462],
    };
    let data = matches!(asked.number, -9_999..=9_999) && asked.decimals <= 3;
    let zero = asked.minus_zero == 0 || (asked.minus_zero == 1 && asked.number == 0);
    let heard = kind != b'#' || (data && zero);
    let at = any_at(rng);
    let (spelled, line) = (spelled_length(&asked), line_length(at, &asked));
    for more in [-1, 0, 1] {
        let wanted = |length: usize| match (heard, more) {
            (false, _) => -7,
            (true, -1) => -5,
            _ => length as i64,
        };
        let room = |length: usize| length.wrapping_add_signed(more);
        bench.expect(Case::Write { asked, room: room(spelled) }, wanted(spelled))?;
        bench.expect(Case::Line { at, asked, room: room(line) }, wanted(line))?;
    }
    Ok(())
}
