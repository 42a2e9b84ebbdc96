//! The calls over numbers and slices of numbers, as the C boundary has them: the yardstick that
//! stands beside each wrapper of `abi`, with the same parameters and results.

use std::ops::Range;

use super::card::{self, Card, Offer};
use super::hearing::{Open, MOST};
use super::message::{self, Data, Kind, Message};
use super::scan::{Scan, MOST_NAMED};
use super::{bus, listing, normal, reply, sheet, trace, Refusal};

/// Letter, address, count of open characters, ten characters, offer or none, its identifier, its
/// value, count of the scan's identifiers, five identifiers, revision.
pub const CARD: usize = 23;
/// Letter, address, identifier, outcome, count of numbers, five pairs of a number and its decimals.
pub const ANSWER: usize = 15;
/// Code and position.
pub const CAUSE: usize = 2;
/// Place of the word, characters of the message, bytes replied, code and position.
pub const NOTE: usize = 5;

/// What the boundary's reader gives back when it isn't refused: the count of numbers written.
pub const READ: i64 = ANSWER as i64;

/// What numbers that are no offer stand for: one that no sheet has a row for, so that it is judged with
/// the offers.
const NO_OFFER: Offer = Offer { identifier: 0, value: 0 };

/// What a scan's count stands for that is no byte, and an identifier that is none: neither is sound.
const NO_COUNT: u8 = 255;
const NO_IDENTIFIER: u8 = 0;

/// The numbers that a word can change: the open message and the offer.
const CHANGED: Range<usize> = 2..16;

const fn refused(refusal: Refusal) -> i64 {
    -(refusal.number() as i64)
}

fn counted(result: Result<usize, Refusal>) -> i64 {
    result.map_or_else(refused, |count| count as i64)
}

/// The card that a row of 23 is. `None`, where its length or its numbers 0 to 12 and 22 are no card's, is
/// number 1 before the sheets; whether the card is sound is asked later, and of its offer and scan after the
/// sheets.
pub fn card_of(row: &[i32]) -> Option<Card> {
    let row: &[i32; CARD] = row.try_into().ok()?;
    let code = |number: i32| u8::try_from(number).ok();
    let mut characters = [0; MOST];
    for (character, &number) in characters.iter_mut().zip(&row[3..13]) {
        *character = code(number)?;
    }
    let offer = match row[13..16] {
        [0, 0, 0] => None,
        [1, identifier @ 0..=255, value] => Some(Offer { identifier: identifier as u8, value }),
        _ => Some(NO_OFFER),
    };
    let mut identifiers = [NO_IDENTIFIER; MOST_NAMED];
    for (identifier, &number) in identifiers.iter_mut().zip(&row[17..22]) {
        *identifier = code(number).unwrap_or(NO_IDENTIFIER);
    }
    Some(Card {
        letter: code(row[0])?,
        address: code(row[1])?,
        open: Open { length: code(row[2])?, characters },
        offer,
        scan: Scan { count: code(row[16]).unwrap_or(NO_COUNT), identifiers },
        revision: code(row[22])?,
    })
}

/// The row of 23 that a card is.
pub fn row_of(card: &Card) -> [i32; CARD] {
    let mut row = [0; CARD];
    row[0] = i32::from(card.letter);
    row[1] = i32::from(card.address);
    row[2] = i32::from(card.open.length);
    for (number, &character) in row[3..13].iter_mut().zip(&card.open.characters) {
        *number = i32::from(character);
    }
    if let Some(offer) = card.offer {
        row[13..16].copy_from_slice(&[1, i32::from(offer.identifier), offer.value]);
    }
    row[16] = i32::from(card.scan.count);
    for (number, &identifier) in row[17..22].iter_mut().zip(&card.scan.identifiers) {
        *number = i32::from(identifier);
    }
    row[22] = i32::from(card.revision);
    row
}

/// A served call writes back what a word can change and nothing else.
fn put_back(row: &mut [i32], card: &Card) {
    row[CHANGED].copy_from_slice(&row_of(card)[CHANGED]);
}

/// Minus the number, or the count of bytes, 0 being silence, with the cause's code in `cause[0]` and its
/// position in `cause[1]`. A cause shorter than two is number 5, after all the others.
pub fn step(
    card: &mut [i32],
    bench: &[i32],
    maker: &[i32],
    values: &mut [i32],
    word: u16,
    out: &mut [u8],
    cause: &mut [i32],
) -> i64 {
    let Some(mut inner) = card_of(card) else {
        return refused(Refusal::Card);
    };
    // The refusals before it come first; with no room for the reply the call is refused and changes nothing.
    let out: &mut [u8] = if cause.len() < CAUSE { &mut [] } else { out };
    let result = card::step(&mut inner, bench, maker, values, word, out);
    if let Ok(stepped) = result {
        put_back(card, &inner);
        cause[..CAUSE].copy_from_slice(&stepped.cause.numbers());
    }
    counted(result.map(|stepped| stepped.written))
}

/// Minus the number, or 0 with `counts[0]` words taken and `counts[1]` bytes written. Counts
/// shorter than two are number 5, after all the others.
pub fn run(
    card: &mut [i32],
    bench: &[i32],
    maker: &[i32],
    values: &mut [i32],
    words: &[u16],
    out: &mut [u8],
    counts: &mut [u64],
) -> i64 {
    let Some(mut inner) = card_of(card) else {
        return refused(Refusal::Card);
    };
    let Some(counts) = counts.first_chunk_mut::<2>() else {
        // The refusals before it come first; a run into copies finds them and changes nothing lent.
        let mut values = values.to_vec();
        let result = card::run(&mut inner, bench, maker, &mut values, words, &mut []);
        return refused(result.err().unwrap_or(Refusal::Room));
    };
    match card::run(&mut inner, bench, maker, values, words, out) {
        Ok(ran) => {
            put_back(card, &inner);
            *counts = [ran.taken as u64, ran.written as u64];
            0
        }
        Err(refusal) => refused(refusal),
    }
}

/// A run that notes each word that closed a message. Minus the number, or 0 with `counts[0]` words taken, `counts[1]`
/// bytes written and `counts[2]` messages noted. Notes with fewer than five numbers for each word, or counts shorter
/// than three, are number 5, after all the others.
#[allow(clippy::too_many_arguments)]
pub fn trace(
    card: &mut [i32],
    bench: &[i32],
    maker: &[i32],
    values: &mut [i32],
    words: &[u16],
    out: &mut [u8],
    notes: &mut [u64],
    counts: &mut [u64],
) -> i64 {
    let Some(mut inner) = card_of(card) else {
        return refused(Refusal::Card);
    };
    // As in `run`, what comes before number 5 is found in copies.
    let (mut held, mut replies) = (values.to_vec(), out.to_vec());
    let (ran, noted) = match trace::trace(&mut inner, bench, maker, &mut held, words, &mut replies) {
        Ok(traced) => traced,
        Err(refusal) => return refused(refusal),
    };
    if notes.len() < NOTE * words.len() || counts.len() < 3 {
        return refused(Refusal::Room);
    }
    put_back(card, &inner);
    values.copy_from_slice(&held);
    out.copy_from_slice(&replies);
    for (numbers, note) in notes.chunks_exact_mut(NOTE).zip(&noted) {
        numbers.copy_from_slice(&note.numbers());
    }
    counts[..3].copy_from_slice(&[ran.taken as u64, ran.written as u64, noted.len() as u64]);
    0
}

/// Cards' rows back to back, and 128 values for each. Minus the number, or 0 with `counts[0]` words taken and
/// `counts[1]` bytes written. Counts shorter than two are number 5, after all the others.
pub fn bus_run(
    cards: &mut [i32],
    bench: &[i32],
    maker: &[i32],
    values: &mut [i32],
    words: &[u16],
    out: &mut [u8],
    counts: &mut [u64],
) -> i64 {
    let (rows, rest) = cards.as_chunks_mut::<CARD>();
    let all: Option<Vec<Card>> = rows.iter().map(|row| card_of(row)).collect();
    let Some(mut all) = all.filter(|_| rest.is_empty()) else {
        return refused(Refusal::Card);
    };
    // As in `run`, what comes before number 5 is found in copies.
    let mut copies = if counts.len() < 2 { values.to_vec() } else { Vec::new() };
    let (lent, room) = if counts.len() < 2 { (&mut copies[..], &mut [][..]) } else { (values, out) };
    let ran = match bus::run(&mut all, bench, maker, lent, words, room) {
        Ok(ran) => ran,
        Err(refusal) => return refused(refusal),
    };
    let [taken, written, ..] = counts else {
        return refused(Refusal::Room);
    };
    (*taken, *written) = (ran.taken as u64, ran.written as u64);
    rows.iter_mut().zip(&all).for_each(|(row, card)| put_back(row, card));
    0
}

/// Minus the number, or the count of words written.
pub fn normal_form(words: &[u16], out: &mut [u16]) -> i64 {
    counted(normal::normal_form(words, out))
}

/// The message with this body's first character. `None` where there is none such: number 7. Number, decimals
/// and minus zero are looked at for Type 3 only.
#[inline]
fn message_of(
    letter: u8,
    address: u32,
    identifier: u8,
    kind: u8,
    number: i32,
    decimals: u32,
    minus_zero: u32,
) -> Option<Message> {
    let kind = match kind {
        b'?' if identifier == b'?' => Kind::Status,
        b'?' => Kind::Query,
        b'+' => Kind::Up,
        b'-' => Kind::Down,
        b'#' => {
            let data = Data { number, decimals: u8::try_from(decimals).ok()? };
            let minus_zero = match minus_zero {
                0 => false,
                1 => true,
                _ => return None,
            };
            Kind::Set { data, minus_zero }
        }
        b'I' => Kind::Store,
        _ => return None,
    };
    Some(Message { letter, address: u8::try_from(address).ok()?, identifier, kind })
}

/// Minus the number, or the count of bytes written.
#[allow(clippy::too_many_arguments)]
pub fn write(
    letter: u8,
    address: u32,
    identifier: u8,
    kind: u8,
    number: i32,
    decimals: u32,
    minus_zero: u32,
    out: &mut [u8],
) -> i64 {
    counted(
        message_of(letter, address, identifier, kind, number, decimals, minus_zero)
            .ok_or(Refusal::Message)
            .and_then(|message| message::write(&message, out)),
    )
}

/// Minus the number, or [`READ`] with the answer's fifteen numbers written. An answer shorter than
/// that is number 5, after 6.
pub fn read(bytes: &[u8], answer: &mut [i32]) -> i64 {
    let read = match reply::read(bytes) {
        Ok(read) => read,
        Err(refusal) => return refused(refusal),
    };
    let Some(answer) = answer.first_chunk_mut::<ANSWER>() else {
        return refused(Refusal::Room);
    };
    let (head, numbers) = answer.split_at_mut(5);
    head.copy_from_slice(&[
        i32::from(read.letter),
        i32::from(read.address),
        i32::from(read.identifier),
        i32::from(read.outcome),
        read.count as i32,
    ]);
    for (pair, data) in numbers.as_chunks_mut().0.iter_mut().zip(&read.numbers) {
        *pair = [data.number, i32::from(data.decimals)];
    }
    READ
}

/// Minus the number, or the count of bytes written.
#[allow(clippy::too_many_arguments)]
pub fn line(
    at: u64,
    letter: u8,
    address: u32,
    identifier: u8,
    kind: u8,
    number: i32,
    decimals: u32,
    minus_zero: u32,
    out: &mut [u8],
) -> i64 {
    counted(
        message_of(letter, address, identifier, kind, number, decimals, minus_zero)
            .ok_or(Refusal::Message)
            .and_then(|message| listing::line(at, &message, out)),
    )
}

/// 6 with the row copied, or 0 where there is none. A room under 6 is minus 5, row or no row.
pub fn lookup(bench: &[i32], maker: &[i32], identifier: u8, row: &mut [i32]) -> i64 {
    let Some(row) = row.first_chunk_mut::<{ sheet::WIDTH }>() else {
        return refused(Refusal::Room);
    };
    let found = sheet::lookup(bench, maker, identifier);
    row[..found.len()].copy_from_slice(found);
    found.len() as i64
}
