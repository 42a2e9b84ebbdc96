//! The reference held to the paper: bench cases a to o, the order of the refusals, the places where
//! a hasty reader goes wrong, and the listing byte for byte.
//! The files beside this one hold the tests; here is what they have in common.

mod bus;
mod card;
mod cause;
mod hearing;
mod listing;
mod message;
mod neighbours;
mod refusals;
mod scan;
mod sheet;
mod trace;
mod zero;

use super::card::{run, step, Card, Stepped};
use super::cause::Cause;
use super::hearing::{for_each_heard, Open};
use super::message::{Kind, Message};
use super::parity::{is_good, on_line};
use super::scan::Scan;

const BENCH: [i32; 24] = [
    74, 2, 1, 5, -100, 100, // J
    77, 1, 1, 1, -1999, 9999, // M
    90, 3, 0, 1, 15, 18, // Z
    109, 2, 1, 5, 0, 1000, // m
];

fn values() -> [i32; 128] {
    // Places without a row may hold anything.
    let mut values = [i32::MIN; 128];
    values[usize::from(b'J')] = 0;
    values[usize::from(b'M')] = 231;
    values[usize::from(b'Z')] = 15;
    values[usize::from(b'm')] = 20;
    values
}

const CARD: Card =
    Card { letter: b'L', address: 7, open: Open::NONE, offer: None, scan: Scan::NONE, revision: 1 };

/// A text without the `_` that parts its groups of digits.
fn plain(text: &str) -> String {
    text.replace('_', "")
}

fn line(text: &str) -> Vec<u8> {
    plain(text).bytes().map(on_line).collect()
}

fn words(text: &str) -> Vec<u16> {
    line(text).into_iter().map(u16::from).collect()
}

fn text(bytes: &[u8]) -> String {
    assert!(bytes.iter().all(|&byte| is_good(byte)), "all bytes written carry parity");
    bytes.iter().map(|byte| char::from(byte & 0x7F)).collect()
}

/// What a card, sheets and values answer to a text, by one run and word by word.
fn answers(card: &mut Card, values: &mut [i32; 128], sent: &[u16]) -> String {
    let (mut other, mut others) = (*card, *values);
    let mut out = [0; 1000];
    let ran = run(card, &BENCH, &[], values, sent, &mut out).unwrap();
    assert_eq!(ran.taken, sent.len());
    let mut bytes = Vec::new();
    for &word in sent {
        let mut out = [0xEE; 35];
        let minus_zero = closes_minus_zero(&other, word);
        let Stepped { written, cause } = step(&mut other, &BENCH, &[], &mut others, word, &mut out).unwrap();
        assert!(out[written..].iter().all(|&byte| byte == 0xEE));
        assert!(suits(cause, minus_zero, &out[..written]), "{cause:?}");
        bytes.extend_from_slice(&out[..written]);
    }
    assert_eq!((*card, *values, &out[..ran.written]), (other, others, &bytes[..]));
    text(&bytes)
}

/// Whether this word closes a Type 3 of minus zero at a card of the second revision.
fn closes_minus_zero(card: &Card, word: u16) -> bool {
    let closed = card.open.heard().filter(|_| word == 0xAA).map(|message| message.kind);
    card.revision == 2 && matches!(closed, Some(Kind::Set { minus_zero: true, .. }))
}

/// Whether a reply, or silence, can have this cause. Code 4 is that of minus zero at the second revision
/// alone, which is never accepted and has no cause behind that.
fn suits(cause: Cause, minus_zero: bool, reply: &[u8]) -> bool {
    let [code, position] = cause.numbers();
    let named = match text(reply).as_bytes() {
        [] => matches!(code, 7..=10),
        [.., b'N', b'*'] if minus_zero => matches!(code, 1..=4),
        [.., b'N', b'*'] => matches!(code, 1..=3 | 5 | 6),
        _ => code == 0 && !minus_zero,
    };
    named && (position != 0) == (code == 10) && matches!(position, 0..=9)
}

fn from_afresh(sent: &str) -> String {
    answers(&mut CARD.clone(), &mut values(), &words(sent))
}

fn heard(words: &[u16]) -> Vec<(usize, Message)> {
    let mut messages = Vec::new();
    for_each_heard(&mut Open::default(), words, |at, message| messages.push((at, message)));
    messages
}
