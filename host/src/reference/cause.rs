//! Requests 4 and 5: why a word drew `N` or silence.
//!
//! Only the single word's call asks for it, and the trace through that. A run never does, so what a message does is
//! found without it.

use super::card::Card;
use super::message::{Data, Kind, Message};
use super::scan::SCAN;
use super::sheet::{Row, Rows, READ_AND_WRITE, VALUES};

/// The cause that is given: the first that holds. Those of silence are tested before those of `N`.
#[derive(Clone, Copy, Debug, PartialEq, Eq)]
pub enum Cause {
    /// The reply is `A` or `I`.
    None,
    /// `N`: no such identifier.
    Identifier,
    /// `N`: access forbids it.
    Access,
    /// `N`: wrong decimals.
    Decimals,
    /// `N`: minus zero, for a Type 3 at a card of revision 2.
    MinusZero,
    /// `N`: out of range, for a Type 3.
    Range,
    /// `N`: at the limit on a step.
    Limit,
    /// Silence: not for this card.
    OtherCard,
    /// Silence: Type 4 without its offer.
    NoOffer,
    /// Silence: no message closed by this word.
    NotClosed,
    /// Silence: a closed message that isn't well formed, with the position of the first character that no
    /// well-formed message could have there.
    NotWellFormed(usize),
}

impl Cause {
    /// The code, and the position, 0 where there is none.
    pub const fn numbers(self) -> [i32; 2] {
        match self {
            Cause::None => [0, 0],
            Cause::Identifier => [1, 0],
            Cause::Access => [2, 0],
            Cause::Decimals => [3, 0],
            Cause::MinusZero => [4, 0],
            Cause::Range => [5, 0],
            Cause::Limit => [6, 0],
            Cause::OtherCard => [7, 0],
            Cause::NoOffer => [8, 0],
            Cause::NotClosed => [9, 0],
            Cause::NotWellFormed(position) => [10, position as i32],
        }
    }

    /// The cause of what the card does when `*` closes its open message. Asked before that is done.
    pub(super) fn of_closing(card: &Card, rows: &Rows, values: &[i32; VALUES]) -> Cause {
        match card.open.heard() {
            None => Cause::NotWellFormed(first_wrong(card.open.characters())),
            Some(message) if !is_for(card, &message) => Cause::OtherCard,
            Some(message) => of_own(card, &message, rows, values),
        }
    }
}

fn is_for(card: &Card, message: &Message) -> bool {
    (message.letter, message.address) == (card.letter, card.address)
}

/// The cause of what a card does on a message for it.
fn of_own(card: &Card, message: &Message, rows: &Rows, values: &[i32; VALUES]) -> Cause {
    let Message { identifier, kind, .. } = *message;
    match kind {
        Kind::Status => Cause::None,
        Kind::Store if card.offer.is_some_and(|offer| offer.identifier == identifier) => Cause::None,
        Kind::Store => Cause::NoOffer,
        _ if identifier == SCAN => match kind {
            _ if card.scan.is_none() => Cause::Identifier,
            Kind::Query => Cause::None,
            _ => Cause::Access,
        },
        _ => match rows.get(identifier) {
            None => Cause::Identifier,
            Some(row) => of_row(card, kind, &row, values[usize::from(identifier & 0x7F)]),
        },
    }
}

/// The cause of what a Type 2 or 3 draws for an identifier with a row and a stored value.
fn of_row(card: &Card, kind: Kind, row: &Row, stored: i32) -> Cause {
    match kind {
        Kind::Query if !row.can_be_read() => Cause::Access,
        Kind::Up | Kind::Down if row.access != READ_AND_WRITE => Cause::Access,
        Kind::Up if !row.in_range(stored + row.step) => Cause::Limit,
        Kind::Down if !row.in_range(stored - row.step) => Cause::Limit,
        Kind::Set { .. } if !row.can_be_written() => Cause::Access,
        Kind::Set { data: Data { decimals, .. }, .. } if decimals != row.decimals => Cause::Decimals,
        Kind::Set { minus_zero: true, .. } if card.refuses_minus_zero() => Cause::MinusZero,
        Kind::Set { data: Data { number, .. }, .. } if !row.in_range(number) => Cause::Range,
        _ => Cause::None,
    }
}

/// The characters that can stand in one place.
type Class = fn(u8) -> bool;

const fn letter(character: u8) -> bool {
    matches!(character, b'L' | b'R')
}
const fn zero(character: u8) -> bool {
    character == b'0'
}
const fn nonzero(character: u8) -> bool {
    matches!(character, b'1'..=b'9')
}
const fn digit(character: u8) -> bool {
    character.is_ascii_digit()
}
const fn query(character: u8) -> bool {
    character == b'?'
}
/// Codes 33 to 126, no digit, no `*`, and not `?`.
const fn identifier(character: u8) -> bool {
    matches!(character, 33..=41 | 43..=47 | 58..=62 | 64..=126)
}
/// The body of a Type 2 or 4.
const fn sign(character: u8) -> bool {
    matches!(character, b'?' | b'+' | b'-' | b'I')
}
const fn hash(character: u8) -> bool {
    character == b'#'
}
const fn code(character: u8) -> bool {
    matches!(character, b'0'..=b'3' | b'5'..=b'8')
}
const fn star(character: u8) -> bool {
    character == b'*'
}

/// The well-formed messages are those of nine shapes: a head and a body, each place of which has any
/// character of its class. First the three spellings of an address.
const HEADS: [&[Class]; 3] = [&[letter, nonzero], &[letter, zero, nonzero], &[letter, nonzero, digit]];
/// Type 1, Types 2 and 4, Type 3; each with the `*`.
const BODIES: [&[Class]; 3] = [
    &[query, query, star],
    &[identifier, sign, star],
    &[identifier, hash, digit, digit, digit, digit, code, star],
];

/// The position of the first character that no well-formed message has behind those before it, in a message
/// that isn't well formed. The `*` that closes it counts as a character.
///
/// No class is empty, so the beginning of a shape can always be completed: characters begin a well-formed
/// message exactly when they match the first places of a shape. The position is how many match at most.
pub(super) fn first_wrong(characters: &[u8]) -> usize {
    let matching = |head: &[Class], body: &[Class]| {
        let places = head.iter().chain(body);
        places.zip(characters.iter().chain(b"*")).take_while(|(class, &character)| class(character)).count()
    };
    HEADS.iter().flat_map(|head| BODIES.map(|body| matching(head, body))).max().unwrap_or(0)
}
