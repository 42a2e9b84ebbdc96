//! The reader of replies.

use super::card::LONGEST_REPLY;
use super::message::{is_identifier, is_letter, parse_data, Data};
use super::parity::is_good;
use super::scan::{digits_of, is_scan_count, MOST_NAMED, SCAN};
use super::Refusal;

/// What a reply says.
#[derive(Clone, Copy, Debug, PartialEq, Eq)]
pub struct Answer {
    pub letter: u8,
    pub address: u8,
    pub identifier: u8,
    /// `A`, `I` or `N`.
    pub outcome: u8,
    /// How many numbers: none, one, or a scan's four or five.
    pub count: usize,
    /// The numbers in order, [`Data::ZERO`] behind the count.
    pub numbers: [Data; MOST_NAMED],
}

/// Reads one whole reply, spelled exactly as a card spells it. Refused with 6.
#[inline]
pub fn read(bytes: &[u8]) -> Result<Answer, Refusal> {
    parse_reply(bytes).ok_or(Refusal::Reply)
}

fn parse_reply(bytes: &[u8]) -> Option<Answer> {
    let mut characters = [0; LONGEST_REPLY];
    let characters = characters.get_mut(..bytes.len())?;
    for (character, &byte) in characters.iter_mut().zip(bytes) {
        if !is_good(byte) {
            return None;
        }
        *character = byte & 0x7F;
    }
    let (letter, address, rest) = match *characters {
        [letter, tens @ b'1'..=b'9', ones @ b'0'..=b'9', ref rest @ ..] => {
            (letter, (tens - b'0') * 10 + (ones - b'0'), rest)
        }
        [letter, ones @ b'1'..=b'9', ref rest @ ..] => (letter, ones - b'0', rest),
        _ => return None,
    };
    if !is_letter(letter) {
        return None;
    }
    let (identifier, outcome, count, numbers) = match *rest {
        [b'?', b'A', b'*'] => (b'?', b'A', 0, NO_NUMBERS),
        [SCAN, ref digits @ .., outcome @ (b'A' | b'N'), b'*'] => {
            let (count, numbers) = parse_scan(digits, outcome)?;
            (SCAN, outcome, count, numbers)
        }
        [identifier, ref digits @ .., outcome @ (b'A' | b'I' | b'N'), b'*']
            if is_identifier(identifier) && identifier != b'?' && identifier != SCAN =>
        {
            let mut numbers = NO_NUMBERS;
            numbers[0] = parse_number(digits.try_into().ok()?)?;
            (identifier, outcome, 1, numbers)
        }
        _ => return None,
    };
    Some(Answer { letter, address, identifier, outcome, count, numbers })
}

const NO_NUMBERS: [Data; MOST_NAMED] = [Data::ZERO; MOST_NAMED];

/// The numbers of a reply on `]`: `N` with `00000`, or `A` with the count of digits and four or five
/// values.
fn parse_scan(digits: &[u8], outcome: u8) -> Option<(usize, [Data; MOST_NAMED])> {
    let mut numbers = NO_NUMBERS;
    if outcome == b'N' {
        return (digits == b"00000").then_some((1, numbers));
    }
    let (said, digits) = digits.split_first_chunk::<2>()?;
    let (groups, rest) = digits.as_chunks::<5>();
    if !rest.is_empty() || !is_scan_count(groups.len()) || *said != digits_of(groups.len()) {
        return None;
    }
    for (number, group) in numbers.iter_mut().zip(groups) {
        *number = parse_number(group)?;
    }
    Some((groups.len(), numbers))
}

/// Five digits as a card spells them.
#[inline]
fn parse_number(digits: &[u8; 5]) -> Option<Data> {
    let (data, minus_zero) = parse_data(digits)?;
    // Request 5: "a reply with minus zero stays number 6".
    if minus_zero {
        return None;
    }
    Some(data)
}
