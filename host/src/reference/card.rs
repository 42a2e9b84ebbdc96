//! What the card does.

use super::cause::Cause;
use super::hearing::Open;
use super::message::{is_letter, Data, Kind, Message, Spelled};
use super::parity::{all_words, SILENCE};
use super::scan::{Scan, SCAN};
use super::sheet::{Row, Rows, READ_AND_WRITE, VALUES};
use super::Refusal;

/// No reply is longer: `L`, two digits, `]`, the count of digits, five values, `A*`.
pub const LONGEST_REPLY: usize = 33;

#[derive(Clone, Copy, Debug, PartialEq, Eq)]
pub struct Offer {
    pub identifier: u8,
    pub value: i32,
}

#[derive(Clone, Copy, Debug, PartialEq, Eq)]
pub struct Card {
    /// `L` or `R`, with no parity.
    pub letter: u8,
    pub address: u8,
    pub open: Open,
    pub offer: Option<Offer>,
    pub scan: Scan,
    /// 1 or 2.
    pub revision: u8,
}

/// Bytes written, and why there was `N` or silence.
#[derive(Clone, Copy, Debug, PartialEq, Eq)]
pub struct Stepped {
    pub written: usize,
    pub cause: Cause,
}

/// Words taken and bytes written.
#[derive(Clone, Copy, Debug, PartialEq, Eq)]
pub struct Ran {
    pub taken: usize,
    pub written: usize,
}

/// What a heard message does, before it is done.
struct Effect {
    /// The identifier's new value, if it gets one.
    value: Option<i32>,
    offer: Option<Offer>,
    reply: Option<Reply>,
}

enum Reply {
    /// `A` with no data.
    Status,
    Value {
        outcome: u8,
        data: Data,
    },
    /// The values that the card's scan names.
    Scan,
}

impl Card {
    /// Letter, address, open message and revision; offer and scan are judged apart, after the sheets.
    pub fn is_sound_without_sheets(&self) -> bool {
        is_letter(self.letter)
            && matches!(self.address, 1..=99)
            && self.open.is_sound()
            && matches!(self.revision, 1 | 2)
    }

    /// Request 5: "the first treats both alike, the second answers a Type 3 of minus zero with `N`".
    #[inline]
    pub(super) fn refuses_minus_zero(&self) -> bool {
        self.revision == 2
    }

    /// What a Type 3 could leave: a multiple of the step, in range, of a row that can be written.
    pub(super) fn has_sound_offer(&self, rows: &Rows) -> bool {
        self.offer.is_none_or(|offer| {
            rows.get(offer.identifier).is_some_and(|row| row.can_be_written() && row.admits(offer.value))
        })
    }

    /// Numbers 1, 2, 1 for offer and scan, and 3.
    #[inline]
    fn admit<'s, 'v>(
        &self,
        bench: &'s [i32],
        maker: &'s [i32],
        values: &'v mut [i32],
    ) -> Result<(Rows<'s>, &'v mut [i32; VALUES]), Refusal> {
        if !self.is_sound_without_sheets() {
            return Err(Refusal::Card);
        }
        let rows = Rows::of(bench, maker).ok_or(Refusal::Sheet)?;
        if !self.has_sound_offer(&rows) {
            return Err(Refusal::Card);
        }
        if !self.scan.is_sound(&rows) {
            return Err(Refusal::Card);
        }
        let values = rows.admit(values).ok_or(Refusal::Values)?;
        Ok((rows, values))
    }

    /// What a message as heard does to a card that has closed it.
    #[inline]
    fn effect(&self, message: &Message, rows: &Rows, values: &[i32; VALUES]) -> Effect {
        let silence = Effect { value: None, offer: None, reply: None };
        if message.letter != self.letter || message.address != self.address {
            // Request 2: "the real card takes no notice of traffic for another letter or address".
            return Effect { offer: self.offer, ..silence };
        }
        let identifier = message.identifier;
        if identifier == SCAN {
            return Effect { reply: self.reply_to_scan(message.kind), ..silence };
        }
        let row = rows.get(identifier);
        let stored = values[usize::from(identifier & 0x7F)];
        let replied = |outcome, number, row: &Row| {
            Some(Reply::Value { outcome, data: Data { number, decimals: row.decimals } })
        };
        let accepted = match message.kind {
            Kind::Status => return Effect { reply: Some(Reply::Status), ..silence },
            Kind::Query => row
                .filter(Row::can_be_read)
                .map(|row| Effect { reply: replied(b'A', stored, &row), ..silence }),
            Kind::Up | Kind::Down => row.and_then(|row| {
                let step = if message.kind == Kind::Up { row.step } else { -row.step };
                let value = stored + step;
                (row.access == READ_AND_WRITE && row.in_range(value)).then(|| Effect {
                    value: Some(value),
                    reply: replied(b'A', value, &row),
                    ..silence
                })
            }),
            Kind::Set { minus_zero: true, .. } if self.refuses_minus_zero() => None,
            Kind::Set { data: Data { number, decimals }, .. } => row
                .filter(|row| row.can_be_written() && row.decimals == decimals && row.in_range(number))
                .map(|row| {
                    let value = row.cut(number);
                    Effect {
                        value: None,
                        offer: Some(Offer { identifier, value }),
                        reply: replied(b'I', value, &row),
                    }
                }),
            Kind::Store => {
                return match (self.offer, row) {
                    (Some(offer), Some(row)) if offer.identifier == identifier => Effect {
                        value: Some(offer.value),
                        offer: None,
                        reply: replied(b'A', offer.value, &row),
                    },
                    _ => silence,
                };
            }
        };
        accepted.unwrap_or_else(|| {
            let data = match row {
                Some(row) if row.can_be_read() => Data { number: stored, decimals: row.decimals },
                _ => Data::ZERO,
            };
            Effect { value: None, offer: None, reply: Some(Reply::Value { outcome: b'N', data }) }
        })
    }

    /// What a message on `]` for this card draws.
    fn reply_to_scan(&self, kind: Kind) -> Option<Reply> {
        match kind {
            Kind::Query if !self.scan.is_none() => Some(Reply::Scan),
            Kind::Store => None,
            _ => Some(Reply::Value { outcome: b'N', data: Data::ZERO }),
        }
    }

    /// Takes one word of a run. Gives the bytes written, or `None`, with nothing changed, where its reply
    /// doesn't fit.
    #[inline]
    pub(super) fn take(
        &mut self,
        word: u16,
        rows: &Rows,
        values: &mut [i32; VALUES],
        out: &mut [u8],
    ) -> Option<usize> {
        match self.open.to_close(&[word]) {
            1 => Some(0),
            _ => self.close(rows, values, out),
        }
    }

    /// Closes the open message: the `*` is taken. Gives the bytes written, or `None`, with nothing
    /// changed, where the reply doesn't fit.
    #[inline]
    fn close(&mut self, rows: &Rows, values: &mut [i32; VALUES], out: &mut [u8]) -> Option<usize> {
        let Some(message) = self.open.heard() else {
            self.open.close();
            return Some(0);
        };
        let effect = self.effect(&message, rows, values);
        let written = match &effect.reply {
            Some(reply) => {
                let spelled = spell_reply(self, message.identifier, reply, rows, values);
                let bytes = spelled.bytes();
                out.get_mut(..bytes.len())?.copy_from_slice(bytes);
                bytes.len()
            }
            None => 0,
        };
        if let Some(value) = effect.value {
            values[usize::from(message.identifier & 0x7F)] = value;
        }
        self.offer = effect.offer;
        self.open.close();
        Some(written)
    }
}

#[inline]
fn spell_reply(
    card: &Card,
    identifier: u8,
    reply: &Reply,
    rows: &Rows,
    values: &[i32; VALUES],
) -> Spelled<LONGEST_REPLY> {
    let mut spelled = Spelled::head(card.letter, card.address, identifier);
    let outcome = match *reply {
        Reply::Status => b'A',
        Reply::Value { outcome, data } => {
            spelled.put_data(data);
            outcome
        }
        Reply::Scan => {
            card.scan.put(&mut spelled, rows, values);
            b'A'
        }
    };
    spelled.put(outcome);
    spelled.put(b'*');
    spelled
}

/// Takes one word. Gives the bytes replied, 0 being silence, and the cause. Refused with 1, 2, 1, 3, 4, 5.
pub fn step(
    card: &mut Card,
    bench: &[i32],
    maker: &[i32],
    values: &mut [i32],
    word: u16,
    out: &mut [u8],
) -> Result<Stepped, Refusal> {
    let (rows, values) = card.admit(bench, maker, values)?;
    if word > SILENCE {
        return Err(Refusal::Word);
    }
    if out.len() < LONGEST_REPLY {
        return Err(Refusal::Room);
    }
    if card.open.to_close(&[word]) == 1 {
        return Ok(Stepped { written: 0, cause: Cause::NotClosed });
    }
    let cause = Cause::of_closing(card, &rows, values);
    let written = card.close(&rows, values, out).ok_or(Refusal::Room)?;
    Ok(Stepped { written, cause })
}

/// Takes words until all are taken or the next word's reply no longer fits. Refused with 1, 2, 1, 3,
/// 4.
pub fn run(
    card: &mut Card,
    bench: &[i32],
    maker: &[i32],
    values: &mut [i32],
    words: &[u16],
    out: &mut [u8],
) -> Result<Ran, Refusal> {
    let (rows, values) = card.admit(bench, maker, values)?;
    if !all_words(words) {
        return Err(Refusal::Word);
    }
    let mut taken = 0;
    let mut written = 0;
    loop {
        taken += card.open.to_close(&words[taken..]);
        if taken == words.len() {
            break;
        }
        match card.close(&rows, values, &mut out[written..]) {
            Some(length) => written += length,
            None => break,
        }
        taken += 1;
    }
    Ok(Ran { taken, written })
}
