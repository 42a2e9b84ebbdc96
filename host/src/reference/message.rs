//! Messages as heard: how they are read from characters and how they are spelled.

use super::parity::on_line;
use super::Refusal;

/// A number of four digits either way, with its count of decimals: in units of the last decimal.
#[derive(Clone, Copy, Debug, PartialEq, Eq)]
pub struct Data {
    pub number: i32,
    pub decimals: u8,
}

impl Data {
    /// `00000`.
    pub const ZERO: Data = Data { number: 0, decimals: 0 };
}

/// The greatest number that four digits hold.
pub const GREATEST: i32 = 9_999;

#[derive(Clone, Copy, Debug, PartialEq, Eq)]
pub enum Kind {
    /// Type 1, `??`. Its identifier is `?`.
    Status,
    /// Type 2, `?`.
    Query,
    /// Type 2, `+`.
    Up,
    /// Type 2, `-`.
    Down,
    /// Type 3, `#` and five digits. Minus zero is number 0 with the sign kept beside it.
    Set { data: Data, minus_zero: bool },
    /// Type 4, `I`.
    Store,
}

impl Kind {
    /// The body's first character.
    #[inline]
    pub const fn sign(self) -> u8 {
        match self {
            Kind::Status | Kind::Query => b'?',
            Kind::Up => b'+',
            Kind::Down => b'-',
            Kind::Set { .. } => b'#',
            Kind::Store => b'I',
        }
    }
}

/// A message as heard.
#[derive(Clone, Copy, Debug, PartialEq, Eq)]
pub struct Message {
    pub letter: u8,
    pub address: u8,
    pub identifier: u8,
    pub kind: Kind,
}

/// `L`, up to two digits, identifier, `#`, five digits, `*`.
pub const LONGEST: usize = 11;

/// Codes 33 to 126, no digit, no `*`.
#[inline]
pub const fn is_identifier(code: u8) -> bool {
    matches!(code, 33..=126) && !code.is_ascii_digit() && code != b'*'
}

/// Reads the characters before `*`, letter included.
#[inline]
pub fn parse(characters: &[u8]) -> Option<Message> {
    let (&letter, rest) = characters.split_first()?;
    if !is_letter(letter) {
        return None;
    }
    let (address, rest) = match *rest {
        [tens @ b'0'..=b'9', ones @ b'0'..=b'9', ref rest @ ..] => ((tens - b'0') * 10 + (ones - b'0'), rest),
        [ones @ b'0'..=b'9', ref rest @ ..] => (ones - b'0', rest),
        _ => return None,
    };
    if address == 0 {
        return None;
    }
    let (&identifier, body) = rest.split_first()?;
    if !is_identifier(identifier) {
        return None;
    }
    let kind = match *body {
        [b'?'] if identifier == b'?' => Kind::Status,
        _ if identifier == b'?' => return None,
        [b'?'] => Kind::Query,
        [b'+'] => Kind::Up,
        [b'-'] => Kind::Down,
        [b'I'] => Kind::Store,
        [b'#', ref digits @ ..] => {
            let (data, minus_zero) = parse_data(digits.try_into().ok()?)?;
            Kind::Set { data, minus_zero }
        }
        _ => return None,
    };
    Some(Message { letter, address, identifier, kind })
}

/// Four digits and a code, and whether they are minus zero. Request 5: "The digit reader must now tell minus
/// zero from zero".
#[inline]
pub(super) fn parse_data(digits: &[u8; 5]) -> Option<(Data, bool)> {
    let mut number = 0;
    for &digit in &digits[..4] {
        if !digit.is_ascii_digit() {
            return None;
        }
        number = number * 10 + i32::from(digit - b'0');
    }
    match digits[4] {
        code @ b'0'..=b'3' => Some((Data { number, decimals: code - b'0' }, false)),
        code @ b'5'..=b'8' => Some((Data { number: -number, decimals: code - b'5' }, number == 0)),
        _ => None,
    }
}

/// Canonical data: the code is the decimals for zero and above, plus 5 below zero and for minus zero.
#[inline]
pub(super) fn spell_data(data: Data, minus_zero: bool) -> [u8; 5] {
    let size = data.number.unsigned_abs();
    let code = data.decimals + if data.number < 0 || minus_zero { 5 } else { 0 };
    let digit = |unit: u32| b'0' + (size / unit % 10) as u8;
    [digit(1000), digit(100), digit(10), digit(1), b'0' + code]
}

#[inline]
pub(super) const fn is_letter(letter: u8) -> bool {
    letter == b'L' || letter == b'R'
}

impl Message {
    /// Whether this is a heard message: number 7 holds exactly when not.
    #[inline]
    pub fn is_heard(&self) -> bool {
        is_letter(self.letter)
            && matches!(self.address, 1..=99)
            && is_identifier(self.identifier)
            && (self.identifier == b'?') == (self.kind == Kind::Status)
            && match self.kind {
                Kind::Set { data: Data { number, decimals }, minus_zero } => {
                    (-GREATEST..=GREATEST).contains(&number) && decimals <= 3 && (number == 0 || !minus_zero)
                }
                _ => true,
            }
    }

    /// How many characters the normal form of a heard message has, `*` included.
    #[inline]
    pub fn length(&self) -> usize {
        let address = if self.address < 10 { 1 } else { 2 };
        let data = if let Kind::Set { .. } = self.kind { 5 } else { 0 };
        1 + address + 1 + 1 + data + 1
    }

    /// The bytes of a heard message's normal form.
    #[inline(always)]
    pub(super) fn spell(&self) -> Spelled<LONGEST> {
        let mut spelled = Spelled::head(self.letter, self.address, self.identifier);
        spelled.put(self.kind.sign());
        if let Kind::Set { data, minus_zero } = self.kind {
            spelled.put_digits(spell_data(data, minus_zero));
        }
        spelled.put(b'*');
        spelled
    }
}

/// The bytes of a message or a reply, with parity.
pub(super) struct Spelled<const ROOM: usize> {
    bytes: [u8; ROOM],
    length: usize,
}

impl<const ROOM: usize> Spelled<ROOM> {
    /// Letter, address without a leading zero, identifier.
    #[inline]
    pub(super) fn head(letter: u8, address: u8, identifier: u8) -> Spelled<ROOM> {
        let mut spelled = Spelled { bytes: [0; ROOM], length: 0 };
        spelled.put(letter);
        if address >= 10 {
            spelled.put(b'0' + address / 10);
        }
        spelled.put(b'0' + address % 10);
        spelled.put(identifier);
        spelled
    }

    #[inline]
    pub(super) fn put(&mut self, character: u8) {
        self.bytes[self.length] = on_line(character);
        self.length += 1;
    }

    #[inline]
    fn put_digits(&mut self, digits: [u8; 5]) {
        self.bytes[self.length..self.length + 5].copy_from_slice(&digits.map(on_line));
        self.length += 5;
    }

    /// A number as replies have it: never minus zero.
    #[inline]
    pub(super) fn put_data(&mut self, data: Data) {
        self.put_digits(spell_data(data, false));
    }

    #[inline]
    pub(super) fn bytes(&self) -> &[u8] {
        &self.bytes[..self.length]
    }
}

/// Writes one message as the normal form spells it, in bytes. Refused with 7, then 5.
#[inline]
pub fn write(message: &Message, out: &mut [u8]) -> Result<usize, Refusal> {
    if !message.is_heard() {
        return Err(Refusal::Message);
    }
    let spelled = message.spell();
    let bytes = spelled.bytes();
    out.get_mut(..bytes.len()).ok_or(Refusal::Room)?.copy_from_slice(bytes);
    Ok(bytes.len())
}
