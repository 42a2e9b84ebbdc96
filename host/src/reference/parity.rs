//! Words and parity: seven data bits, the top bit makes the number of ones even.

/// A silence longer than the card's timeout; also the greatest word there is.
pub const SILENCE: u16 = 256;

/// Whether a byte on the line has an even number of ones.
pub const fn is_good(byte: u8) -> bool {
    byte.count_ones().is_multiple_of(2)
}

/// A seven-bit character as it travels.
#[inline]
pub const fn on_line(character: u8) -> u8 {
    ON_LINE[(character & 0x7F) as usize]
}

/// What a byte is to the hearing: its seven bits, `BAD` in bad parity, or `STAR`. The last two alone
/// have the top bit, so one look tells whether a message goes on.
#[inline]
pub(super) fn heard_as(byte: u8) -> u8 {
    HEARD_AS[usize::from(byte)]
}

/// The same of a word.
#[inline]
pub(super) fn word_heard_as(word: u16) -> u8 {
    match u8::try_from(word) {
        Ok(byte) => heard_as(byte),
        Err(_) => BAD,
    }
}

/// In bad parity, or no byte.
pub(super) const BAD: u8 = 0x80;
/// `*` in good parity.
pub(super) const STAR: u8 = 0x80 | b'*';
/// Whether a message goes on with this character.
#[inline]
pub(super) const fn goes_on(heard: u8) -> bool {
    heard < 0x80
}

const ON_LINE: [u8; 128] = {
    let mut table = [0; 128];
    let mut character = 0u8;
    while character < 128 {
        table[character as usize] = if is_good(character) { character } else { character | 0x80 };
        character += 1;
    }
    table
};

static HEARD_AS: [u8; 256] = {
    let mut table = [BAD; 256];
    let mut byte = 0;
    while byte < 256 {
        if is_good(byte as u8) {
            let character = byte as u8 & 0x7F;
            table[byte] = if character == b'*' { STAR } else { character };
        }
        byte += 1;
    }
    table
};

/// Whether every word is one that can be lent: 0 to 256.
///
/// The fold has no early way out, so that it runs many words at a time; a recording with a wrong
/// word is the rare case.
#[inline]
pub fn all_words(words: &[u16]) -> bool {
    words.iter().fold(0, |greatest, &word| greatest.max(word)) <= SILENCE
}
