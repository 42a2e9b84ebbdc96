//! Opening and closing a message.

use super::message::{parse, Message};
use super::parity::{goes_on, on_line, word_heard_as, STAR};

/// A message holds at most ten characters before `*`.
pub const MOST: usize = 10;

/// An open message: its characters with no parity, 0 behind. None is open with length 0.
#[derive(Clone, Copy, Debug, Default, PartialEq, Eq)]
pub struct Open {
    pub length: u8,
    pub characters: [u8; MOST],
}

const L: u16 = on_line(b'L') as u16;
const R: u16 = on_line(b'R') as u16;

impl Open {
    /// No message open.
    pub const NONE: Open = Open { length: 0, characters: [0; MOST] };

    /// The characters so far, the letter first.
    #[inline]
    pub fn characters(&self) -> &[u8] {
        &self.characters[..usize::from(self.length)]
    }

    /// Whether 0 to 10 seven-bit characters are open, starting `L` or `R`, without `*`, 0 behind.
    pub fn is_sound(&self) -> bool {
        let length = usize::from(self.length);
        length <= MOST
            && matches!(self.characters[..length], [] | [b'L' | b'R', ..])
            && self.characters[..length].iter().all(|&c| c < 0x80 && c != b'*')
            && self.characters[length..].iter().all(|&c| c == 0)
    }

    /// Takes words up to a `*` that closes a message and leaves that one: the message is then still
    /// open, for [`Open::heard`] to read and the caller to close with [`Open::close`]. Gives the
    /// number of words taken, which is all of them where no message closes.
    #[inline]
    pub fn to_close(&mut self, words: &[u16]) -> usize {
        let mut rest = words;
        loop {
            if self.length == 0 {
                let Some(at) = rest.iter().position(|&word| word == L || word == R) else {
                    return words.len();
                };
                self.characters[0] = rest[at] as u8 & 0x7F;
                self.length = 1;
                rest = &rest[at + 1..];
            }
            let places = &mut self.characters[usize::from(self.length)..];
            let mut added = 0;
            for (place, &word) in places.iter_mut().zip(rest) {
                let character = word_heard_as(word);
                if !goes_on(character) {
                    break;
                }
                *place = character;
                added += 1;
            }
            self.length += added as u8;
            rest = &rest[added..];
            // The words are at their end, or this one closes, or it drops the message: in bad parity,
            // a silence or the eleventh.
            match rest.split_first() {
                None => return words.len(),
                Some((&word, _)) if word_heard_as(word) == STAR => return words.len() - rest.len(),
                Some((_, behind)) => {
                    self.close();
                    rest = behind;
                }
            }
        }
    }

    /// What is heard when `*` closes this message.
    #[inline]
    pub fn heard(&self) -> Option<Message> {
        parse(self.characters())
    }

    /// The message is used up.
    #[inline]
    pub fn close(&mut self) {
        *self = Open::NONE;
    }
}

/// Calls `each` for every message heard in the words, with the position of its `*`, starting from
/// and leaving what is open.
#[inline]
pub fn for_each_heard(open: &mut Open, words: &[u16], mut each: impl FnMut(usize, Message)) {
    let mut at = open.to_close(words);
    while at < words.len() {
        if let Some(message) = open.heard() {
            each(at, message);
        }
        open.close();
        at += 1;
        at += open.to_close(&words[at..]);
    }
}
