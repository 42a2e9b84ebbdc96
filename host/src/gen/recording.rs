//! Recordings: messages one behind the other, with noise between and some of them spoiled.

use super::message::other;
use super::{message, neighbours_message, on_line, reply, scan_message, scan_reply, words_of, Rng, World};

/// Spoils one thing in the words of a message.
pub fn edit(rng: &mut Rng, words: &mut Vec<u16>, from: usize) {
    if from >= words.len() {
        return;
    }
    let at = from + rng.below(words.len() - from);
    match rng.below(9) {
        // A silence with a bit flipped is a byte: no edit makes a word above 256.
        0 => words[at] = (words[at] ^ 1 << rng.below(8)) & 0xFF,
        1 => words[at] = (words[at] ^ 0x80) & 0xFF,
        2 => {
            words.remove(at);
        }
        3 => words.insert(at, u16::from(on_line(rng.next() as u8))),
        4 => words[at] = 256,
        5 => words.insert(at, 256),
        6 => words[at] = u16::from(on_line(rng.pick(b"LR*?#I0123456789+-"))),
        7 => words.insert(at, u16::from(on_line(rng.pick(b"LR*0")))),
        _ => {
            let word = words[at];
            words.insert(at, word);
        }
    }
}

/// How much of a recording is what.
#[derive(Clone, Copy, Debug)]
pub struct Mixture {
    /// Of a hundred messages, how many are spoiled.
    pub spoiled: usize,
    /// Of a hundred gaps, how many hold noise.
    pub noise: usize,
    /// Of a hundred accepted or refused settings, how many are followed by their Type 4.
    pub stored: usize,
    /// Of a hundred places for one more message, how many hold one on `]`: before each message, and between a
    /// setting and its Type 4.
    pub scans: usize,
    /// The same of messages for other cards and of replies; under 100, as one place can hold several. With
    /// any, an offer that the card has from the start is followed by its Type 4, as a setting is.
    pub neighbours: usize,
}

/// What a host might have recorded of a card without a scan.
pub const REALISTIC: Mixture = Mixture { spoiled: 2, noise: 4, stored: 80, scans: 0, neighbours: 0 };
/// What looks for trouble.
pub const ROUGH: Mixture = Mixture { spoiled: 25, noise: 20, stored: 60, scans: 10, neighbours: 15 };
/// Several cards on one pair.
pub const PAIR: Mixture = Mixture { spoiled: 3, noise: 4, stored: 85, scans: 5, neighbours: 55 };

/// A recording in the making.
struct Tape<'w> {
    world: &'w World,
    mixture: Mixture,
    words: Vec<u16>,
}

impl Tape<'_> {
    /// Appends a message, some of them spoiled.
    fn put(&mut self, rng: &mut Rng, text: &[u8]) {
        let from = self.words.len();
        self.words.extend(words_of(text));
        if rng.percent(self.mixture.spoiled) {
            edit(rng, &mut self.words, from);
        }
    }

    /// Appends what a place for one more message holds: one on `]`, and those for other cards, most often for
    /// this identifier, with replies among them. With none in the mixture nothing is drawn, so that a
    /// recording without them stays as it is.
    fn put_others(&mut self, rng: &mut Rng, identifier: u8) {
        let mut text = Vec::new();
        if self.mixture.scans > 0 && rng.percent(self.mixture.scans) {
            scan_message(rng, self.world, &mut text);
            self.put(rng, &text);
        }
        while self.mixture.neighbours > 0 && rng.percent(self.mixture.neighbours) {
            text.clear();
            match rng.below(12) {
                0 => text = reply(rng),
                1 => text = scan_reply(rng),
                _ => neighbours_message(rng, self.world, identifier, &mut text),
            }
            self.put(rng, &text);
        }
    }

    /// Appends the Type 4 behind a setting or an offer: letter, address and identifier are its.
    fn put_store(&mut self, rng: &mut Rng, head: &[u8]) {
        if rng.percent(self.mixture.stored) {
            self.put_others(rng, head[head.len() - 1]);
            self.put(rng, &[head, b"I*"].concat());
        }
    }
}

/// Appends up to five words that are no message.
pub(super) fn put_noise(rng: &mut Rng, words: &mut Vec<u16>) {
    for _ in 0..rng.below(6) {
        words.push(match rng.below(4) {
            0 => 256,
            1 => u16::from(on_line(other(rng))),
            2 => u16::from(on_line(rng.pick(b"LR*"))),
            _ => rng.next() as u16 & 0xFF,
        });
    }
}

/// A recording of exactly so many words, each 0 to 256.
pub fn recording(rng: &mut Rng, world: &World, length: usize, mixture: Mixture) -> Vec<u16> {
    let mut tape = Tape { world, mixture, words: Vec::with_capacity(length + 64) };
    let mut text = Vec::new();
    // What was offered last.
    let mut identifier = world.offered();
    if mixture.neighbours > 0 && world.card[13] == 1 {
        let head = format!("{}{}{}", world.card[0] as u8 as char, world.card[1], identifier as char);
        tape.put_store(rng, head.as_bytes());
    }
    while tape.words.len() < length {
        if rng.percent(mixture.noise) {
            put_noise(rng, &mut tape.words);
        }
        tape.put_others(rng, identifier);
        text.clear();
        message(rng, world, &mut text);
        tape.put(rng, &text);
        let hash = text.len().checked_sub(7).filter(|&at| text[at] == b'#' && at > 1);
        if let Some(hash) = hash {
            identifier = text[hash - 1];
            tape.put_store(rng, &text[..hash]);
        }
    }
    tape.words.truncate(length);
    tape.words
}

/// A recording of exactly so many words in which every fourth message queries the card's scan.
pub fn scanning(rng: &mut Rng, world: &World, length: usize) -> Vec<u16> {
    let query = format!("{}{}]?*", world.card[0] as u8 as char, world.card[1]);
    let mut words = Vec::with_capacity(length + 64);
    let mut text = Vec::new();
    while words.len() < length {
        text.clear();
        (0..3).for_each(|_| message(rng, world, &mut text));
        text.extend_from_slice(query.as_bytes());
        words.extend(words_of(&text));
    }
    words.truncate(length);
    words
}

/// The places of the code in what looks like the data of a Type 3: `#`, four digits, a code and `*`.
fn codes(words: &[u16]) -> Vec<usize> {
    let is = |word: u16, from: &[u8]| from.iter().any(|&character| word == u16::from(on_line(character)));
    let data = |part: &[u16]| {
        is(part[0], b"#")
            && part[1..5].iter().all(|&word| is(word, b"0123456789"))
            && is(part[5], b"01235678")
            && is(part[6], b"*")
    };
    words.windows(7).enumerate().filter(|(_, part)| data(part)).map(|(at, _)| at + 5).collect()
}

/// Makes the number of about half of the Type 3s a zero, about half of these minus zero. The decimals stay.
pub fn zeros(rng: &mut Rng, words: &mut [u16]) {
    for at in codes(words) {
        if rng.percent(50) {
            let decimals = ((words[at] as u8 & 0x7F) - b'0') % 5;
            let code = decimals + if rng.percent(50) { 5 } else { 0 };
            words[at - 4..at].fill(u16::from(on_line(b'0')));
            words[at] = u16::from(on_line(b'0' + code));
        }
    }
}

/// The words with each minus zero made zero, in all that looks like the data of a Type 3, heard or not.
/// Nothing else changes in what is heard, since a code of 0 to 3 can stand wherever one of 5 to 8 can.
pub fn without_minus_zeros(words: &[u16]) -> Vec<u16> {
    let zero = u16::from(on_line(b'0'));
    let mut plain = words.to_vec();
    for at in codes(words) {
        let code = words[at] as u8 & 0x7F;
        if code >= b'5' && words[at - 4..at].iter().all(|&word| word == zero) {
            plain[at] = u16::from(on_line(code - 5));
        }
    }
    plain
}

/// Random words with no thought behind them, each 0 to 256, from few characters or from all.
pub fn babble(rng: &mut Rng, length: usize) -> Vec<u16> {
    let few = rng.percent(70);
    (0..length)
        .map(|_| match rng.below(40) {
            0 => 256,
            1 => rng.next() as u16 & 0xFF,
            _ if few => u16::from(on_line(rng.pick(b"LLR*****??#I+-0011779m]"))),
            _ => u16::from(on_line(rng.next() as u8)),
        })
        .collect()
}
