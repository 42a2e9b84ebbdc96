//! The trace: a run that notes each message that it closes, as the header of the C functions has it (`kavtziron.h`), with the
//! causes of request 4.

use super::card::{self, Card, Ran, Stepped, LONGEST_REPLY};
use super::cause::Cause;
use super::Refusal;

/// A word that closed a message.
#[derive(Clone, Copy, Debug, PartialEq, Eq)]
pub struct Note {
    /// Its place among the words.
    pub at: usize,
    /// How many characters the message had before its `*`.
    pub characters: u8,
    /// Bytes replied, and the cause.
    pub stepped: Stepped,
}

impl Note {
    /// Place, characters, bytes replied, code and position of the cause.
    pub fn numbers(&self) -> [u64; 5] {
        let Stepped { written, cause } = self.stepped;
        let [code, position] = cause.numbers().map(|number| number as u64);
        [self.at as u64, u64::from(self.characters), written as u64, code, position]
    }
}

/// Takes words as a run does, one step for each, and notes those that closed a message. Refused as a run is.
pub fn trace(
    card: &mut Card,
    bench: &[i32],
    maker: &[i32],
    values: &mut [i32],
    words: &[u16],
    out: &mut [u8],
) -> Result<(Ran, Vec<Note>), Refusal> {
    card::run(&mut card.clone(), bench, maker, &mut values.to_vec(), words, &mut [])?;
    let (mut taken, mut written, mut notes) = (0, 0, Vec::new());
    for &word in words {
        // Into copies, as a word whose reply doesn't fit isn't taken.
        let (mut next, mut stored, mut reply) = (*card, values.to_vec(), [0; LONGEST_REPLY]);
        let stepped = card::step(&mut next, bench, maker, &mut stored, word, &mut reply)?;
        let Some(room) = out[written..].get_mut(..stepped.written) else {
            break;
        };
        room.copy_from_slice(&reply[..stepped.written]);
        if stepped.cause != Cause::NotClosed {
            notes.push(Note { at: taken, characters: card.open.length, stepped });
        }
        *card = next;
        values.copy_from_slice(&stored);
        taken += 1;
        written += stepped.written;
    }
    Ok((Ran { taken, written }, notes))
}
