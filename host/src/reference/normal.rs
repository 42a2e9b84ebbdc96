//! The normal form of a recording.

use super::hearing::{for_each_heard, Open};
use super::parity::all_words;
use super::Refusal;

/// Writes the heard messages in order, one byte to a word, nothing between. Refused with 4, then 5.
pub fn normal_form(words: &[u16], out: &mut [u16]) -> Result<usize, Refusal> {
    if !all_words(words) {
        return Err(Refusal::Word);
    }
    // No message is longer in its normal form than it was heard, so a second look is owed only to
    // a room shorter than the recording.
    if out.len() < words.len() {
        let mut length = 0;
        for_each_heard(&mut Open::default(), words, |_, message| length += message.length());
        if out.len() < length {
            return Err(Refusal::Room);
        }
    }
    let mut length = 0;
    for_each_heard(&mut Open::default(), words, |_, message| {
        let spelled = message.spell();
        let bytes = spelled.bytes();
        for (word, &byte) in out[length..length + bytes.len()].iter_mut().zip(bytes) {
            *word = u16::from(byte);
        }
        length += bytes.len();
    });
    Ok(length)
}
