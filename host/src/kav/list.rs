//! `kav list` and `kav normal`: the messages heard in a recording, whatever their letter and address.

use super::args::Options;
use super::output::Output;
use super::words::{above, bytes_of_words, is_text, odd, recording, words_in, Alphabet, Ear, SILENCE};
use super::{Failure, WELL};
use crate::abi::{self, LINE};

/// Document 01's listing: a line for each message heard, and `END` with their number. A word above 256 ends it with
/// `BAD` and its position in that place, a lone last byte with `ODD`, and either is a failure.
pub fn list(options: &Options) -> Result<u8, Failure> {
    let alphabet = Alphabet::ask();
    let file = options.operand();
    let (words, is_odd) = words_in(&alphabet, file, options.has("--text"))?;
    let good = words.iter().position(|word| *word > SILENCE).unwrap_or(words.len());
    let mut output = Output::open(options)?;
    output.put(b"AT CARD ID KIND DATA\n")?;
    let (mut count, mut from) = (0, 0);
    while let Some(to) = words[from..good].iter().position(|word| alphabet.closes(*word)) {
        let close = from + to;
        let mut ear = Ear::new();
        ear.hear(&words[from..close]);
        let message = normal_form(&words[close - ear.open()..=close]);
        if !message.is_empty() {
            count += 1;
            output.put(&line_of(close, &message, &alphabet.characters(&message)))?;
        }
        from = close + 1;
    }
    let is_bad = good < words.len();
    let last = match (is_bad, is_odd) {
        (true, _) => format!("BAD {good}\n"),
        (false, true) => "ODD\n".to_string(),
        (false, false) => format!("END {count}\n"),
    };
    output.put(last.as_bytes())?;
    output.finish()?;
    match (is_bad, is_odd) {
        (true, _) => above(file, good, words[good]),
        (false, true) => odd(file, words.len()),
        (false, false) => Ok(WELL),
    }
}

/// The line of a message, from its normal form. Its parts are taken by their places there; that they are this message's is asked
/// of the writer, which spells them the same.
fn line_of(at: usize, form: &[u16], characters: &[u8]) -> Vec<u8> {
    let digits = characters[1..].iter().take_while(|character| character.is_ascii_digit()).count();
    let number = |digits: &[u8]| digits.iter().fold(0, |sum, digit| 10 * sum + u32::from(digit - b'0'));
    let (card, rest) = characters.split_at(1 + digits);
    let (letter, address, identifier, kind) = (card[0], number(&card[1..]), rest[0], rest[1]);
    let (units, code) = match rest[2..rest.len() - 1] {
        [ref units @ .., code] => (number(units) as i32, u32::from(code - b'0')),
        [] => (0, 0),
    };
    let minus_zero = u32::from(code > 4 && units == 0);
    let (units, decimals) = if code > 4 { (-units, code - 5) } else { (units, code) };
    let mut out = [0; LINE];
    let count = abi::write(letter, address, identifier, kind, units, decimals, minus_zero, &mut out);
    let spelled = out[..usize::try_from(count).unwrap_or(0)].iter().map(|byte| u16::from(*byte));
    assert!(spelled.eq(form.iter().copied()), "the writer spells the parts otherwise");
    let count =
        abi::line(at as u64, letter, address, identifier, kind, units, decimals, minus_zero, &mut out);
    out[..usize::try_from(count).expect("a message, and room for its line")].to_vec()
}

/// The normal form: never longer than the words.
pub fn normal_form(words: &[u16]) -> Vec<u16> {
    let mut out = vec![0; words.len()];
    let count = abi::normal_form(words, &mut out);
    out.truncate(usize::try_from(count).expect("words of a recording, and room for all of them"));
    out
}

/// The normal form of a recording.
pub fn normal(options: &Options) -> Result<u8, Failure> {
    let alphabet = Alphabet::ask();
    let words = recording(&alphabet, options.operand(), options.has("--text"))?;
    put_messages(options, &alphabet, &normal_form(&words))
}

/// Messages one behind the other: words, or where it is asked for text with a line for each.
pub fn put_messages(options: &Options, alphabet: &Alphabet, words: &[u16]) -> Result<u8, Failure> {
    let is_spelled = options.has("--spelled") || options.value("--out").is_some_and(is_text);
    let mut output = Output::open(options)?;
    if !is_spelled {
        output.put(&bytes_of_words(words))?;
    } else {
        for message in words.split_inclusive(|word| alphabet.closes(*word)) {
            output.put(&alphabet.text(message))?;
            output.put(b"\n")?;
        }
    }
    output.finish()?;
    Ok(WELL)
}
