//! `kav write` and `kav read`: the master's side.

use super::args::Options;
use super::list::{normal_form, put_messages};
use super::output::Output;
use super::setup::letter_and_address;
use super::sheet::{number_of, shown};
use super::words::{bytes_of, name_of, words_of, words_of_text, Alphabet, Ear, SILENCE};
use super::{failure, refusal, say, Failure, FAILED, WELL};
use crate::abi::{self, ANSWER};

const EXPECTED: &str =
    "a message, as `L7 m # 2.3`, `L7 M ?`, `L7 m +`, `L7 m I`, `L7 ? ?`, or spelled as `L7m#00231*`";

/// Messages in text, one to a line, to words.
pub fn write(options: &Options) -> Result<u8, Failure> {
    let alphabet = Alphabet::ask();
    let file = options.operand();
    let bytes = bytes_of(file)?;
    let mut words = Vec::new();
    for (index, line) in bytes.split(|byte| *byte == b'\n').enumerate() {
        let line = String::from_utf8_lossy(line);
        let columns: Vec<&str> = line.split_ascii_whitespace().collect();
        let message = match columns[..] {
            [] => continue,
            [spelled] => message_spelled(&alphabet, spelled).ok_or(String::new()),
            _ => message_asked(&columns),
        };
        match message {
            Ok(message) => words.extend(message),
            Err(why) => {
                return failure(name_of(file), format!("line {}: expected {EXPECTED}{why}", index + 1))
            }
        }
    }
    put_messages(options, &alphabet, &words)
}

/// A message by its parts: what the writer spells, or the number that it refuses with.
fn message_asked(columns: &[&str]) -> Result<Vec<u16>, String> {
    let Some((letter, address, identifier, kind, data)) = parts_of(columns) else {
        return Err(String::new());
    };
    let (number, decimals, minus) = data.unwrap_or((0, 0, false));
    let minus_zero = u32::from(minus && number == 0);
    let mut out = [0; 11];
    let count = abi::write(letter, address, identifier, kind, number, decimals, minus_zero, &mut out);
    match usize::try_from(count) {
        Ok(count) => Ok(out[..count].iter().map(|byte| u16::from(*byte)).collect()),
        Err(_) => Err(format!(" ({})", refusal::in_words(count))),
    }
}

/// Letter, address, identifier, kind, and the number of a `#`.
type Parts = (u8, u32, u8, u8, Option<(i32, u32, bool)>);

fn parts_of(columns: &[&str]) -> Option<Parts> {
    let (card, identifier, kind, data) = match columns {
        [card, identifier, "#", number] => (card, identifier, &"#", Some(number_of(number)?)),
        [_, _, "#"] => return None,
        [card, identifier, kind] | [card, identifier, kind, "-"] => (card, identifier, kind, None),
        _ => return None,
    };
    let (letter, address) = letter_and_address(card)?;
    let (&[identifier], &[kind]) = (identifier.as_bytes(), kind.as_bytes()) else { return None };
    Some((letter, address, identifier, kind, data))
}

/// A message as it is spelled, the whole of the text and nothing else: its normal form.
fn message_spelled(alphabet: &Alphabet, text: &str) -> Option<Vec<u16>> {
    let words = words_of_text(alphabet, text.as_bytes()).ok()?;
    let (last, characters) = words.split_last()?;
    if !alphabet.closes(*last) || characters.iter().any(|word| alphabet.closes(*word)) {
        return None;
    }
    let mut ear = Ear::new();
    ear.hear(characters);
    let message = normal_form(&words);
    (ear.open() == characters.len() && !message.is_empty()).then_some(message)
}

/// Replies to text: what stands up to each `*`, read. What isn't one whole reply is said, and is a failure.
pub fn read(options: &Options) -> Result<u8, Failure> {
    let alphabet = Alphabet::ask();
    let words = words_of(&alphabet, options.operand(), options.has("--text"))?;
    let mut output = Output::open(options)?;
    output.put(b"AT CARD ID MARK NUMBERS\n")?;
    let (mut at, mut count, mut status) = (0, 0, WELL);
    for piece in words.split_inclusive(|word| *word < SILENCE && alphabet.closes(*word)) {
        match answer(piece) {
            Some(answer) => {
                count += 1;
                output.put(format!("{} {answer}\n", at + piece.len() - 1).as_bytes())?;
            }
            None => {
                let text = alphabet.text(piece);
                let text = String::from_utf8_lossy(&text);
                let file = name_of(options.operand());
                say(&format!("{file}: word {at}: expected one whole reply, found {text}"));
                status = FAILED;
            }
        }
        at += piece.len();
    }
    output.put(format!("END {count}\n").as_bytes())?;
    output.finish()?;
    Ok(status)
}

/// Card, identifier, `A`, `I` or `N`, and each number of a reply.
fn answer(piece: &[u16]) -> Option<String> {
    let bytes = piece.iter().map(|word| u8::try_from(*word)).collect::<Result<Vec<u8>, _>>().ok()?;
    let mut answer = [0; ANSWER];
    if abi::read(&bytes, &mut answer) < 0 {
        return None;
    }
    let character = |code: i32| char::from(code as u8);
    let mut text =
        format!("{}{} {} {}", character(answer[0]), answer[1], character(answer[2]), character(answer[3]));
    for pair in answer[5..].chunks_exact(2).take(answer[4] as usize) {
        text += &format!(" {}", shown(pair[0], pair[1] as u32));
    }
    Some(text)
}
