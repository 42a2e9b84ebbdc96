//! The listing.

use std::io::{self, ErrorKind, Read, Write};

use super::hearing::{for_each_heard, Open};
use super::message::{spell_data, Kind, Message};
use super::parity::SILENCE;
use super::Refusal;

pub const HEADING: &[u8] = b"AT CARD ID KIND DATA\n";

/// Words to a buffer.
pub const BUFFER: usize = 4_096;

/// Twenty digits, `L99`, identifier, sign, five digits, four blanks and the line feed.
pub const LONGEST_LINE: usize = 20 + 1 + 3 + 1 + 1 + 1 + 1 + 1 + 5 + 1;

/// A line in a place of its own.
struct Line {
    bytes: [u8; LONGEST_LINE],
    length: usize,
}

impl Line {
    /// The line of a heard message whose `*` stands at this position.
    #[inline]
    fn of(at: u64, message: &Message) -> Line {
        let mut line = Line { bytes: [0; LONGEST_LINE], length: 0 };
        line.put_number(at);
        line.put(b' ');
        line.put(message.letter);
        line.put_number(u64::from(message.address));
        line.put(b' ');
        line.put(message.identifier);
        line.put(b' ');
        line.put(message.kind.sign());
        line.put(b' ');
        match message.kind {
            Kind::Set { data, minus_zero } => {
                spell_data(data, minus_zero).into_iter().for_each(|digit| line.put(digit));
            }
            _ => line.put(b'-'),
        }
        line.put(b'\n');
        line
    }

    #[inline]
    fn put(&mut self, byte: u8) {
        self.bytes[self.length] = byte;
        self.length += 1;
    }

    #[inline]
    fn put_number(&mut self, mut number: u64) {
        let mut digits = [0; 20];
        let mut first = digits.len();
        loop {
            first -= 1;
            digits[first] = b'0' + (number % 10) as u8;
            number /= 10;
            if number == 0 {
                break;
            }
        }
        let digits = &digits[first..];
        self.bytes[self.length..self.length + digits.len()].copy_from_slice(digits);
        self.length += digits.len();
    }

    #[inline]
    fn bytes(&self) -> &[u8] {
        &self.bytes[..self.length]
    }
}

/// Writes the line of one message, line feed included. Refused with 7, then 5.
pub fn line(at: u64, message: &Message, out: &mut [u8]) -> Result<usize, Refusal> {
    if !message.is_heard() {
        return Err(Refusal::Message);
    }
    let line = Line::of(at, message);
    let line = line.bytes();
    out.get_mut(..line.len()).ok_or(Refusal::Room)?.copy_from_slice(line);
    Ok(line.len())
}

/// Reads words, two bytes each, low byte first, and writes the listing.
///
/// A read that fails is given back with no last line written.
pub fn list(mut input: impl Read, mut output: impl Write) -> io::Result<()> {
    let mut bytes = [0; 2 * BUFFER];
    let mut words = [0; BUFFER];
    let mut lines = Vec::with_capacity(BUFFER * 8);
    let mut open = Open::NONE;
    let mut before = 0u64;
    let mut heard = 0u64;
    output.write_all(HEADING)?;
    loop {
        let length = fill(&mut input, &mut bytes)?;
        let (pairs, rest) = bytes[..length].as_chunks::<2>();
        for (word, &pair) in words.iter_mut().zip(pairs) {
            *word = u16::from_le_bytes(pair);
        }
        let words = &words[..pairs.len()];
        let good = words.iter().position(|&word| word > SILENCE).unwrap_or(words.len());
        for_each_heard(&mut open, &words[..good], |at, message| {
            lines.extend_from_slice(Line::of(before + at as u64, &message).bytes());
            heard += 1;
        });
        output.write_all(&lines)?;
        lines.clear();
        before += good as u64;
        if good < words.len() {
            writeln!(output, "BAD {before}")?;
            break;
        }
        if !rest.is_empty() {
            writeln!(output, "ODD")?;
            break;
        }
        if length < bytes.len() {
            writeln!(output, "END {heard}")?;
            break;
        }
    }
    output.flush()
}

/// Reads until the buffer is full or the input ends: a short read from a pipe is not the end.
fn fill(input: &mut impl Read, buffer: &mut [u8]) -> io::Result<usize> {
    let mut length = 0;
    while length < buffer.len() {
        match input.read(&mut buffer[length..]) {
            Ok(0) => break,
            Ok(more) => length += more,
            Err(error) if error.kind() == ErrorKind::Interrupted => {}
            Err(error) => return Err(error),
        }
    }
    Ok(length)
}
