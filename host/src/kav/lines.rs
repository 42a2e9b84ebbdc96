//! The lines of a replay, and what takes them: the output, or a comparison.

use super::output::Output;
use super::words::Alphabet;
use super::Failure;

/// What takes lines.
pub trait Lines {
    /// Whole lines, one or more, each with its line feed. False where no more are wanted.
    fn lines(&mut self, text: &[u8]) -> Result<bool, Failure>;
}

impl Lines for Output {
    fn lines(&mut self, text: &[u8]) -> Result<bool, Failure> {
        self.put(text)?;
        Ok(true)
    }
}

/// So many bytes are handed on together. No line of a replay is longer than LINE.
const PAGE: usize = 1 << 15;
const LINE: usize = 512;
/// A line's first columns are blanked at once.
const BLANK: usize = 64;

/// Lines in the making, handed on a page at a time.
pub struct Page<'a> {
    to: &'a mut dyn Lines,
    bytes: Vec<u8>,
    len: usize,
    /// Why it ended, once no more lines are wanted or one couldn't be handed on.
    ended: Option<Result<(), Failure>>,
}

/// The line in hand.
pub struct Line<'a> {
    bytes: &'a mut [u8; LINE],
    len: usize,
}

/// A number that only rises, and its digits to the right in seven columns.
pub struct Position {
    number: usize,
    digits: [u8; COLUMNS],
}

const COLUMNS: usize = 7;

impl Position {
    pub fn new() -> Position {
        let mut digits = [b' '; COLUMNS];
        digits[COLUMNS - 1] = b'0';
        Position { number: 0, digits }
    }

    /// Puts a number that isn't below the last one. A longer one takes more columns.
    pub fn put(&mut self, number: usize, line: &mut Line) {
        let mut more = number - self.number;
        self.number = number;
        // The last four bits of a digit are its number, and those of a blank are 0.
        for digit in self.digits.iter_mut().rev() {
            if more == 0 {
                break;
            }
            let sum = usize::from(*digit & 15) + more;
            *digit = b'0' + (sum % 10) as u8;
            more = sum / 10;
        }
        match number {
            0..=9_999_999 => line.text(&self.digits),
            _ => line.text(number.to_string().as_bytes()),
        }
    }
}

impl<'a> Page<'a> {
    pub fn new(to: &'a mut dyn Lines) -> Page<'a> {
        Page { to, bytes: vec![0; PAGE + LINE], len: 0, ended: None }
    }

    /// The next line, which is put by [`Page::put`].
    pub fn line(&mut self) -> Line<'_> {
        let bytes: &mut [u8; LINE] =
            (&mut self.bytes[self.len..self.len + LINE]).try_into().expect("room for a line");
        bytes[..BLANK].fill(b' ');
        Line { bytes, len: 0 }
    }

    /// Puts the line, of so many bytes. False where no more are wanted.
    pub fn put(&mut self, len: usize) -> bool {
        self.len += len;
        if self.len > PAGE {
            self.hand_on();
        }
        self.ended.is_none()
    }

    fn hand_on(&mut self) {
        let len = std::mem::take(&mut self.len);
        self.ended = match self.to.lines(&self.bytes[..len]) {
            Ok(true) => None,
            Ok(false) => Some(Ok(())),
            Err(failure) => Some(Err(failure)),
        };
    }

    /// Puts a line of its own.
    pub fn put_text(&mut self, text: &str) {
        let mut line = self.line();
        line.text(text.as_bytes());
        let len = line.end();
        self.put(len);
    }

    /// Hands on what there is.
    pub fn finish(mut self) -> Result<(), Failure> {
        if self.ended.is_none() {
            self.hand_on();
        }
        self.ended.unwrap_or(Ok(()))
    }
}

impl Line<'_> {
    pub fn byte(&mut self, byte: u8) {
        self.bytes[self.len] = byte;
        self.len += 1;
    }

    pub fn text(&mut self, text: &[u8]) {
        self.bytes[self.len..self.len + text.len()].copy_from_slice(text);
        self.len += text.len();
    }

    /// Blanks up to a column, and two where that is passed already. Gives the column.
    pub fn column(&mut self, column: usize) -> usize {
        let to = column.max(self.len + 2);
        if to > BLANK {
            self.bytes[self.len..to].fill(b' ');
        }
        self.len = to;
        to
    }

    /// Words as text.
    pub fn words(&mut self, alphabet: &Alphabet, words: impl ExactSizeIterator<Item = u16> + Clone) {
        let places = &mut self.bytes[self.len..self.len + words.len()];
        let mut is_plain = true;
        for (place, word) in places.iter_mut().zip(words.clone()) {
            *place = alphabet.plain(word);
            is_plain &= *place != 0;
        }
        if is_plain {
            self.len += words.len();
            return;
        }
        for word in words {
            alphabet.show(word, |c| self.byte(c));
        }
    }

    /// Ends the line. Gives its length.
    pub fn end(mut self) -> usize {
        self.byte(b'\n');
        self.len
    }
}
