//! Recordings: files of words, and a text that shows every word. What a word is, a character and which, the one that closes a
//! message, or none, is asked of the archive: nothing here counts parity.

use super::output::stream;
use super::{failure, Failure};
use crate::abi::{self, CARD, CHARACTERS, NOT_CLOSED, OPEN, REPLY, REVISION, VALUES};
use std::ffi::OsStr;
use std::fs::File;
use std::io::{ErrorKind, Read};

/// A silence longer than the card's timeout, and the greatest word.
pub const SILENCE: u16 = 256;
const WORDS: usize = SILENCE as usize + 1;

/// A card that only hears: under no sheet, with nothing on offer.
pub struct Ear {
    row: [i32; CARD],
    values: [i32; VALUES],
}

impl Ear {
    pub fn new() -> Ear {
        let mut row = [0; CARD];
        (row[0], row[1], row[REVISION]) = (i32::from(b'L'), 1, 1);
        Ear { row, values: [0; VALUES] }
    }

    /// How many characters are open.
    pub fn open(&self) -> usize {
        self.row[OPEN] as usize
    }

    /// Takes words none of which is answered.
    pub fn hear(&mut self, words: &[u16]) {
        let mut counts = [0; 2];
        let result = abi::run(&mut self.row, &[], &[], &mut self.values, words, &mut [], &mut counts);
        assert_eq!((result, counts[0] as usize), (0, words.len()), "a word was refused, or answered");
    }

    /// Takes one word. Whether it closes a message.
    fn closes(&mut self, word: u16) -> bool {
        let (mut out, mut cause) = ([0; REPLY], [0; 2]);
        let result = abi::step(&mut self.row, &[], &[], &mut self.values, word, &mut out, &mut cause);
        assert!(result >= 0, "a word was refused");
        cause[0] as u64 != NOT_CLOSED
    }
}

/// What each word is, by what a card that hears does with it.
pub struct Alphabet {
    /// Opens a message where none is open.
    opens: [bool; WORDS],
    /// Closes a message that is open.
    closes: [bool; WORDS],
    /// The character that is added to an open message, or the one that closes it; none where the word drops it.
    characters: [Option<u8>; WORDS],
    /// The word of each character.
    words: [u16; 128],
    /// The character of each word that stands for itself in a text, 0 for the others, those above 256 too.
    plain: Box<[u8; 1 << 16]>,
}

impl Alphabet {
    /// Asks the archive.
    pub fn ask() -> Alphabet {
        let mut opens = [false; WORDS];
        for word in 0..=SILENCE {
            let mut ear = Ear::new();
            ear.hear(&[word]);
            opens[usize::from(word)] = ear.open() == 1;
        }
        let letter = opens.iter().position(|opens| *opens).expect("some word opens a message") as u16;
        let (mut closes, mut characters, mut words) = ([false; WORDS], [None; WORDS], [SILENCE; 128]);
        for word in 0..=SILENCE {
            let mut ear = Ear::new();
            ear.hear(&[letter]);
            let at = usize::from(word);
            closes[at] = ear.closes(word);
            characters[at] = match ear.open() {
                2 => Some(ear.row[CHARACTERS + 1] as u8),
                _ => closes[at].then_some(b'*'),
            };
            if let Some(character) = characters[at] {
                words[usize::from(character)] = word;
            }
        }
        let mut plain = Box::new([0; 1 << 16]);
        for (place, character) in plain.iter_mut().zip(characters) {
            *place = character.filter(|character| is_plain(*character)).unwrap_or(0);
        }
        Alphabet { opens, closes, characters, words, plain }
    }

    pub fn opens(&self, word: u16) -> bool {
        self.opens[usize::from(word)]
    }

    pub fn closes(&self, word: u16) -> bool {
        self.closes[usize::from(word)]
    }

    /// The word of a seven-bit character.
    fn word(&self, character: u8) -> Option<u16> {
        self.words.get(usize::from(character)).copied().filter(|word| *word != SILENCE)
    }

    /// The characters of words in good parity.
    pub fn characters(&self, words: &[u16]) -> Vec<u8> {
        words.iter().filter_map(|word| self.characters[usize::from(*word)]).collect()
    }

    /// The character of a word that stands for itself in a text, otherwise 0.
    #[inline]
    pub fn plain(&self, word: u16) -> u8 {
        self.plain[usize::from(word)]
    }

    /// A word as text: a character that prints as itself, a silence as `~`, any other byte in hex. Each part is handed on.
    #[inline]
    pub fn show(&self, word: u16, mut put: impl FnMut(u8)) {
        match self.plain(word) {
            0 if word == SILENCE => put(b'~'),
            0 => format!("{{{word:02X}}}").bytes().for_each(put),
            character => put(character),
        }
    }

    /// How many columns words take as text.
    pub fn columns(&self, words: &[u16]) -> usize {
        words.iter().map(|word| if self.plain(*word) == 0 && *word != SILENCE { 4 } else { 1 }).sum()
    }

    /// Words as text.
    pub fn text(&self, words: &[u16]) -> Vec<u8> {
        let mut text = Vec::with_capacity(words.len());
        words.iter().for_each(|word| self.show(*word, |c| text.push(c)));
        text
    }
}

/// Stands for itself in a text: no blank, no control character, not `~` and not `{`.
fn is_plain(character: u8) -> bool {
    character.is_ascii_graphic() && !matches!(character, b'~' | b'{')
}

/// The words of a text, or where it goes wrong: line and column from 1, and what was expected there.
pub fn words_of_text(alphabet: &Alphabet, text: &[u8]) -> Result<Vec<u16>, (usize, usize, String)> {
    let mut words = Vec::with_capacity(text.len());
    let (mut line, mut start, mut at) = (1, 0, 0);
    while at < text.len() {
        let wrong = |what: &str| Err((line, at - start + 1, what.to_string()));
        match text[at] {
            b'\n' => (line, start) = (line + 1, at + 1),
            b' ' | b'\t' | b'\r' => {}
            b'~' => words.push(SILENCE),
            b'{' => {
                let digit =
                    |at: usize| text.get(at).and_then(|character| char::from(*character).to_digit(16));
                match (digit(at + 1), digit(at + 2), text.get(at + 3)) {
                    (Some(high), Some(low), Some(b'}')) => words.push((16 * high + low) as u16),
                    _ => return wrong("expected two hex digits and `}` behind `{`, as {4C}"),
                }
                at += 3;
            }
            character => match alphabet.word(character).filter(|_| is_plain(character)) {
                Some(word) => words.push(word),
                None => {
                    return wrong("expected a character that prints, `~` for a silence, or a byte as {4C}")
                }
            },
        }
        at += 1;
    }
    Ok(words)
}

/// A file's name, or standard input for `-`.
pub fn name_of(file: &OsStr) -> String {
    if file == "-" {
        "standard input".to_string()
    } else {
        file.to_string_lossy().into_owned()
    }
}

/// A file, or standard input for `-`, open for reading.
fn opened(file: &OsStr) -> Result<File, Failure> {
    if file == "-" {
        return stream(std::io::stdin(), &name_of(file));
    }
    File::open(file).or_else(|why| failure(name_of(file), why))
}

/// All its bytes.
pub fn bytes_of(file: &OsStr) -> Result<Vec<u8>, Failure> {
    let mut bytes = Vec::new();
    match opened(file)?.read_to_end(&mut bytes) {
        Ok(_) => Ok(bytes),
        Err(why) => failure(name_of(file), why),
    }
}

/// Whether a name says that the file is text.
pub fn is_text(file: &OsStr) -> bool {
    let name = file.to_string_lossy().to_ascii_lowercase();
    [".text", ".txt"].iter().any(|ending| name.ends_with(ending))
}

/// The words of a file as they stand there, and whether a lone byte stands behind them. A text that isn't one is a failure.
pub fn words_in(alphabet: &Alphabet, file: &OsStr, text: bool) -> Result<(Vec<u16>, bool), Failure> {
    if text || is_text(file) {
        return match words_of_text(alphabet, &bytes_of(file)?) {
            Ok(words) => Ok((words, false)),
            Err((line, column, what)) => {
                failure(name_of(file), format!("line {line}, column {column}: {what}"))
            }
        };
    }
    let mut reader = opened(file)?;
    let (mut words, mut buffer, mut held) = (Vec::new(), [0; 1 << 16], 0);
    // So many as the file has, where that is known: its words are then held once.
    let length = reader.metadata().map_or(0, |known| known.len());
    reserve(&mut words, length as usize / 2, file)?;
    loop {
        match reader.read(&mut buffer[held..]) {
            Ok(0) => break,
            Ok(count) => held += count,
            Err(why) if why.kind() == ErrorKind::Interrupted => continue,
            Err(why) => return failure(name_of(file), why),
        }
        reserve(&mut words, held / 2, file)?;
        words.extend(buffer[..held].chunks_exact(2).map(|pair| u16::from_le_bytes([pair[0], pair[1]])));
        // A byte whose other half isn't read yet.
        buffer[0] = buffer[held - 1];
        held %= 2;
    }
    Ok((words, held == 1))
}

/// Room for more words, where the machine has it.
fn reserve(words: &mut Vec<u16>, more: usize, file: &OsStr) -> Result<(), Failure> {
    words.try_reserve(more).or_else(|_| failure(name_of(file), "too long for this machine's memory"))
}

/// A lone byte behind so many words.
pub fn odd<T>(file: &OsStr, words: usize) -> Result<T, Failure> {
    let at = 2 * words;
    failure(name_of(file), format!("byte {at} stands alone: expected two bytes to a word, low byte first"))
}

/// The same, where no byte is left over.
pub fn words_of(alphabet: &Alphabet, file: &OsStr, text: bool) -> Result<Vec<u16>, Failure> {
    match words_in(alphabet, file, text)? {
        (words, false) => Ok(words),
        (words, true) => odd(file, words.len()),
    }
}

/// A word above 256.
pub fn above<T>(file: &OsStr, at: usize, word: u16) -> Result<T, Failure> {
    // Two characters of a text, taken for a word.
    let is_text = word.to_le_bytes().iter().all(|byte| byte.is_ascii_graphic() || byte.is_ascii_whitespace());
    let hint = if is_text { " (a text needs --text, or a name that ends in .text or .txt)" } else { "" };
    failure(name_of(file), format!("word {at} is {word}: expected 0 to 256{hint}"))
}

/// The words of a recording: none is above 256.
pub fn recording(alphabet: &Alphabet, file: &OsStr, text: bool) -> Result<Vec<u16>, Failure> {
    let words = words_of(alphabet, file, text)?;
    if words.iter().copied().max() <= Some(SILENCE) {
        return Ok(words);
    }
    let at = words.iter().position(|word| *word > SILENCE).expect("one is above");
    above(file, at, words[at])
}

/// Words as a file holds them.
pub fn bytes_of_words(words: &[u16]) -> Vec<u8> {
    words.iter().flat_map(|word| word.to_le_bytes()).collect()
}
