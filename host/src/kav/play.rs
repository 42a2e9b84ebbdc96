//! `kav play`: a recording at a card, with a line for each message that is closed.

use super::args::Options;
use super::lines::{Line, Lines, Page, Position};
use super::output::Output;
use super::setup::{Bench, Settings};
use super::words::{recording, Alphabet, Ear};
use super::{failure, refusal, Failure, WELL};
use crate::abi::{self, NOTE, NOT_WELL_FORMED, OPEN, REPLY};

/// So many words go by one call, with room for their replies: no message that is answered has fewer than five.
const BLOCK: usize = 4096;
const ROOM: usize = (BLOCK / 5 + 1) * REPLY;
/// Where the columns of a line begin.
const MESSAGE_COLUMN: usize = 9;
const REPLY_COLUMN: usize = 22;
const CAUSE_COLUMN: usize = 34;

pub fn command(options: &Options) -> Result<u8, Failure> {
    let settings = Settings::given(options)?;
    let bench = Bench::new(&settings, None)?;
    let alphabet = Alphabet::ask();
    let words = recording(&alphabet, options.operand(), options.has("--text"))?;
    let mut output = Output::open(options)?;
    play(&alphabet, bench, &words, &mut output)?;
    output.finish()?;
    Ok(WELL)
}

/// Plays words at a bench, and hands on the lines of the replay.
pub fn play(alphabet: &Alphabet, bench: Bench, words: &[u16], lines: &mut dyn Lines) -> Result<(), Failure> {
    let head: String = bench.head.iter().map(|setting| format!("{setting}\n")).collect();
    if !lines.lines(head.as_bytes())? {
        return Ok(());
    }
    let (page, position) = (Page::new(lines), Position::new());
    let mut replay =
        Replay { alphabet, words, page, position, drops: bench.drops, heard: 0, malformed: 0, dropped: 0 };
    if bench.is_replies_alone {
        replay.replies(bench)?;
    } else {
        replay.card(bench)?;
    }
    replay.page.finish()
}

/// A closed message, and what became of it: how many characters it had before its `*`, and the cause.
struct Closed<'a> {
    at: usize,
    characters: usize,
    reply: &'a [u8],
    code: u64,
    position: usize,
}

/// A replay. What gives a bool gives false where no more lines are wanted.
struct Replay<'a> {
    alphabet: &'a Alphabet,
    words: &'a [u16],
    page: Page<'a>,
    position: Position,
    drops: bool,
    heard: usize,
    malformed: usize,
    dropped: usize,
}

impl Replay<'_> {
    /// One card: a block of words by one call, which notes each message that they close.
    fn card(&mut self, bench: Bench) -> Result<(), Failure> {
        self.page.put_text("     AT  MESSAGE      REPLY       CAUSE");
        let Bench { cards: mut card, bench_sheet, maker_sheet, mut values, .. } = bench;
        let (mut out, mut notes, mut counts) = (vec![0; ROOM], vec![0; BLOCK * NOTE], [0; 3]);
        // Words before `from` are taken, and those before `behind` told of.
        let (mut from, mut behind) = (0, 0);
        while from < self.words.len() {
            let lent = &self.words[from..self.words.len().min(from + BLOCK)];
            let (out, notes) = (&mut out[..], &mut notes[..]);
            served(abi::trace(
                &mut card,
                &bench_sheet,
                &maker_sheet,
                &mut values,
                lent,
                out,
                notes,
                &mut counts,
            ))?;
            let [taken, _, noted] = counts.map(|count| count as usize);
            let mut replied = 0;
            for note in notes[..noted * NOTE].chunks_exact(NOTE) {
                let [at, characters, bytes, _, position] = [0, 1, 2, 3, 4].map(|place| note[place] as usize);
                let (at, reply) = (from + at, &out[replied..replied + bytes]);
                let closed = Closed { at, characters, reply, code: note[3], position };
                if !self.between(behind, at, characters) || !self.closed(closed) {
                    return Ok(());
                }
                (behind, replied) = (at + 1, replied + bytes);
            }
            from += taken;
        }
        let open = card[OPEN] as usize;
        if self.between(behind, from, open) {
            self.end(open);
        }
        Ok(())
    }

    /// The words between two places, with no message open before them, none of which closes one, and so many characters
    /// open behind them. A word adds one at most, so only where there are more words can a message have been dropped;
    /// those before the open message are then heard one by one.
    fn between(&mut self, from: usize, to: usize, open: usize) -> bool {
        if to - from == open {
            return true;
        }
        let mut ear = Ear::new();
        for at in from..to - open {
            let word = self.words[at];
            let characters = ear.open();
            if characters == 0 && !self.alphabet.opens(word) {
                continue;
            }
            ear.hear(&[word]);
            if ear.open() == 0 && !self.dropped(at, characters) {
                return false;
            }
        }
        true
    }

    /// A line with the position and the words of a message, and the column of its letter.
    fn line(&mut self, at: usize, characters: usize) -> (Line<'_>, usize) {
        let mut line = self.page.line();
        self.position.put(at, &mut line);
        let column = line.column(MESSAGE_COLUMN);
        line.words(self.alphabet, self.words[at - characters..=at].iter().copied());
        (line, column)
    }

    fn dropped(&mut self, at: usize, characters: usize) -> bool {
        self.dropped += 1;
        if !self.drops {
            return true;
        }
        let (mut line, _) = self.line(at, characters);
        line.column(CAUSE_COLUMN);
        line.text(b"dropped");
        let len = line.end();
        self.page.put(len)
    }

    fn closed(&mut self, closed: Closed) -> bool {
        let alphabet = self.alphabet;
        let (mut line, column) = self.line(closed.at, closed.characters);
        line.column(REPLY_COLUMN);
        if closed.reply.is_empty() {
            line.byte(b'-');
        } else {
            line.words(alphabet, closed.reply.iter().map(|byte| u16::from(*byte)));
        }
        let cause = refusal::cause(closed.code);
        if !cause.is_empty() {
            line.column(CAUSE_COLUMN);
            line.text(cause.as_bytes());
        }
        let len = line.end();
        if closed.code != NOT_WELL_FORMED {
            self.heard += 1;
            return self.page.put(len);
        }
        self.malformed += 1;
        self.page.put(len) && self.mark(column, &closed)
    }

    /// A mark under the first character that no message could have there.
    fn mark(&mut self, column: usize, closed: &Closed) -> bool {
        let first = closed.at - closed.characters;
        let before = self.alphabet.columns(&self.words[first..first + closed.position]);
        let mut line = self.page.line();
        line.column(column + before);
        line.byte(b'^');
        let len = line.end();
        self.page.put(len)
    }

    fn end(&mut self, open: usize) {
        let Replay { heard, malformed, dropped, .. } = self;
        let mut last = format!("END {heard} heard, {malformed} not well formed, {dropped} dropped");
        if open > 0 {
            let text = self.alphabet.text(&self.words[self.words.len() - open..]);
            last += &format!(", open: {}", String::from_utf8_lossy(&text));
        }
        self.page.put_text(&last);
    }

    /// Several cards: the replies alone, each at the word that drew it.
    fn replies(&mut self, bench: Bench) -> Result<(), Failure> {
        self.page.put_text("     AT  REPLY");
        let Bench { mut cards, bench_sheet, maker_sheet, mut values, .. } = bench;
        let (mut out, mut counts, mut count, mut from) = ([0; REPLY], [0; 2], 0, 0);
        for taken in self.words.split_inclusive(|word| self.alphabet.closes(*word)) {
            served(abi::bus_run(
                &mut cards,
                &bench_sheet,
                &maker_sheet,
                &mut values,
                taken,
                &mut out,
                &mut counts,
            ))?;
            from += taken.len();
            let reply = &out[..counts[1] as usize];
            if !reply.is_empty() {
                count += 1;
                let mut line = self.page.line();
                self.position.put(from - 1, &mut line);
                line.column(MESSAGE_COLUMN);
                line.words(self.alphabet, reply.iter().map(|byte| u16::from(*byte)));
                let len = line.end();
                if !self.page.put(len) {
                    return Ok(());
                }
            }
        }
        self.page.put_text(&format!("END {count} replies"));
        Ok(())
    }
}

/// What a call gave. The bench was judged before, and so were the words.
fn served(result: i64) -> Result<usize, Failure> {
    usize::try_from(result).or_else(|_| failure("the recording", refusal::in_words(result)))
}
