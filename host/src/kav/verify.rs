//! `kav verify`: each recording of a folder that has a transcript beside it, replayed and compared with that. Files
//! are opened for reading alone.

use super::args::Options;
use super::lines::Lines;
use super::output::Output;
use super::play::play;
use super::setup::{Bench, Settings};
use super::words::{bytes_of, recording, Alphabet};
use super::{failure, Failure, DIFFERS, WELL};
use std::ffi::OsStr;
use std::io::{self, IsTerminal, Write};
use std::iter::Peekable;
use std::path::{Path, PathBuf};
use std::str::Split;

const TRANSCRIPT: &str = "transcript";
const RECORDINGS: [&str; 3] = ["words", "text", "txt"];

pub fn command(options: &Options) -> Result<u8, Failure> {
    let folder = Path::new(options.operand());
    let given = Bench::new(&Settings::given(options)?, None)?;
    let names = match names_in(folder) {
        Ok(names) => names,
        Err(why) => return failure(folder.display(), why),
    };
    let transcripts: Vec<&PathBuf> = names.iter().filter(|name| has_ending(name, TRANSCRIPT)).collect();
    let alphabet = Alphabet::ask();
    let mut output = Output::standard()?;
    let (mut same, mut different, mut unreadable) = (0, 0, 0);
    let progress = io::stderr().is_terminal();
    for (index, transcript) in transcripts.iter().enumerate() {
        if progress {
            let shown = transcript.display();
            let _ = write!(io::stderr(), "\r\x1b[K{} of {}: {shown}", index + 1, transcripts.len());
        }
        let beside: Vec<&PathBuf> = RECORDINGS
            .iter()
            .filter_map(|ending| names.iter().find(|name| **name == transcript.with_extension(ending)))
            .collect();
        let compared = match beside[..] {
            [recording] => compare(&alphabet, &given, folder, recording, transcript),
            [] => failure(transcript.display(), "expected a recording beside it (.words, .text or .txt)"),
            _ => failure(transcript.display(), "expected one recording beside it, found more"),
        };
        match compared {
            Ok(None) => {
                same += 1;
                output.put(format!("same     {}\n", beside[0].display()).as_bytes())?;
            }
            Ok(Some(difference)) => {
                different += 1;
                output.put(format!("differs  {}, {difference}", beside[0].display()).as_bytes())?;
            }
            Err(Failure(what)) => {
                unreadable += 1;
                output.put(format!("unread   {what}\n").as_bytes())?;
            }
        }
    }
    if progress {
        let _ = write!(io::stderr(), "\r\x1b[K");
    }
    let alone = names
        .iter()
        .filter(|name| RECORDINGS.iter().any(|ending| has_ending(name, ending)))
        .filter(|name| !names.contains(&name.with_extension(TRANSCRIPT)))
        .count();
    let counted =
        format!("END {same} same, {different} differ, {unreadable} unread, {alone} without a transcript\n");
    output.put(counted.as_bytes())?;
    output.finish()?;
    match (different, unreadable) {
        (_, 1..) => failure(folder.display(), "not every transcript could be compared"),
        (1.., 0) => Ok(DIFFERS),
        (0, 0) if same == 0 => failure(folder.display(), "expected a recording with a transcript beside it"),
        _ => Ok(WELL),
    }
}

fn has_ending(name: &Path, ending: &str) -> bool {
    name.extension() == Some(OsStr::new(ending))
}

/// The names of the files in a folder, in order.
fn names_in(folder: &Path) -> io::Result<Vec<PathBuf>> {
    let mut names = Vec::new();
    for entry in folder.read_dir()? {
        let name = PathBuf::from(entry?.file_name());
        if folder.join(&name).is_file() {
            names.push(name);
        }
    }
    names.sort();
    Ok(names)
}

/// A line as it can be told from another: what doesn't print, and blanks at its end, by their codes.
fn visible(line: &str) -> String {
    let text = line.trim_end_matches(' ');
    let blanks = "\\x20".repeat(line.len() - text.len());
    let shown: String = text
        .chars()
        .map(|c| if c.is_control() { c.escape_default().to_string() } else { c.to_string() })
        .collect();
    shown + &blanks
}

/// The lines of a transcript beside those of a replay, up to the first that differ.
struct Comparison<'a> {
    left: Peekable<Split<'a, char>>,
    number: usize,
    difference: Option<String>,
}

impl Comparison<'_> {
    fn differ(&mut self, left: Option<&str>, right: Option<&str>) -> bool {
        let [left, right] = [left, right].map(|line| line.map_or("(nothing)".to_string(), visible));
        let width = left.chars().count().max(10);
        let mut shown = format!("line {}\n", self.number);
        for (left, right) in [("transcript", "replay"), (&left, &right)] {
            shown += &format!("         {left:width$} | {right}\n");
        }
        self.difference = Some(shown);
        false
    }
}

impl Lines for Comparison<'_> {
    fn lines(&mut self, text: &[u8]) -> Result<bool, Failure> {
        for line in text.split_inclusive(|byte| *byte == b'\n') {
            self.number += 1;
            let left = self.left.next();
            let right = String::from_utf8_lossy(&line[..line.len() - 1]);
            if left != Some(&right) {
                return Ok(self.differ(left, Some(&right)));
            }
        }
        Ok(true)
    }
}

/// Replays a recording by the settings at the head of its transcript, or by those of the command line where it has
/// none. None where they are the same.
fn compare(
    alphabet: &Alphabet,
    given: &Bench,
    folder: &Path,
    name: &Path,
    transcript: &Path,
) -> Result<Option<String>, Failure> {
    let place = folder.join(transcript);
    let Ok(text) = String::from_utf8(bytes_of(place.as_os_str())?) else {
        return failure(place.display(), "expected plain text");
    };
    // Every line ends with a line feed, the last one too.
    let Some(text) = text.strip_suffix('\n') else {
        return failure(place.display(), "expected a line feed at its end: it is cut off");
    };
    let mut left = text.split('\n').peekable();
    let (mut settings, mut head) = (Settings::default(), Vec::new());
    while let Some(line) = left.next_if(|line| line.starts_with("--")) {
        head.push(line);
        let number = head.len();
        let (option, value) = line.split_once(' ').unwrap_or((line, ""));
        let taken = match line {
            _ if line.contains('\r') => failure(option, "expected a line feed alone at its end"),
            "--drops" => {
                settings.drops = true;
                Ok(true)
            }
            _ => settings.take(option, OsStr::new(value)),
        };
        match taken {
            Ok(true) => {}
            Ok(false) => {
                return failure(place.display(), format!("line {number}: {option}: no such setting"))
            }
            Err(Failure(what)) => return failure(place.display(), format!("line {number}: {what}")),
        }
    }
    let mut bench = if head.is_empty() {
        given.clone()
    } else {
        Bench::new(&settings, Some(folder)).or_else(|Failure(what)| {
            // What fails begins with its setting, as the line does.
            let number = head.iter().position(|line| what.starts_with(line)).map(|at| at + 1);
            let line = number.map_or(String::new(), |number| format!("line {number}: "));
            failure(place.display(), format!("{line}{what}"))
        })?
    };
    // The settings were taken from there, and aren't compared.
    bench.head.clear();
    let number = head.len();
    let words = recording(alphabet, folder.join(name).as_os_str(), false)?;
    let mut comparison = Comparison { left, number, difference: None };
    play(alphabet, bench, &words, &mut comparison)?;
    if comparison.difference.is_none() {
        if let Some(left) = comparison.left.next() {
            comparison.number += 1;
            comparison.differ(Some(left), None);
        }
    }
    Ok(comparison.difference)
}
