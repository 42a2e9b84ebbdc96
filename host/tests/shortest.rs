//! Request 7: "Show that no recording with fewer words is heard as the same messages, in the same order." That is
//! proved; here it is tried without the proof, and so is that no other recording of as many words is heard alike: on
//! all strings over small alphabets, cut off where no well-formed message begins so, and on all short recordings,
//! where nothing is cut off. The archive and the reference are each held to it by themselves; what should be heard is
//! found by neither, but in [`table`]. `-- --nocapture` prints how many were tried.

#[path = "shortest/table.rs"]
mod table;

use kavtziron_host::gen::{on_line, words_of};
use kavtziron_host::reference::calls;
use std::collections::HashMap;
use std::io::Write as _;
use std::path::{Path, PathBuf};
use table::{counts, messages, read, Message, Open, Read, CHARACTERS, DIGITS};

type Write = fn(u8, u32, u8, u8, i32, u32, u32, &mut [u8]) -> i64;

struct Side {
    name: &'static str,
    normal_form: fn(&[u16], &mut [u16]) -> i64,
    write: Write,
}

const SIDES: &[Side] = &[
    #[cfg(kav_linked)]
    Side {
        name: "archive",
        normal_form: kavtziron_host::abi::normal_form,
        write: kavtziron_host::abi::write,
    },
    Side { name: "reference", normal_form: calls::normal_form, write: calls::write },
];

/// Holds each side to a claim, one after the other.
fn for_each_side(hold: impl Fn(&Side)) {
    if cfg!(not(kav_linked)) {
        let text = b"shortest: no archive (../target/staticlib/libabi.a or KAV_ARCHIVE), REFERENCE ALONE\n";
        std::io::stderr().write_all(text).unwrap();
    }
    SIDES.iter().for_each(hold);
}

impl Side {
    /// The normal form, written into room as long as the recording. It is shorter, or the recording itself.
    fn normal_form<'a>(&self, recording: &[u16], room: &'a mut Vec<u16>) -> &'a [u16] {
        room.clear();
        room.resize(recording.len(), 0);
        let length = (self.normal_form)(recording, room);
        assert!(length >= 0, "{}: the normal form of {} gave {length}", self.name, text(recording));
        let normal = &room[..length as usize];
        let shorter = normal.len() < recording.len() || normal == recording;
        assert!(shorter, "{}: the normal form of {} is {}", self.name, text(recording), text(normal));
        normal
    }

    /// A message as the writer spells it, one byte to a word.
    fn spell(&self, message: &Message) -> Vec<u16> {
        let Message { letter, address, identifier, sign, number, decimals, minus_zero } = *message;
        let mut out = [0; 11];
        let length = (self.write)(letter, address, identifier, sign, number, decimals, minus_zero, &mut out);
        assert!(length >= 0, "{}: the writer gave {length} for {message:?}", self.name);
        out[..length as usize].iter().map(|&byte| u16::from(byte)).collect()
    }
}

/// For a failure: characters in good parity as they are, any other word as its number.
fn text(words: &[u16]) -> String {
    let shown = |&word: &u16| match u8::try_from(word) {
        Ok(byte) if on_line(byte) == byte => char::from(byte & 0x7F).to_string(),
        _ => format!("<{word}>"),
    };
    words.iter().map(shown).collect()
}

/// Gives each string that begins with these characters, cut off where no well-formed message begins so. One that is
/// cut off is given too.
fn for_each_string(alphabet: &[u8], characters: &mut Vec<u8>, each: &mut impl FnMut(&[u8], &Read)) {
    let read = read(characters);
    each(characters, &read);
    if let Read::Wrong = read {
        return;
    }
    for &character in alphabet {
        characters.push(character);
        for_each_string(alphabet, characters, each);
        characters.pop();
    }
}

/// Tries every string with these digits, a `*` behind it. Gives how many they are, and for each message the strings
/// that were heard as it.
fn try_strings(side: &Side, digits: &[u8]) -> (usize, HashMap<Message, Vec<Vec<u16>>>) {
    let (mut tried, mut met, mut room) = (0, HashMap::<_, Vec<_>>::new(), Vec::new());
    for_each_string(&[CHARACTERS, digits].concat(), &mut Vec::new(), &mut |characters, read| {
        tried += 1;
        let string: Vec<u16> = words_of(characters).chain(words_of(b"*")).collect();
        let heard = side.normal_form(&string, &mut room);
        if let Read::Whole(message) = read {
            let spelled = side.spell(message);
            assert!(heard == spelled, "{}: {} heard, {} written", side.name, text(heard), text(&spelled));
            met.entry(*message).or_default().push(string);
        } else {
            assert!(heard.is_empty(), "{}: {} heard as {}", side.name, text(&string), text(heard));
        }
    });
    (tried, met)
}

/// The shortest of the strings that were heard as a message is its writer's spelling, and no other is as short.
fn hold_shortest(side: &Side, message: &Message, mut strings: Vec<Vec<u16>>) {
    let spelled = side.spell(message);
    strings.sort_by_key(Vec::len);
    // `7` and `07`, but `10` alone.
    assert_eq!(strings.len(), if message.address < 10 { 2 } else { 1 }, "{}: {message:?}", side.name);
    assert!(strings[0] == spelled, "{}: {} heard, {} written", side.name, text(&strings[0]), text(&spelled));
    for other in &strings[1..] {
        let longer = other.len() > spelled.len();
        assert!(longer, "{}: {} and {} are heard alike", side.name, text(other), text(&spelled));
    }
}

fn hold_messages(side: &Side, digits: &[u8]) {
    let (tried, mut met) = try_strings(side, digits);
    let messages = messages(digits);
    let codes = digits.iter().filter(|digit| !b"49".contains(digit)).count();
    assert_eq!((messages.len(), tried), counts(digits.len(), codes), "{}: messages and strings", side.name);
    for message in &messages {
        hold_shortest(side, message, met.remove(message).unwrap_or_default());
    }
    assert!(met.is_empty(), "{}: heard, and not among the messages: {:?}", side.name, met.keys());
    println!("{}: {tried} strings, {} messages", side.name, messages.len());
}

#[test]
fn one_message() {
    for_each_side(|side| DIGITS.iter().for_each(|digits| hold_messages(side, digits)));
}

/// A recording, the messages heard in it, and what it leaves open.
#[derive(Clone, Default)]
struct Recording {
    words: Vec<u16>,
    heard: Vec<Message>,
    open: Open,
}

/// Gives every recording that is this one with `more` pieces behind it. None is cut off.
fn for_each_recording(
    pieces: &[Vec<u16>],
    more: usize,
    recording: &mut Recording,
    each: &mut impl FnMut(&Recording),
) {
    if more == 0 {
        return each(recording);
    }
    let (length, count, open) = (recording.words.len(), recording.heard.len(), recording.open);
    for piece in pieces {
        recording.words.extend_from_slice(piece);
        recording.heard.extend(piece.iter().filter_map(|&word| recording.open.take(word)));
        for_each_recording(pieces, more - 1, recording, each);
        recording.words.truncate(length);
        recording.heard.truncate(count);
        recording.open = open;
    }
}

/// `firsts` has the first recording that was heard as each list of messages. It is the shortest: any other has more
/// words, and the first as its normal form.
fn hold_recording(side: &Side, recording: &Recording, firsts: &mut Vec<Recording>, room: &mut Vec<u16>) {
    let (name, words) = (side.name, &recording.words);
    let normal = side.normal_form(words, room);
    if recording.heard.is_empty() {
        assert!(normal.is_empty(), "{name}: {} gave {}", text(words), text(normal));
    } else if let Some(first) = firsts.iter().find(|first| first.heard == recording.heard) {
        let first = &first.words;
        assert!(words.len() > first.len(), "{name}: {} and {} are heard alike", text(words), text(first));
        assert!(normal == first, "{name}: {} gave {}, not {}", text(words), text(normal), text(first));
    } else {
        assert!(normal == words, "{name}: {} is the first and gave {}", text(words), text(normal));
        firsts.push(recording.clone());
    }
}

/// Tries every recording of up to `most` pieces, fewer pieces first. They are heard as so many lists of messages.
fn hold_recordings(side: &Side, pieces: &[Vec<u16>], most: usize, lists: usize) {
    let (mut tried, mut firsts, mut room) = (0, Vec::new(), Vec::new());
    for count in 0..=most {
        for_each_recording(pieces, count, &mut Recording::default(), &mut |recording| {
            tried += 1;
            hold_recording(side, recording, &mut firsts, &mut room);
        });
    }
    let all = (0..=most as u32).map(|count| pieces.len().pow(count)).sum();
    assert_eq!((tried, firsts.len()), (all, lists), "{}: recordings and lists", side.name);
    println!("{}: {tried} recordings, {lists} lists of messages", side.name);
}

/// How many lists there are of messages that have these lengths, at most `most` altogether.
fn lists(lengths: &[usize], most: usize) -> usize {
    let behind = |&length| most.checked_sub(length).map_or(0, |left| 1 + lists(lengths, left));
    lengths.iter().map(behind).sum()
}

#[test]
fn whole_recordings() {
    let words = |text: &str| words_of(text.as_bytes()).collect::<Vec<u16>>();
    // A silence, and an `L` in bad parity.
    let spoiled = [vec![256], vec![0x4C]];
    let clean = ["L", "7", "0", "?", "*"].map(words);
    // Their messages: `L7??*`, `L7L?*`, `L70??*`, `L70L?*`, `L77??*`, `L77L?*`.
    let lengths = [5, 5, 6, 6, 6, 6];
    // Two messages, for what can stand between them; `R` and ten characters are dropped. The shorter spelling comes first.
    let pieces = ["L7??*", "L7M?*", "L07??*", "R", "xxxxx", "*"].map(words);
    for_each_side(|side| {
        hold_recordings(side, &clean, 11, lists(&lengths, 11));
        hold_recordings(side, &[&clean[..], &spoiled].concat(), 8, lists(&lengths, 8));
        hold_recordings(side, &[&pieces[..], &spoiled].concat(), 6, lists(&[1, 1], 6));
    });
}

fn in_repository(path: &str) -> PathBuf {
    Path::new(env!("CARGO_MANIFEST_DIR")).join("..").join(path)
}

/// The names of the recordings in samples/, in order, and their words.
fn recordings() -> Vec<(String, Vec<u16>)> {
    let mut recordings = Vec::new();
    for entry in std::fs::read_dir(in_repository("samples")).unwrap() {
        let entry = entry.unwrap();
        let name = entry.file_name().into_string().unwrap();
        if name.ends_with(".words") {
            let bytes = std::fs::read(entry.path()).unwrap();
            let (words, rest) = bytes.as_chunks();
            assert!(rest.is_empty(), "{name}: a lone last byte");
            recordings.push((name, words.iter().map(|&word| u16::from_le_bytes(word)).collect()));
        }
    }
    recordings.sort();
    recordings
}

fn with_commas(number: usize) -> String {
    match number {
        0..1_000 => number.to_string(),
        _ => format!("{},{:03}", with_commas(number / 1_000), number % 1_000),
    }
}

/// A recording's row in the table of docs/normal-form.md.
fn row(side: &Side, name: &str, words: &[u16]) -> String {
    let (mut room, mut again) = (Vec::new(), Vec::new());
    let normal = side.normal_form(words, &mut room);
    assert!(side.normal_form(normal, &mut again) == normal, "{}: {name}, not its own normal form", side.name);
    // Each message has one `*`.
    let messages = normal.iter().filter(|&&word| word == u16::from(on_line(b'*'))).count();
    let percent = (100 * (words.len() - normal.len())).checked_div(words.len()).unwrap_or(0);
    let [words, messages, normal] = [words.len(), messages, normal.len()].map(with_commas);
    format!("| `{name}` | {words} | {messages} | {normal} | {percent} % |")
}

fn is_row(line: &str) -> bool {
    let name = line.strip_prefix("| `").and_then(|rest| rest.split_once('`'));
    name.is_some_and(|(name, _)| name.ends_with(".words"))
}

const HEADER: &str = "| Recording | Words | Messages | Words of its normal form | Shorter by |";

#[test]
fn samples() {
    let document =
        std::fs::read_to_string(in_repository("docs/normal-form.md")).expect("docs/normal-form.md");
    assert!(document.lines().any(|line| line == HEADER), "docs/normal-form.md has no table");
    let stated: Vec<String> = document.lines().filter(|line| is_row(line)).map(str::to_owned).collect();
    for_each_side(|side| {
        let measured: Vec<String> = recordings().iter().map(|(name, words)| row(side, name, words)).collect();
        let wrong: Vec<_> = stated.iter().filter(|row| !measured.contains(row)).collect();
        let missing: Vec<_> = measured.iter().filter(|row| !stated.contains(row)).collect();
        let agree = wrong.is_empty() && missing.is_empty();
        assert!(agree, "{}: stated {wrong:#?}, measured {missing:#?}", side.name);
        assert_eq!(stated.len(), measured.len(), "a row stands twice");
    });
}
