//! What `kav play` should print, by the reference: a word at a time, with the cause that each gives.

use crate::tools::{file_of, repository, said, samples, words_in, Folder, BENCH};
use kavtziron_host::gen::on_line;
use kavtziron_host::reference::calls;
use std::fs;

/// A word as the text form has it.
pub fn shown(word: u16) -> String {
    let Ok(byte) = u8::try_from(word) else { return "~".to_string() };
    let character = byte & 0x7F;
    match character {
        b'!'..=b'}' if on_line(character) == byte && character != b'{' => char::from(character).to_string(),
        _ => format!("{{{byte:02X}}}"),
    }
}

pub fn text_of(words: &[u16]) -> String {
    words.iter().map(|word| shown(*word)).collect()
}

fn text_of_bytes(bytes: &[u8]) -> String {
    bytes.iter().map(|byte| shown(u16::from(*byte))).collect()
}

/// The causes by their codes, as request 4 and 5 name them.
const CAUSES: [&str; 11] = [
    "",
    "no such identifier",
    "access forbids it",
    "wrong decimals",
    "minus zero",
    "out of range",
    "at the limit",
    "not for this card",
    "Type 4 without its offer",
    "no message closed by this word",
    "not well formed",
];

/// Cards, sheet and values, and the settings that they come from, as the first lines show them.
#[derive(Clone)]
pub struct Setup {
    pub head: Vec<String>,
    pub cards: Vec<i32>,
    pub bench: Vec<i32>,
    pub values: Vec<i32>,
    pub drops: bool,
}

impl Setup {
    /// Card `L`, address 7, with document 01's rows.
    pub fn bench_cases(drops: bool) -> Setup {
        let mut cards = vec![0; 23];
        (cards[0], cards[1], cards[22]) = (76, 7, 1);
        let mut values = vec![0; 128];
        for (identifier, value) in [(b'J', 0), (b'M', 231), (b'Z', 15), (b'm', 20)] {
            values[usize::from(identifier)] = value;
        }
        let rows = [
            [74, 2, 1, 5, -100, 100],
            [77, 1, 1, 1, -1999, 9999],
            [90, 3, 0, 1, 15, 18],
            [109, 2, 1, 5, 0, 1000],
        ];
        let mut head = vec!["--card L7", "--revision 1", "--sheet bench.sheet", "--scan none"];
        if drops {
            head.push("--drops");
        }
        Setup {
            head: head.into_iter().map(str::to_string).collect(),
            cards,
            bench: rows.concat(),
            values,
            drops,
        }
    }

    /// Everything that is printed for one card.
    pub fn replay(&self, words: &[u16]) -> String {
        let (mut card, mut values) = (self.cards.clone(), self.values.clone());
        let mut lines = self.head.clone();
        lines.push("     AT  MESSAGE      REPLY       CAUSE".to_string());
        let (mut heard, mut malformed, mut dropped) = (0, 0, 0);
        let mut open: Vec<u16> = Vec::new();
        for (at, word) in words.iter().enumerate() {
            let (mut out, mut cause) = ([0; 33], [0; 2]);
            let bytes = calls::step(&mut card, &self.bench, &[], &mut values, *word, &mut out, &mut cause);
            assert!(bytes >= 0, "the reference refuses word {at} with {bytes}");
            let reply = &out[..bytes as usize];
            let is_open = card[2] > 0;
            if is_open || !open.is_empty() {
                open.push(*word);
            }
            match cause[0] {
                9 if is_open || open.is_empty() => continue,
                9 => {
                    dropped += 1;
                    if self.drops {
                        lines.push(columns(at, &text_of(&open), "", "dropped"));
                    }
                }
                10 => {
                    malformed += 1;
                    lines.push(columns(at, &text_of(&open), "-", CAUSES[10]));
                    let before = text_of(&open[..cause[1] as usize]).len();
                    let at = format!("{at:7}  ").len();
                    lines.push(format!("{}^", " ".repeat(at + before)));
                }
                code => {
                    heard += 1;
                    let reply = if reply.is_empty() { "-".to_string() } else { text_of_bytes(reply) };
                    lines.push(columns(at, &text_of(&open), &reply, CAUSES[code as usize]));
                }
            }
            open.clear();
        }
        let mut end = format!("END {heard} heard, {malformed} not well formed, {dropped} dropped");
        if !open.is_empty() {
            end += &format!(", open: {}", text_of(&open));
        }
        lines.push(end);
        lines.join("\n") + "\n"
    }

    /// Everything that is printed for several.
    pub fn replies(&self, words: &[u16]) -> String {
        let (mut cards, mut values) = (self.cards.clone(), self.values.clone());
        let mut lines = self.head.clone();
        lines.push("     AT  REPLY".to_string());
        let mut count = 0;
        for (at, word) in words.iter().enumerate() {
            let (mut out, mut counts) = ([0; 33], [0; 2]);
            let result =
                calls::bus_run(&mut cards, &self.bench, &[], &mut values, &[*word], &mut out, &mut counts);
            assert_eq!((result, counts[0]), (0, 1), "the reference refuses word {at}");
            if counts[1] > 0 {
                count += 1;
                lines.push(format!("{at:7}  {}", text_of_bytes(&out[..counts[1] as usize])));
            }
        }
        lines.push(format!("END {count} replies"));
        lines.join("\n") + "\n"
    }
}

/// A line: the columns begin at 0, 9, 22 and 34, or two blanks behind the one before.
fn columns(at: usize, message: &str, reply: &str, cause: &str) -> String {
    let mut line = format!("{at:7}  {message}");
    for (column, text) in [(22, reply), (34, cause)] {
        if !text.is_empty() {
            line = format!("{:column$}{text}", format!("{line}  "));
        }
    }
    line
}

/// Two outputs, compared line by line.
#[track_caller]
pub fn assert_same(got: &str, wanted: &str, what: impl std::fmt::Display) {
    if got == wanted {
        return;
    }
    let (mut left, mut right) = (got.lines(), wanted.lines());
    for number in 1.. {
        let (got, wanted) = (left.next(), right.next());
        if got != wanted || got.is_none() {
            panic!("{what}: line {number} differs\n  printed:  {got:?}\n  expected: {wanted:?}");
        }
    }
}

#[test]
fn the_sheet_of_the_samples() {
    let sheet = fs::read_to_string(repository("samples/bench.sheet")).unwrap();
    let rows: Vec<&str> = sheet.lines().filter(|line| !line.starts_with("//")).collect();
    assert_eq!(rows, BENCH.lines().collect::<Vec<_>>());
}

#[test]
fn samples_as_by_the_reference() {
    let folder = Folder::new("samples");
    let sheet = repository("samples/bench.sheet");
    let sheet = sheet.to_str().unwrap();
    for file in samples() {
        let words = words_in(&fs::read(&file).unwrap());
        let file = file.to_str().unwrap();
        for drops in [false, true] {
            for revision in [1, 2] {
                let mut setup = Setup::bench_cases(drops);
                setup.cards[22] = revision;
                setup.head[1] = format!("--revision {revision}");
                let revision = revision.to_string();
                let mut arguments = vec!["play", "--sheet", sheet, "--revision", &revision, file];
                if drops {
                    arguments.insert(1, "--drops");
                }
                let ended = folder.kav(&arguments);
                assert_same(&ended.out, &setup.replay(&words), file);
                assert_eq!((ended.status, ended.err.as_str()), (0, ""));
            }
        }
        for cards in ["L7", "R7,L7", "L1,R8,L8,L7,R7"] {
            let mut setup = Setup::bench_cases(false);
            setup.head[0] = format!("--cards {cards}");
            let (row, values) = (setup.cards.clone(), setup.values.clone());
            setup.cards.clear();
            for card in cards.split(',') {
                let mut row = row.clone();
                (row[0], row[1]) = (i32::from(card.as_bytes()[0]), card[1..].parse().unwrap());
                setup.cards.extend(row);
            }
            setup.values = values.repeat(cards.split(',').count());
            let ended = folder.kav(&["play", "--sheet", sheet, "--cards", cards, file]);
            assert_same(&ended.out, &setup.replies(&words), file);
            assert_eq!((ended.status, ended.err.as_str()), (0, ""));
        }
    }
}

/// Recordings that are each about one thing, played at card L7 of the bench cases.
fn hand_made() -> Vec<(&'static str, Vec<u16>)> {
    let silences = |count| vec![256; count];
    let bad = |character: u8| u16::from(on_line(character) ^ 0x80);
    let mut made = vec![
        ("no words", vec![]),
        ("a silence", silences(1)),
        ("silences", silences(5_000)),
        ("a star", said("*")),
        ("stars", said(&"*".repeat(5_000))),
        ("an endless message", said(&format!("L7{}", "M".repeat(5_000)))),
        ("letters", said(&"L".repeat(5_000))),
        ("letters, then a star", said(&format!("{}*", "LR".repeat(600)))),
        ("ten characters", said("L07m#00231*L7mI*L12345678*")),
        ("eleven characters", said("L07m#002311*L7M?*")),
        ("an eleventh L is used up", said("L07m#00231L7M?*L7M?*")),
        ("an eleventh R, then a message", said("L07m#00231RL7M?*")),
        ("twenty-two characters", said("L07m#00231LL07m#00231LR7")),
        ("a silence inside", [said("L7m#0"), silences(1), said("0231*L7M?*")].concat()),
        ("a silence behind a letter", [said("L"), silences(1), said("7M?*L7M?*")].concat()),
        ("a silence before a star", [said("L7M?"), silences(1), said("*L7M?*")].concat()),
        ("silences between", [said("L7M?*"), silences(3), said("L7mI*"), silences(1)].concat()),
        ("bad parity inside", [said("L7"), vec![bad(b'M')], said("?*L7M?*")].concat()),
        ("a star in bad parity", [said("L7M?"), vec![bad(b'*')], said("L7M?*")].concat()),
        ("letters in bad parity", [vec![bad(b'L'), bad(b'R')], said("7M?*L7M?*")].concat()),
        ("an L in bad parity drops", [said("L7"), vec![bad(b'L')], said("7M?*L7M?*")].concat()),
        ("dropped at the end", [said("L7M?*L7"), silences(1)].concat()),
        ("a letter open at the end", said("L7M?*R")),
        ("ten characters open at the end", said("L7M?*L07m#00231")),
        ("NUL and DEL", said("L7\0?*L7\x7F?*L7M\0*L7M\x7F*\0L\0*L\x7F*R\0\x7F\0")),
        ("NUL and DEL dropped", [said("L7\0\x7F"), silences(1), said("L7\x01\x7F\0\0\0\0\0\0\0\0")].concat()),
        ("control characters", said("L7\r\n*L7\t?*L7\x1B[*")),
        ("signs as identifiers", said("L7~?*L7{?*L7}?*L7\\?*L7|?*L7`?*L7^?*L7\"?*L7'?*L7/+*L7=-*")),
        ("signs not well formed", said("L~*L7~~*L7{{*L{}*L7}}*L7\\\\*L7{?{*L7~#{*")),
        ("signs dropped", [said("L7~{}\\"), silences(1), said("L{~}\\~{}\\~{~L7~{}\\~{}")].concat()),
        ("blanks", said("L7 ?*L 7M?*L7M ?* L7M?*  *L7M? *L7 ")),
        (
            "every sort of N",
            said("L7q?*L7Z?*L7M+*L7m#00230*L7m#10031*L7m#00006*L7Z+*L7J#10001*L7J#10006*L7]?*L7]I*"),
        ),
        (
            "at the limit",
            said(&format!("L7J#01001*L7JI*L7J+*{}L7m-*L7m#00001*L7mI*L7m-*", "L7J-*".repeat(42))),
        ),
        ("a Type 4 twice", said("L7m#00231*L7mI*L7mI*L7J#00231*L7mI*L7JI*")),
        ("minus zero", said("L7J#00005*L7J#00006*L7JI*L7m#00006*L7M#00006*")),
        ("addresses", said("L0??*L00??*L7??*L07??*L007??*L70??*L99??*L100??*R7??*R07??*L77??*L7*L*")),
    ];
    // The mark under each place of a message, the star too.
    for at in 0..=10 {
        let message = "L07m#00231*";
        for wrong in ["\0", " ", "~", "{", "*", "L"] {
            let message = format!("{}{wrong}{}", &message[..at], &message[at..]);
            made.push(("one character more", said(&message)));
        }
        made.push(("cut off, then closed", said(&format!("{}*", &message[..at]))));
    }
    // All 257 words in an open message, closed and not, and as an eleventh character.
    for word in 0..=256 {
        made.push(("a word between", vec![word]));
        made.push(("a word inside", [said("L7"), vec![word], said("?*")].concat()));
        made.push(("a word as the eleventh", [said("L07m#00231"), vec![word], said("7M?*")].concat()));
        made.push(("a word at the end", [said("L7"), vec![word]].concat()));
    }
    made
}

#[test]
fn hand_made_as_by_the_reference() {
    let folder = Folder::new("hand-made");
    folder.write("bench.sheet", BENCH);
    for revision in [1, 2] {
        let mut setup = Setup::bench_cases(true);
        setup.cards[22] = revision;
        setup.head[1] = format!("--revision {revision}");
        for (name, words) in hand_made() {
            folder.write("a.words", file_of(&words));
            let revision = revision.to_string();
            let ended = folder.kav(&[
                "play",
                "--drops",
                "--revision",
                &revision,
                "--sheet",
                "bench.sheet",
                "a.words",
            ]);
            assert_same(&ended.out, &setup.replay(&words), format!("{name}: {}", text_of(&words)));
            assert_eq!((ended.status, ended.err.as_str()), (0, ""), "{name}");
        }
    }
}

/// All hand-made recordings one behind the other: what is open goes on into the next.
#[test]
fn hand_made_together() {
    let folder = Folder::new("together");
    folder.write("bench.sheet", BENCH);
    let words: Vec<u16> = hand_made().into_iter().flat_map(|(_, words)| words).collect();
    folder.write("a.words", file_of(&words));
    for drops in [false, true] {
        let mut arguments = vec!["play", "--sheet", "bench.sheet", "a.words"];
        if drops {
            arguments.push("--drops");
        }
        let ended = folder.kav(&arguments);
        assert_same(&ended.out, &Setup::bench_cases(drops).replay(&words), "together");
    }
}

/// Positions of eight digits, which are wider than their column.
#[test]
fn far_positions() {
    let folder = Folder::new("far");
    folder.write("bench.sheet", BENCH);
    let before = 9_999_990;
    let words = [vec![256; before], said("L7M?*L7M?*L7q??*L7q"), vec![256]].concat();
    folder.write("a.words", file_of(&words));
    folder.kav(&["play", "--drops", "--sheet", "bench.sheet", "a.words"]).prints(
        "--card L7\n--revision 1\n--sheet bench.sheet\n--scan none\n--drops\n     AT  MESSAGE      REPLY       CAUSE\n\
         9999994  L7M?*        L7M02311A*\n\
         9999999  L7M?*        L7M02311A*\n\
         10000005  L7q??*      -           not well formed\n              ^\n\
         10000009  L7q~                    dropped\n\
         END 2 heard, 1 not well formed, 1 dropped\n",
    );
}
