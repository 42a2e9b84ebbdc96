//! The text form of all 257 words: to text and back.

use crate::replay::{shown, text_of, Setup};
use crate::tools::{file_of, said, words_in, Folder, BENCH};
use kavtziron_host::gen::on_line;
use std::collections::HashSet;

/// The messages in a replay: the second column of each line but the last, and without the marks.
fn messages(out: &str) -> Vec<String> {
    let lines = out.lines().skip_while(|line| line.starts_with("--")).skip(1);
    let lines = lines.filter(|line| !line.starts_with("END") && line.trim() != "^");
    lines.map(|line| line.split_ascii_whitespace().nth(1).unwrap().to_string()).collect()
}

/// Each word stands in a message of its own, `L`, the word and a silence, and is shown with it. What is shown is then
/// played as text, and shown the same. As no two words are shown alike, each text is read as the word that it shows.
#[test]
fn all_words_and_back() {
    let folder = Folder::new("all-words");
    folder.write("bench.sheet", BENCH);
    let mut shown_as = Vec::new();
    for word in 0..=256_u16 {
        folder.write("a.words", file_of(&[said("L"), vec![word, 256]].concat()));
        let ended = folder.kav(&["play", "--drops", "--sheet", "bench.sheet", "a.words"]);
        let message = messages(&ended.out).remove(0);
        // The silence is shown only where the word neither drops the message nor closes it.
        let goes_on = word < 256 && word.count_ones() % 2 == 0 && word != u16::from(on_line(b'*'));
        let text = message.strip_prefix('L').unwrap();
        let text = if goes_on { text.strip_suffix('~').unwrap() } else { text };
        assert_eq!(text, shown(word), "word {word}");
        shown_as.push(text.to_string());
        folder.write("a.txt", format!("L{text}~"));
        let again = folder.kav(&["play", "--drops", "--sheet", "bench.sheet", "a.txt"]);
        assert_eq!(again.out, ended.out, "word {word}");
        assert_eq!((again.status, again.err.as_str()), (0, ""));
    }
    assert_eq!(shown_as.iter().collect::<HashSet<_>>().len(), 257, "two words are shown alike");
}

/// The whole alphabet in one recording, as words and as text; and every byte in hex, in capitals and small letters.
#[test]
fn all_words_together() {
    let folder = Folder::new("all-together");
    folder.write("bench.sheet", BENCH);
    let mut words = Vec::new();
    for word in 0..=256 {
        words.extend([said("L"), vec![word], said("7*R"), vec![256, word]].concat());
    }
    let wanted = Setup::bench_cases(true).replay(&words);
    let hex = |word: &u16, small: bool| match (*word, small) {
        (256, _) => "~".to_string(),
        (word, true) => format!("{{{word:02x}}}"),
        (word, false) => format!("{{{word:02X}}}"),
    };
    folder.write("a.words", file_of(&words));
    folder.write("shown.txt", text_of(&words));
    folder.write("capitals.text", words.iter().map(|word| hex(word, false)).collect::<String>());
    folder.write("small.txt", words.iter().map(|word| hex(word, true) + " \t\r\n").collect::<String>());
    for file in ["a.words", "shown.txt", "capitals.text", "small.txt"] {
        let ended = folder.kav(&["play", "--drops", "--sheet", "bench.sheet", file]);
        assert_eq!(ended.out, wanted, "{file}");
    }
}

/// Words written by the command: what `normal` and `write` hold is what they say with `--spelled`.
#[test]
fn written_words() {
    let folder = Folder::new("written");
    for identifier in (33..=126_u8).filter(|code| !code.is_ascii_digit() && *code != b'*') {
        let body = if identifier == b'?' { "?" } else { "+" };
        let words = said(&format!("R42{}{body}*", char::from(identifier)));
        folder.write("a.txt", text_of(&words) + "\n");
        for command in ["normal", "write"] {
            let ended = folder.kav(&[command, "a.txt"]);
            assert_eq!((words_in(&ended.bytes), ended.status), (words.clone(), 0), "{command} {identifier}");
            folder.kav(&[command, "--spelled", "a.txt"]).prints(&format!("{}\n", text_of(&words)));
        }
        let parts = format!("R42 {} {body}\n", char::from(identifier));
        let ended = folder.kav_reads(&["write", "-"], parts.as_bytes());
        assert_eq!((words_in(&ended.bytes), ended.status), (words, 0), "{parts}");
    }
}
