//! The transcripts of `samples/collection`: each is what the reference says of its recording, and `kav verify` finds them the same.

use crate::models::models;
use crate::replay::{assert_same, Setup};
use crate::tools::{repository, words_in, Folder};
use kavtziron_host::gen::on_line;
use std::fs;
use std::path::Path;

/// The card or cards that the head of a transcript names, without the command.
fn setup(head: &[String]) -> Setup {
    let value = |name: &str| head.iter().find_map(|line| line.strip_prefix(name)?.strip_prefix(' '));
    let mut setup = match value("--model") {
        Some(name) => models().iter().find(|model| model.name == name).expect(name).setup(head),
        None => Setup { head: head.to_vec(), ..Setup::bench_cases(false) },
    };
    setup.drops = head.iter().any(|line| line == "--drops");
    setup.cards[22] = value("--revision").unwrap().parse().unwrap();
    for set in head.iter().filter_map(|line| line.strip_prefix("--set ")) {
        let (identifier, number) = set.split_once('=').unwrap();
        // Each number has the decimals of its row.
        let number: i32 = number.replace('.', "").parse().unwrap();
        setup.values[usize::from(identifier.as_bytes()[0])] = number;
    }
    let (row, values) = (setup.cards.clone(), setup.values.clone());
    let named = value("--cards").or_else(|| value("--card")).unwrap();
    setup.cards.clear();
    for card in named.split(',') {
        let mut row = row.clone();
        (row[0], row[1]) = (i32::from(card.as_bytes()[0]), card[1..].parse().unwrap());
        setup.cards.extend(row);
    }
    setup.values = values.repeat(named.split(',').count());
    setup
}

/// The words of a text: blanks and line ends don't count, `~` is a silence, `{4C}` a byte in hex.
fn words_of_text(text: &str) -> Vec<u16> {
    let (mut words, mut rest) = (Vec::new(), text);
    while let Some(character) = rest.chars().next() {
        let mut length = 1;
        match character {
            ' ' | '\n' => {}
            '~' => words.push(256),
            '{' => {
                words.push(u16::from_str_radix(&rest[1..3], 16).unwrap());
                length = 4;
            }
            _ => words.push(u16::from(on_line(character as u8))),
        }
        rest = &rest[length..];
    }
    words
}

fn recording(transcript: &Path) -> Vec<u16> {
    match fs::read(transcript.with_extension("words")) {
        Ok(bytes) => words_in(&bytes),
        Err(_) => words_of_text(&fs::read_to_string(transcript.with_extension("text")).unwrap()),
    }
}

#[test]
fn transcripts_as_by_the_reference() {
    let mut count = 0;
    for entry in fs::read_dir(repository("samples/collection")).unwrap() {
        let file = entry.unwrap().path();
        if file.extension().is_none_or(|ending| ending != "transcript") {
            continue;
        }
        let transcript = fs::read_to_string(&file).unwrap();
        let head: Vec<String> =
            transcript.lines().take_while(|line| line.starts_with("--")).map(str::to_string).collect();
        let (setup, words) = (setup(&head), recording(&file));
        let is_pair = head.iter().any(|line| line.starts_with("--cards "));
        let wanted = if is_pair { setup.replies(&words) } else { setup.replay(&words) };
        assert_same(&transcript, &wanted, file.display());
        count += 1;
    }
    assert!(count >= 12, "{count} transcripts");
}

#[test]
fn verified() {
    let folder = Folder::new("collection");
    let ended = folder.kav(&["verify", repository("samples/collection").to_str().unwrap()]);
    assert_eq!((ended.status, ended.err.as_str()), (0, ""), "{}", ended.out);
    assert!(
        ended.out.lines().all(|line| line.starts_with("same ") || line.starts_with("END ")),
        "{}",
        ended.out
    );
}

/// The old emulator rounded to the nearest: a transcript of it is found out at the first such reply.
#[test]
fn the_old_emulator() {
    let folder = Folder::new("old");
    let ended = folder.kav(&["verify", repository("host/tests/command/old-emulator").to_str().unwrap()]);
    assert_eq!((ended.status, ended.err.as_str()), (1, ""));
    let line = "               9  L7m#00231*   L7m00251I* |       9  L7m#00231*   L7m00201I*";
    assert!(
        ended.out.contains("differs  rounding.words, line 6\n") && ended.out.contains(line),
        "{}",
        ended.out
    );
}
