//! `kav write` and `kav read` beside the reference's writer and reader, on random messages and replies.

use crate::random::seed;
use crate::replay::{assert_same, text_of};
use crate::tools::{file_of, Folder};
use kavtziron_host::gen::{self, Rng};
use kavtziron_host::reference::calls;

/// A number with all its decimals.
fn number(units: i32, decimals: usize, minus: bool) -> String {
    let digits = format!("{:0width$}", units.abs(), width = decimals + 1);
    let (whole, fraction) = digits.split_at(digits.len() - decimals);
    let sign = if minus { "-" } else { "" };
    if decimals == 0 {
        return format!("{sign}{whole}");
    }
    format!("{sign}{whole}.{fraction}")
}

/// A message by its parts, and as the reference writes it; none where it refuses.
fn message(rng: &mut Rng) -> (String, Option<Vec<u16>>) {
    let letter = rng.pick(b"LLLLRRRRAl");
    let address = rng.pick(&[0, 1, 7, 9, 10, 42, 99, 100]);
    let identifier = rng.pick(&(b'!'..=b'~').collect::<Vec<u8>>());
    let kind = rng.pick(b"????+-II#####!");
    let (units, decimals) = (rng.pick(&[0, 1, 15, 231, 9_999, 10_000]), rng.below(5));
    let minus = rng.percent(50);
    let mut text = format!("{}{address} {} {}", char::from(letter), char::from(identifier), char::from(kind));
    if kind == b'#' {
        text += &format!(" {}", number(units, decimals, minus));
    }
    let (signed, minus_zero) = (if minus { -units } else { units }, u32::from(minus && units == 0));
    let mut out = [0; 11];
    let count =
        calls::write(letter, address, identifier, kind, signed, decimals as u32, minus_zero, &mut out);
    let words = usize::try_from(count).ok().map(|count| out[..count].iter().map(|byte| u16::from(*byte)));
    (text, words.map(Iterator::collect))
}

#[test]
fn written_as_by_the_reference() {
    let folder = Folder::new("written-random");
    let seed = seed();
    let mut rng = Rng::of_case(seed, 4, 0);
    let (mut asked, mut words, mut shown, mut refused) = (String::new(), Vec::new(), String::new(), 0);
    for index in 0..4_000 {
        let (text, message) = message(&mut rng);
        match message {
            Some(message) => {
                asked += &format!("{text}\n");
                shown += &format!("{}\n", text_of(&message));
                words.extend(message);
            }
            None if refused < 200 => {
                refused += 1;
                let ended = folder.kav_reads(&["write", "--spelled", "-"], text.as_bytes());
                assert_eq!(ended.status, 2, "seed {seed}, message {index}: {text}");
                ended.refuses(&["standard input: line 1: expected a message"]);
            }
            None => {}
        }
    }
    assert!(refused == 200 && shown.lines().count() > 500, "seed {seed}");
    let ended = folder.kav_reads(&["write", "--spelled", "-"], asked.as_bytes());
    assert_same(&ended.out, &shown, format!("seed {seed}"));
    let ended = folder.kav_reads(&["write", "-"], asked.as_bytes());
    assert!(ended.bytes == file_of(&words) && ended.status == 0, "seed {seed}: the words");
    // The spelled messages are taken too, and give the same.
    let ended = folder.kav_reads(&["write", "--spelled", "-"], shown.as_bytes());
    assert_same(&ended.out, &shown, format!("seed {seed}, spelled"));
}

/// What is printed, and what is said, for words up to each `*`.
fn read(words: &[u16]) -> (String, String) {
    let star = u16::from(gen::on_line(b'*'));
    let (mut out, mut err, mut count, mut at) =
        ("AT CARD ID MARK NUMBERS\n".to_string(), String::new(), 0, 0);
    for piece in words.split_inclusive(|word| *word == star) {
        let bytes: Option<Vec<u8>> = piece.iter().map(|word| u8::try_from(*word).ok()).collect();
        let mut answer = [0; calls::ANSWER];
        if bytes.is_some_and(|bytes| calls::read(&bytes, &mut answer) == calls::READ) {
            count += 1;
            let [letter, identifier, mark] = [0, 2, 3].map(|place| char::from(answer[place] as u8));
            out += &format!("{} {letter}{} {identifier} {mark}", at + piece.len() - 1, answer[1]);
            for place in 0..answer[4] as usize {
                let (units, decimals) = (answer[5 + 2 * place], answer[6 + 2 * place] as usize);
                out += &format!(" {}", number(units, decimals, units < 0));
            }
            out.push('\n');
        } else {
            let text = text_of(piece);
            err += &format!("kav: standard input: word {at}: expected one whole reply, found {text}\n");
        }
        at += piece.len();
    }
    (out + &format!("END {count}\n"), err)
}

#[test]
fn read_as_by_the_reference() {
    let folder = Folder::new("read-random");
    let seed = seed();
    for index in 0..60 {
        let mut rng = Rng::of_case(seed, 5, index);
        let mut words: Vec<u16> = Vec::new();
        for _ in 0..rng.below(100) {
            let reply = if rng.percent(70) { gen::reply(&mut rng) } else { gen::scan_reply(&mut rng) };
            let from = words.len();
            words.extend(gen::words_of(&reply));
            if index % 2 == 0 && rng.percent(20) {
                gen::edit(&mut rng, &mut words, from);
            }
        }
        let (out, err) = read(&words);
        let ended = folder.kav_reads(&["read", "-"], &file_of(&words));
        assert_same(&ended.out, &out, format!("seed {seed}, replies {index}"));
        assert_same(&ended.err, &err, format!("seed {seed}, replies {index}"));
        assert_eq!(ended.status, if err.is_empty() { 0 } else { 2 }, "seed {seed}, replies {index}");
    }
}
