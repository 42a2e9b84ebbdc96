//! Random recordings, sheets and cards, each played by the command and by the reference. `KAV_SEED` names another seed.

use crate::replay::{assert_same, shown, Setup};
use crate::tools::{file_of, Folder};
use kavtziron_host::gen::{self, Bus, Rng, World};
use kavtziron_host::reference::calls;
use kavtziron_host::reference::listing;
use std::path::Path;

const SEED: u64 = 20_260_731;
const RECORDINGS: u64 = 400;
const PAIRS: u64 = 120;
const LISTINGS: u64 = 300;

pub fn seed() -> u64 {
    std::env::var("KAV_SEED").map_or(SEED, |seed| seed.parse().expect("KAV_SEED is a number"))
}

/// A number in units of its last decimal, with all its decimals or without some zeros at its end.
fn number(rng: &mut Rng, units: i32, decimals: i32) -> String {
    let sign = if units < 0 { "-" } else { "" };
    let (size, scale) = (units.unsigned_abs(), 10_u32.pow(decimals as u32));
    let mut text = format!("{sign}{}", size / scale);
    if decimals > 0 {
        text += &format!(".{:0width$}", size % scale, width = decimals as usize);
        while rng.percent(30) && text.contains('.') && text.ends_with(['0', '.']) {
            text.pop();
        }
        if text.ends_with('.') {
            text.pop();
        }
    }
    text
}

/// A sheet's text with other values, and the settings that put the world's in their place.
fn sheet_and_sets(rng: &mut Rng, world: &World) -> (String, Vec<String>) {
    let (mut text, mut sets) = (String::new(), Vec::new());
    for row in gen::rows_of(&world.bench) {
        let [identifier, access, decimals, step, least, greatest] = row;
        let name = char::from(identifier as u8);
        let value = world.values[identifier as usize];
        let mut first = value;
        if rng.percent(40) {
            first = gen::value(rng, &row);
            if rng.percent(10) {
                let other = gen::value(rng, &row);
                sets.push(format!("{name}={}", number(rng, other, decimals)));
            }
            sets.push(format!("{name}={}", number(rng, value, decimals)));
        }
        let access = ["r", "rw", "w"][access as usize - 1];
        let numbers = [step, least, greatest, first].map(|units| number(rng, units, decimals));
        let blank = rng.pick(&[" ", "  ", "\t", " \t "]);
        if rng.percent(5) {
            text += rng.pick(&["// a remark\n", "\n", "  // m rw 1 0.5 0.0 100.0 2.0\n"]);
        }
        text += &format!("{name} {access} {decimals}{blank}{}", numbers.join(blank));
        text += rng.pick(&["\n", "\n", "\n", " \n", "\r\n"]);
    }
    (text, sets)
}

/// How many rows a sheet gets.
fn some_rows(rng: &mut Rng) -> usize {
    match rng.below(8) {
        0 => rng.below(2),
        1 => 64,
        2 => rng.below(65),
        _ => 1 + rng.below(8),
    }
}

/// The identifiers that a card names for its scan.
fn scan_of(card: &[i32]) -> String {
    let named: String = card[17..17 + card[16] as usize].iter().map(|code| char::from(*code as u8)).collect();
    // `none` in the option is no scan, so these four identifiers can't be asked for.
    assert_ne!(named, "none");
    named
}

/// The settings of a world's card: arguments, and the lines that show them.
struct Settings {
    arguments: Vec<String>,
    head: Vec<String>,
}

impl Settings {
    fn add(&mut self, rng: &mut Rng, option: &str, value: &str) {
        self.head.push(format!("{option} {value}"));
        if rng.percent(80) {
            self.arguments.extend([option.to_string(), value.to_string()]);
        } else {
            self.arguments.push(format!("{option}={value}"));
        }
    }

    /// Writes the sheet. The card or cards are named as given.
    fn of(rng: &mut Rng, folder: &Folder, world: &World, cards: [&str; 2], drops: bool) -> Settings {
        let (sheet, sets) = sheet_and_sets(rng, world);
        folder.write("random.sheet", sheet);
        let mut settings = Settings { arguments: vec!["play".to_string()], head: Vec::new() };
        settings.add(rng, cards[0], cards[1]);
        settings.add(rng, "--revision", &world.card[22].to_string());
        settings.add(rng, "--sheet", "random.sheet");
        match scan_of(&world.card).as_str() {
            "" if rng.percent(50) => settings.head.push("--scan none".to_string()),
            "" => settings.add(rng, "--scan", "none"),
            named => settings.add(rng, "--scan", named),
        }
        for set in sets {
            settings.add(rng, "--set", &set);
        }
        if drops {
            settings.head.push("--drops".to_string());
            settings.arguments.insert(1, "--drops".to_string());
        }
        settings
    }
}

fn length(rng: &mut Rng, index: u64) -> usize {
    match index % 8 {
        0 => index as usize / 8,
        1 | 2 => rng.below(200),
        3 | 4 => rng.below(2_000),
        5 => rng.pick(&[4_094, 4_095, 4_096, 4_097, 8_191, 8_192, 8_193, 20_000]),
        _ => rng.below(20_001),
    }
}

/// Plays words that are lent as a file, at standard input, or as text.
fn played(rng: &mut Rng, folder: &Folder, settings: &Settings, words: &[u16]) -> String {
    let mut text = String::new();
    for word in words {
        text += &shown(*word);
        if rng.percent(3) {
            text.push(rng.pick(&[' ', '\n', '\t', '\r']));
        }
    }
    let mut arguments: Vec<&str> = settings.arguments.iter().map(String::as_str).collect();
    let (name, bytes) = match rng.below(6) {
        0 => ("a.text", text.into_bytes()),
        1 => ("a.txt", text.into_bytes()),
        2 => {
            arguments.push("--text");
            ("a.recording", text.into_bytes())
        }
        _ => (rng.pick(&["a.words", "a.recording"]), file_of(words)),
    };
    folder.write(name, &bytes);
    let ended = if rng.percent(30) && !name.ends_with("t") {
        arguments.push("-");
        folder.kav_reads(&arguments, &bytes)
    } else {
        arguments.push(name);
        folder.kav(&arguments)
    };
    assert_eq!((ended.status, ended.err.as_str()), (0, ""), "{arguments:?}");
    ended.out
}

/// Compares, and keeps the recording and the sheet where they differ.
fn compare(folder: &Folder, settings: &Settings, words: &[u16], what: String, got: &str, wanted: &str) {
    if got != wanted {
        let kept = Path::new(env!("CARGO_MANIFEST_DIR")).join("target");
        std::fs::write(kept.join("failing-recording.words"), file_of(words)).unwrap();
        std::fs::copy(folder.path("random.sheet"), kept.join("failing-recording.sheet")).unwrap();
        let what = format!("{what}, target/failing-recording, kav {}", settings.arguments.join(" "));
        assert_same(got, wanted, what);
    }
}

#[test]
fn recordings_as_by_the_reference() {
    let folder = Folder::new("random");
    let seed = seed();
    let mut lines = 0;
    for index in 0..RECORDINGS {
        let mut rng = Rng::of_case(seed, 1, index);
        let rng = &mut rng;
        let rows = some_rows(rng);
        let mut world = World::with_rows(rng, rows, 0);
        world.any_revision(rng);
        let named = rng.pick(&[0, 4, 5]);
        world.scan(rng, named);
        let length = length(rng, index);
        let mut words = match rng.percent(15) {
            true => gen::babble(rng, length),
            false => gen::recording(rng, &world, length, gen::ROUGH),
        };
        if rng.percent(30) {
            gen::zeros(rng, &mut words);
        }
        let (letter, address) = (char::from(world.card[0] as u8), world.card[1]);
        let zero = if address < 10 && rng.percent(30) { "0" } else { "" };
        let drops = rng.percent(70);
        let settings =
            Settings::of(rng, &folder, &world, ["--card", &format!("{letter}{zero}{address}")], drops);
        let setup = Setup {
            head: settings.head.clone(),
            cards: world.card.clone(),
            bench: world.bench.clone(),
            values: world.values.clone(),
            drops,
        };
        let (got, wanted) = (played(rng, &folder, &settings, &words), setup.replay(&words));
        lines += wanted.lines().count();
        compare(&folder, &settings, &words, format!("seed {seed}, recording {index}"), &got, &wanted);
    }
    // Most of them are heard, so that it can't pass for want of lines.
    assert!(lines > 100_000, "seed {seed}: {lines} lines in all");
}

#[test]
fn pairs_as_by_the_reference() {
    let folder = Folder::new("pairs");
    let seed = seed();
    let mut lines = 0;
    for index in 0..PAIRS {
        let mut rng = Rng::of_case(seed, 2, index);
        let rng = &mut rng;
        let rows = some_rows(rng);
        let mut world = World::with_rows(rng, rows, 0);
        world.any_revision(rng);
        let named = rng.pick(&[0, 4, 5]);
        world.scan(rng, named);
        let count = rng.pick(&[1, 2, 2, 3, 5, 10, 31, 32]);
        // Their letters and addresses; all else is the same at every card.
        let mut bus = Bus::with_sheets(rng, world.clone(), count);
        for card in bus.cards.chunks_exact_mut(23) {
            card[2..].copy_from_slice(&world.card[2..]);
        }
        let length = length(rng, index) / if count > 5 { 8 } else { 2 };
        let mixture = rng.pick(&[gen::ROUGH, gen::PAIR]);
        let words = bus.recording(rng, length, mixture);
        let name = |card: &[i32]| format!("{}{}", char::from(card[0] as u8), card[1]);
        let cards = bus.cards.chunks_exact(23).map(name).collect::<Vec<_>>().join(",");
        let settings = Settings::of(rng, &folder, &world, ["--cards", &cards], false);
        let setup = Setup {
            head: settings.head.clone(),
            cards: bus.cards.clone(),
            bench: world.bench.clone(),
            values: world.values.repeat(count),
            drops: false,
        };
        let (got, wanted) = (played(rng, &folder, &settings, &words), setup.replies(&words));
        lines += wanted.lines().count();
        compare(&folder, &settings, &words, format!("seed {seed}, pair {index}"), &got, &wanted);
    }
    assert!(lines > 5_000, "seed {seed}: {lines} lines in all");
}

/// `kav list` on files with wrong words and lone bytes, and `kav normal --words` where there are none.
#[test]
fn listings_as_by_the_reference() {
    let folder = Folder::new("listings");
    let seed = seed();
    for index in 0..LISTINGS {
        let mut rng = Rng::of_case(seed, 3, index);
        let rng = &mut rng;
        let world = World::new(rng);
        let length = length(rng, index);
        let mut words = match rng.percent(20) {
            true => gen::babble(rng, length),
            false => gen::recording(rng, &world, length, gen::ROUGH),
        };
        let what = format!("seed {seed}, listing {index}");
        let mut room = vec![0; words.len()];
        let count = calls::normal_form(&words, &mut room) as usize;
        let normal = folder.kav_reads(&["normal", "-"], &file_of(&words));
        assert!(normal.bytes == file_of(&room[..count]) && normal.status == 0, "{what}: the normal form");
        for _ in 0..rng.pick(&[0, 0, 0, 1, 2]) {
            if !words.is_empty() {
                let at = rng.below(words.len());
                words[at] = gen::wrong_word(rng);
            }
        }
        let mut bytes = file_of(&words);
        if rng.percent(20) {
            bytes.push(rng.next() as u8);
        }
        folder.write("a.words", &bytes);
        let mut wanted = Vec::new();
        listing::list(&bytes[..], &mut wanted).unwrap();
        let ended = folder.kav(&["list", "a.words"]);
        assert_same(&ended.out, &String::from_utf8_lossy(&wanted), &what);
        let is_whole = bytes.len().is_multiple_of(2) && words.iter().all(|word| *word <= 256);
        assert_eq!((ended.status, ended.err.is_empty()), (if is_whole { 0 } else { 2 }, is_whole), "{what}");
    }
}
