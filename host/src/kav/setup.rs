//! The cards that a recording is played at: an instrument, a bench sheet, letter and address, starting values.
//! Whether they are sound is asked of the archive with no word lent, setting by setting, so that a refusal can be
//! laid to the one that brought it.

use super::args::Options;
use super::sheet::{rows_of, units_of};
use super::words::name_of;
use super::{failure, refusal, Failure};
use crate::abi::{self, CARD, REVISION, SCAN, SETUP, SHEET, VALUES};
use std::ffi::{OsStr, OsString};
use std::path::Path;

/// The instruments, by the number that [`abi::model`] gives them.
const MODELS: [(&str, u32); 3] = [("dcp100", 1), ("programmer", 2), ("udi1500", 3)];

/// The settings as they were given, on the command line or at the head of a transcript.
#[derive(Clone, Default)]
pub struct Settings {
    model: Option<String>,
    card: Option<String>,
    cards: Option<String>,
    revision: Option<String>,
    scan: Option<String>,
    sheet: Option<OsString>,
    sets: Vec<String>,
    pub drops: bool,
}

impl Settings {
    pub fn given(options: &Options) -> Result<Settings, Failure> {
        let mut settings = Settings { drops: options.has("--drops"), ..Settings::default() };
        for (name, value) in options.valued() {
            settings.take(name, value)?;
        }
        Ok(settings)
    }

    /// One setting. False where there is none of that name.
    pub fn take(&mut self, name: &str, value: &OsStr) -> Result<bool, Failure> {
        let text = || match value.to_str() {
            Some(text) => Ok(text.to_string()),
            None => failure(name, "expected plain characters behind it"),
        };
        let place = match name {
            "--sheet" => return once(name, &mut self.sheet, value.to_os_string()),
            "--set" => {
                self.sets.push(text()?);
                return Ok(true);
            }
            "--model" => &mut self.model,
            "--card" => &mut self.card,
            "--cards" => &mut self.cards,
            "--revision" => &mut self.revision,
            "--scan" => &mut self.scan,
            _ => return Ok(false),
        };
        once(name, place, text()?)
    }
}

fn once<T>(name: &str, place: &mut Option<T>, value: T) -> Result<bool, Failure> {
    match place.replace(value) {
        None => Ok(true),
        Some(_) => failure(name, "given twice"),
    }
}

/// Cards on one pair, under one pair of sheets, each with its values.
#[derive(Clone)]
pub struct Bench {
    pub cards: Vec<i32>,
    pub bench_sheet: Vec<i32>,
    pub maker_sheet: Vec<i32>,
    pub values: Vec<i32>,
    /// They were named by `--cards`, be it one: replies alone are given.
    pub is_replies_alone: bool,
    pub drops: bool,
    /// All settings, defaults too, as a transcript has them at its head.
    pub head: Vec<String>,
}

/// Letter and address, as `L7`: an address has one digit or two. Which of them a card can have is asked of the archive.
pub fn letter_and_address(text: &str) -> Option<(u8, u32)> {
    let (&letter, digits) = text.as_bytes().split_first()?;
    let is_plain = (1..=2).contains(&digits.len()) && digits.iter().all(u8::is_ascii_digit);
    is_plain.then(|| (letter, digits.iter().fold(0, |sum, digit| sum * 10 + u32::from(digit - b'0'))))
}

impl Bench {
    /// The refusal that these get, if any.
    fn refusal(&self) -> Option<i64> {
        let (mut cards, mut values, mut counts) = (self.cards.clone(), self.values.clone(), [0; 2]);
        let result = abi::bus_run(
            &mut cards,
            &self.bench_sheet,
            &self.maker_sheet,
            &mut values,
            &[],
            &mut [],
            &mut counts,
        );
        (result < 0).then_some(result)
    }

    /// Nothing, or the refusal laid to a setting. Where the values aren't there yet, the sheets are taken out before, as they
    /// would be refused with each other.
    fn judged(&self, place: impl std::fmt::Display, expected: &str) -> Result<(), Failure> {
        match self.refusal() {
            Some(result) => failure(place, format!("{}; expected {expected}", refusal::in_words(result))),
            None => Ok(()),
        }
    }

    /// Makes them. A sheet's name is taken from a folder, where one is given.
    pub fn new(settings: &Settings, folder: Option<&Path>) -> Result<Bench, Failure> {
        let mut bench = Bench {
            cards: Vec::new(),
            bench_sheet: Vec::new(),
            maker_sheet: Vec::new(),
            values: Vec::new(),
            is_replies_alone: settings.cards.is_some(),
            drops: settings.drops,
            head: Vec::new(),
        };
        let mut values = vec![0; VALUES];
        let mut instrument = [0; SETUP];
        instrument[0] = i32::from(b'L');
        if settings.model.is_some() || settings.sheet.is_none() {
            let name = settings.model.as_deref().unwrap_or("dcp100");
            let Some(&(name, number)) = MODELS.iter().find(|(known, _)| *known == name) else {
                return failure(format!("--model {name}"), "expected dcp100, programmer or udi1500");
            };
            bench.maker_sheet = vec![0; SHEET];
            let length = abi::model(number, &mut bench.maker_sheet, &mut values, &mut instrument);
            bench.maker_sheet.truncate(usize::try_from(length).expect("room for every instrument"));
            bench.head.push(format!("--model {name}"));
        }
        bench.name_cards(settings, instrument[0])?;
        bench.revise(settings)?;
        bench.lay(settings, folder, &mut values)?;
        let count = bench.cards.len() / CARD;
        bench.values = values.repeat(count);
        bench.name_scan(settings, &instrument[1..])?;
        for set in &settings.sets {
            bench.set(set, count)?;
        }
        if bench.drops && bench.is_replies_alone {
            return failure("--drops", "expected --card: several cards give replies alone");
        }
        if bench.drops {
            bench.head.push("--drops".to_string());
        }
        Ok(bench)
    }

    /// Letters and addresses.
    fn name_cards(&mut self, settings: &Settings, letter: i32) -> Result<(), Failure> {
        let default = format!("{}7", char::from(letter as u8));
        let (option, named) = match (&settings.cards, &settings.card) {
            (Some(_), Some(_)) => return failure("--cards", "expected either --card or --cards, not both"),
            (Some(cards), None) => ("--cards", cards.as_str()),
            (None, card) => ("--card", card.as_deref().unwrap_or(&default)),
        };
        let parts: Vec<&str> = if self.is_replies_alone { named.split(',').collect() } else { vec![named] };
        for part in parts {
            let Some((letter, address)) = letter_and_address(part) else {
                return failure(
                    format!("{option} {named}"),
                    "expected L or R and an address of 1 to 99, as L7",
                );
            };
            let mut row = [0; CARD];
            (row[0], row[1], row[REVISION]) = (i32::from(letter), address as i32, 1);
            self.cards.extend_from_slice(&row);
            self.values.extend_from_slice(&[0; VALUES]);
        }
        let maker = std::mem::take(&mut self.maker_sheet);
        self.judged(
            format!("{option} {named}"),
            "L or R and an address of 1 to 99, each card once, 32 at most",
        )?;
        self.maker_sheet = maker;
        self.head.push(format!("{option} {named}"));
        Ok(())
    }

    fn revise(&mut self, settings: &Settings) -> Result<(), Failure> {
        let text = settings.revision.as_deref().unwrap_or("1");
        let place = format!("--revision {text}");
        let &[digit @ b'0'..=b'9'] = text.as_bytes() else { return failure(place, "expected 1 or 2") };
        let revision = i32::from(digit - b'0');
        self.cards.chunks_exact_mut(CARD).for_each(|card| card[REVISION] = revision);
        let maker = std::mem::take(&mut self.maker_sheet);
        self.judged(&place, "1 or 2")?;
        self.maker_sheet = maker;
        self.head.push(place);
        Ok(())
    }

    /// The bench sheet: each row alone, and then behind those before it.
    fn lay(&mut self, settings: &Settings, folder: Option<&Path>, values: &mut [i32]) -> Result<(), Failure> {
        let Some(name) = &settings.sheet else { return Ok(()) };
        let file = folder.map_or_else(|| name.clone(), |folder| folder.join(name).into_os_string());
        if name == "-" || name.as_encoded_bytes().contains(&b'\n') {
            return failure("--sheet", "expected a file, by a name without a line feed");
        }
        let rows = rows_of(&file)?;
        let maker = std::mem::take(&mut self.maker_sheet);
        let mut before = Vec::new();
        for row in &rows {
            values[row.numbers[0] as usize] = row.value;
            self.values = values.repeat(self.cards.len() / CARD);
            let place = format!("{}: line {}", name_of(&file), row.line);
            self.bench_sheet = row.numbers.to_vec();
            self.judged(&place, "a row and a value as document 01 has them, and not one for `]`")?;
            before.extend(row.numbers);
            self.bench_sheet.clone_from(&before);
            self.judged(&place, "an identifier behind the one before, and 64 rows at most")?;
        }
        self.maker_sheet = maker;
        let shown = Path::new(name).file_name().unwrap_or(name).to_string_lossy();
        self.head.push(format!("--sheet {shown}"));
        Ok(())
    }

    /// The scan of the option, or else the instrument's.
    fn name_scan(&mut self, settings: &Settings, instrument: &[i32]) -> Result<(), Failure> {
        let mut numbers = instrument.to_vec();
        if let Some(text) = settings.scan.as_deref() {
            numbers.fill(0);
            if text.is_empty() {
                return failure("--scan", "expected none, or four or five identifiers, as SMWL");
            }
            if text != "none" {
                numbers[0] = text.len() as i32;
                numbers[1..]
                    .iter_mut()
                    .zip(text.bytes())
                    .for_each(|(number, code)| *number = i32::from(code));
            }
        }
        let codes = numbers[1..].iter().filter(|code| **code != 0);
        let named: String = codes.map(|code| char::from(*code as u8)).collect();
        let named =
            settings.scan.clone().unwrap_or(if named.is_empty() { "none".to_string() } else { named });
        self.cards.chunks_exact_mut(CARD).for_each(|card| card[SCAN].copy_from_slice(&numbers));
        let whose = if settings.scan.is_some() { "--scan" } else { "the model's scan" };
        self.judged(
            format!("{whose} {named}"),
            "none, or four or five identifiers with rows that can be read, as SMWL",
        )?;
        self.head.push(format!("--scan {named}"));
        Ok(())
    }

    /// One starting value, at every card.
    fn set(&mut self, set: &str, count: usize) -> Result<(), Failure> {
        let place = format!("--set {set}");
        let parts = set.split_once('=').and_then(|(name, number)| match name.as_bytes() {
            // `=` is an identifier too.
            [identifier] => Some((*identifier, number)),
            [] => number.strip_prefix('=').map(|number| (b'=', number)),
            _ => None,
        });
        let Some((identifier, number)) = parts else {
            return failure(place, "expected an identifier, `=` and a number, as m=2.0");
        };
        let mut row = [0; 6];
        if abi::lookup(&self.bench_sheet, &self.maker_sheet, identifier, &mut row) != 6 {
            return failure(place, format!("there is no row for {}", char::from(identifier)));
        }
        let Some(value) = units_of(number, row[2] as u32) else {
            let decimals = row[2];
            return failure(
                place,
                format!("expected a number, decimals at most {decimals}, digits at most nine"),
            );
        };
        for card in 0..count {
            self.values[card * VALUES + usize::from(identifier)] = value;
        }
        self.judged(&place, "a number in range and on the step of its row")?;
        self.head.push(place);
        Ok(())
    }
}
