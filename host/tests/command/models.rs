//! The instruments of `docs/models.md`: its tables, as `--model` and as a bench sheet.

use crate::replay::{assert_same, Setup};
use crate::tools::{file_of, repository, said, Folder};
use std::fs;

/// A sheet of `docs/models.md`.
pub struct Model {
    pub name: &'static str,
    letter: char,
    rows: Vec<[i32; 6]>,
    initial: Vec<i32>,
    scan: String,
}

/// The cells of a table's line.
fn cells(line: &str) -> Vec<&str> {
    line.trim().trim_matches('|').split(" |").map(str::trim).collect()
}

/// The lines of the table under a heading, with the columns' names first.
fn table<'a>(text: &'a str, heading: &str) -> (Vec<&'a str>, Vec<Vec<&'a str>>) {
    let from = text.find(heading).unwrap_or_else(|| panic!("docs/models.md has no {heading}"));
    let mut lines = text[from..].lines().skip_while(|line| !line.starts_with('|'));
    let names = cells(lines.next().unwrap());
    let rows: Vec<Vec<&str>> = lines.skip(1).take_while(|line| line.starts_with('|')).map(cells).collect();
    (names, rows)
}

/// The character between backquotes, of which a backquote itself has two and a blank.
fn quoted(cell: &str) -> char {
    let inner = cell.trim_matches('`').trim();
    inner.chars().next().unwrap_or('`')
}

pub fn models() -> [Model; 3] {
    let text = fs::read_to_string(repository("docs/models.md")).unwrap();
    let (names, scans) = table(&text, "## Identifiers for the scan of request 1");
    assert_eq!(names[..2], ["Instrument", "Identifiers"]);
    let scan_of = |instrument: &str| {
        let row = scans.iter().find(|row| row[0] == instrument).unwrap();
        if row[1] == "none" {
            String::new()
        } else {
            row[1].split(' ').map(quoted).collect()
        }
    };
    let model = |name, heading: &str, letter, count, scan: &str| {
        let (names, lines) = table(&text, heading);
        assert_eq!(lines.len(), count, "{heading}");
        let column = |name: &str| names.iter().position(|found| *found == name).unwrap();
        let (mut rows, mut initial) = (Vec::new(), Vec::new());
        for line in &lines {
            let number = |name: &str| -> i32 {
                let cell = line[column(name)].trim_end_matches([' ', 'C', 'D']);
                cell.parse().unwrap_or_else(|_| panic!("{name} in {line:?}"))
            };
            assert_eq!(quoted(line[column("Id")]) as i32, number("Code"), "{line:?}");
            rows.push(["Code", "Access", "Decimals", "Step", "Least", "Greatest"].map(number));
            initial.push(number("Initial"));
        }
        Model { name, letter, rows, initial, scan: scan_of(scan) }
    };
    [
        model("dcp100", "## DCP 100 controller, letter `L`", 'L', 28, "DCP 100 controller, two outputs"),
        model("programmer", "## DCP 100 programmer, letter `R`", 'R', 22, "DCP 100 programmer"),
        model("udi1500", "## UDI 1500, letter `L`", 'L', 19, "UDI 1500"),
    ]
}

impl Model {
    /// The card at address 7.
    pub fn setup(&self, head: &[String]) -> Setup {
        let mut card = vec![0; 23];
        (card[0], card[1], card[16], card[22]) = (self.letter as i32, 7, self.scan.len() as i32, 1);
        self.scan.bytes().zip(&mut card[17..22]).for_each(|(code, place)| *place = i32::from(code));
        let mut values = vec![0; 128];
        self.rows.iter().zip(&self.initial).for_each(|(row, value)| values[row[0] as usize] = *value);
        Setup { head: head.to_vec(), cards: card, bench: self.rows.concat(), values, drops: false }
    }

    fn scan_shown(&self) -> &str {
        if self.scan.is_empty() {
            "none"
        } else {
            &self.scan
        }
    }

    /// Queries on every identifier first; then settings about the ends of each row with each count of decimals,
    /// and a step up and down.
    fn recording(&self) -> Vec<u16> {
        let head = format!("{}7", self.letter);
        let mut text = format!("{head}??*{head}]?*");
        for code in (33..=126_u8).filter(|code| !code.is_ascii_digit() && !b"*?".contains(code)) {
            text += &format!("{head}{}?*", char::from(code));
        }
        for [code, _, decimals, step, least, greatest] in &self.rows {
            let head = format!("{head}{}", char::from(*code as u8));
            text += &format!("{head}+*{head}-*{head}-*");
            for number in [least - 1, *least, least + 1, greatest - 1, *greatest, greatest + 1, least + step]
            {
                if number.abs() <= 9_999 {
                    let code = decimals + if number < 0 { 5 } else { 0 };
                    text += &format!("{head}#{:04}{code}*{head}I*{head}+*{head}-*", number.abs());
                }
            }
            (0..4).for_each(|decimals| text += &format!("{head}#{:04}{decimals}*", least.max(&0)));
        }
        said(&text)
    }

    /// The reply to a query of each row, by the table alone.
    fn replies(&self) -> Vec<String> {
        let rows = self.rows.iter().zip(&self.initial);
        rows.map(|([code, access, decimals, ..], value)| {
            let (value, mark) = if *access == 3 { (&0, 'N') } else { (value, 'A') };
            let decimals = if *access == 3 { &0 } else { decimals };
            let code_of_data = decimals + if *value < 0 { 5 } else { 0 };
            format!("{}7{}{:04}{code_of_data}{mark}*", self.letter, *code as u8 as char, value.abs())
        })
        .collect()
    }

    /// Plays the recording, and finds each row's reply and the scan's in the output.
    fn compare(&self, folder: &Folder, arguments: &[&str], head: &[String]) {
        let words = self.recording();
        folder.write("a.words", file_of(&words));
        let ended = folder.kav(&[&["play"], arguments, &["a.words"]].concat());
        assert_eq!((ended.status, ended.err.as_str()), (0, ""), "{}", self.name);
        assert_same(&ended.out, &self.setup(head).replay(&words), self.name);
        for reply in self.replies() {
            let line = format!("{}7{}?*", self.letter, &reply[2..3]);
            let line =
                ended.out.lines().find(|found| found.split_ascii_whitespace().nth(1) == Some(&line)).unwrap();
            assert_eq!(line.split_ascii_whitespace().nth(2), Some(reply.as_str()), "{}", self.name);
        }
        let scan = ended.out.lines().find(|line| line.contains("7]?*")).unwrap();
        let values: String = self
            .scan
            .chars()
            .map(|name| {
                let at = self.replies().into_iter().find(|reply| reply[2..].starts_with(name)).unwrap();
                at[3..8].to_string()
            })
            .collect();
        let wanted = match self.scan.len() {
            0 => format!("{}7]00000N*", self.letter),
            count => format!("{}7]{}{values}A*", self.letter, 5 * count),
        };
        assert_eq!(scan.split_ascii_whitespace().nth(2), Some(wanted.as_str()), "{}", self.name);
    }
}

/// The tables as bench sheets: what they say of each row, without the archive's own.
#[test]
fn tables_as_sheets() {
    let folder = Folder::new("tables");
    for model in models() {
        let number = |units: &i32, decimals: i32| {
            let (size, scale) = (units.unsigned_abs(), 10_u32.pow(decimals as u32));
            let sign = if *units < 0 { "-" } else { "" };
            match decimals {
                0 => format!("{units}"),
                _ => format!("{sign}{}.{:0width$}", size / scale, size % scale, width = decimals as usize),
            }
        };
        let mut sheet = String::new();
        for ([code, access, decimals, step, least, greatest], value) in model.rows.iter().zip(&model.initial)
        {
            let numbers = [step, least, greatest, value].map(|units| number(units, *decimals)).join(" ");
            let access = ["r", "rw", "w"][*access as usize - 1];
            sheet += &format!("{} {access} {decimals} {numbers}\n", *code as u8 as char);
        }
        folder.write("model.sheet", sheet);
        let card = format!("{}7", model.letter);
        let scan = model.scan_shown();
        let head = [
            format!("--card {card}"),
            "--revision 1".to_string(),
            "--sheet model.sheet".to_string(),
            format!("--scan {scan}"),
        ];
        model.compare(&folder, &["--sheet", "model.sheet", "--card", &card, "--scan", scan], &head);
    }
}

#[test]
fn models_as_in_the_docs() {
    let folder = Folder::new("models");
    for model in models() {
        let card = format!("{}7", model.letter);
        let head = [
            format!("--model {}", model.name),
            format!("--card {card}"),
            "--revision 1".to_string(),
            format!("--scan {}", model.scan_shown()),
        ];
        model.compare(&folder, &["--model", model.name, "--card", &card], &head);
        // The model's letter and 7 are the default.
        model.compare(&folder, &["--model", model.name], &head);
        if model.name == "dcp100" {
            model.compare(&folder, &[], &head);
        }
    }
}
