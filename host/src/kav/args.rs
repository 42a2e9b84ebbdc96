//! The words of the command line: options, each known to its command, and the files named.

use super::{list, messages, play, verify, Failure};
use std::ffi::{OsStr, OsString};

pub struct Command {
    pub name: &'static str,
    /// Options with a value behind them, and without.
    valued: &'static [&'static str],
    plain: &'static [&'static str],
    /// What stands behind the options: exactly one file or folder.
    operand: &'static str,
    pub run: fn(&Options) -> Result<u8, Failure>,
}

pub static COMMANDS: [Command; 6] = [
    Command {
        name: "play",
        valued: &["--model", "--card", "--cards", "--revision", "--scan", "--sheet", "--set", "--out"],
        plain: &["--drops", "--text"],
        operand: "RECORDING",
        run: play::command,
    },
    Command { name: "list", valued: &["--out"], plain: &["--text"], operand: "RECORDING", run: list::list },
    Command {
        name: "normal",
        valued: &["--out"],
        plain: &["--text", "--spelled"],
        operand: "RECORDING",
        run: list::normal,
    },
    Command {
        name: "write",
        valued: &["--out"],
        plain: &["--spelled"],
        operand: "MESSAGES",
        run: messages::write,
    },
    Command { name: "read", valued: &["--out"], plain: &["--text"], operand: "REPLIES", run: messages::read },
    Command {
        name: "verify",
        valued: &["--model", "--card", "--cards", "--revision", "--scan", "--sheet", "--set"],
        plain: &["--drops"],
        operand: "FOLDER",
        run: verify::command,
    },
];

pub struct Options {
    valued: Vec<(&'static str, OsString)>,
    plain: Vec<&'static str>,
    operand: OsString,
}

impl Options {
    /// The value of an option that may be given once.
    pub fn value(&self, name: &str) -> Option<&OsStr> {
        self.valued.iter().find(|(option, _)| *option == name).map(|(_, value)| value.as_os_str())
    }

    /// Every option with a value, in the order given.
    pub fn valued(&self) -> impl Iterator<Item = (&'static str, &OsStr)> {
        self.valued.iter().map(|(option, value)| (*option, value.as_os_str()))
    }

    pub fn has(&self, name: &str) -> bool {
        self.plain.contains(&name)
    }

    /// The file or folder named.
    pub fn operand(&self) -> &OsStr {
        &self.operand
    }
}

/// `--set` alone may be given more than once.
pub const MANY: &str = "--set";

pub fn parse(command: &Command, arguments: Vec<OsString>) -> Result<Options, Failure> {
    let wrong = |what: String| Err(Failure(format!("{what} (kav {} --help shows how)", command.name)));
    let mut options = Options { valued: Vec::new(), plain: Vec::new(), operand: OsString::new() };
    let mut operands = Vec::new();
    let mut arguments = arguments.into_iter();
    let mut only_operands = false;
    while let Some(argument) = arguments.next() {
        let Some(text) =
            argument.to_str().filter(|text| !only_operands && text.starts_with('-') && *text != "-")
        else {
            operands.push(argument);
            continue;
        };
        if text == "--" {
            only_operands = true;
            continue;
        }
        if matches!(text, "--help" | "-h") {
            options.plain.push("--help");
            continue;
        }
        if let Some(&plain) = command.plain.iter().find(|name| **name == text) {
            options.plain.push(plain);
            continue;
        }
        let (name, joined) = match text.split_once('=') {
            Some((name, value)) => (name, Some(OsString::from(value))),
            None => (text, None),
        };
        let Some(&name) = command.valued.iter().find(|known| **known == name) else {
            return wrong(format!("{text}: no such option of kav {}", command.name));
        };
        let Some(value) = joined.or_else(|| arguments.next()) else {
            return wrong(format!("{name}: expected a value behind it"));
        };
        if name != MANY && options.value(name).is_some() {
            return wrong(format!("{name}: given twice"));
        }
        options.valued.push((name, value));
    }
    if options.has("--help") {
        return Ok(options);
    }
    if operands.len() != 1 {
        return wrong(format!("expected one {}, found {}", command.operand, operands.len()));
    }
    options.operand = operands.remove(0);
    Ok(options)
}
