//! The archivist's command, over the calls of the archive: it reads, asks, and prints what it was told.
//! What a word does, what a message is, what is sound and what is refused is decided by the calls alone.

mod args;
mod help;
mod lines;
mod list;
mod messages;
mod output;
mod play;
mod refusal;
mod setup;
mod sheet;
mod verify;
mod words;

use std::ffi::OsString;
use std::io::{self, Write};

pub use lines::Lines;
pub use output::look_at_streams;
pub use play::play;
pub use setup::{Bench, Settings};
pub use words::Alphabet;

/// All is well.
pub const WELL: u8 = 0;
/// A transcript differs from its replay.
pub const DIFFERS: u8 = 1;
/// Bad usage, input that can't be read, or output that can't be written.
pub const FAILED: u8 = 2;

/// What is said on standard error before the command ends with [`FAILED`].
#[derive(Debug)]
pub struct Failure(pub String);

/// A failure that is about a file, or a place in it.
pub fn failure<T>(place: impl std::fmt::Display, what: impl std::fmt::Display) -> Result<T, Failure> {
    Err(Failure(format!("{place}: {what}")))
}

/// Says something on standard error. Where that can't be written to, the status says it alone.
fn say(what: &str) {
    let _ = writeln!(io::stderr(), "kav: {what}");
}

/// Runs the command. Gives the status to end with.
pub fn main(arguments: Vec<OsString>) -> u8 {
    match run(arguments) {
        Ok(status) => status,
        Err(Failure(what)) => {
            say(&what);
            FAILED
        }
    }
}

fn run(mut arguments: Vec<OsString>) -> Result<u8, Failure> {
    if arguments.is_empty() {
        return Err(Failure(format!("expected a command: {}", help::NAMES)));
    }
    let name = arguments.remove(0);
    let name = name.to_string_lossy();
    if matches!(&*name, "--help" | "-h" | "help") {
        return help::print(arguments.first().map_or("", |name| name.to_str().unwrap_or("?")));
    }
    let Some(command) = args::COMMANDS.iter().find(|command| command.name == name) else {
        return Err(Failure(format!("{name}: expected a command: {}", help::NAMES)));
    };
    let options = args::parse(command, arguments)?;
    if options.has("--help") {
        return help::print(command.name);
    }
    (command.run)(&options)
}
