//! Where the command writes: standard output, or a file that isn't there yet. There is no way to overwrite one.

use super::args::Options;
use super::{failure, Failure};
use std::fs::{File, OpenOptions};
use std::io::{self, BufWriter, Write};
use std::os::fd::{AsFd, AsRawFd, BorrowedFd, RawFd};
use std::sync::atomic::{AtomicBool, Ordering};

pub struct Output {
    name: String,
    to: BufWriter<File>,
    is_file: bool,
}

/// Whether each standard stream was closed before the command began.
static CLOSED: [AtomicBool; 3] = [const { AtomicBool::new(false) }; 3];

/// Looks which standard streams are closed. The runtime puts `/dev/null` in their place before `main`, so it has to be called
/// before that.
pub extern "C" fn look_at_streams() {
    for (stream, closed) in CLOSED.iter().enumerate() {
        // SAFETY: only a copy is asked for, which fails where the stream is closed.
        let copy = unsafe { BorrowedFd::borrow_raw(stream as RawFd) }.try_clone_to_owned();
        closed.store(copy.is_err(), Ordering::Relaxed);
    }
}

/// A standard stream as a file, which hides no failure.
pub fn stream(stream: impl AsFd, name: &str) -> Result<File, Failure> {
    if CLOSED.get(stream.as_fd().as_raw_fd() as usize).is_some_and(|closed| closed.load(Ordering::Relaxed)) {
        return failure(name, "it is closed");
    }
    stream.as_fd().try_clone_to_owned().map(File::from).or_else(|why| failure(name, why))
}

impl Output {
    /// Opened after the input was read, so that a failure before leaves no file.
    pub fn open(options: &Options) -> Result<Output, Failure> {
        let Some(file) = options.value("--out") else {
            return Output::standard();
        };
        let name = file.to_string_lossy().into_owned();
        if file == "-" {
            return failure("--out -", "expected a file: standard output is where it goes without --out");
        }
        match OpenOptions::new().write(true).create_new(true).open(file) {
            Ok(opened) => Ok(Output { name, to: BufWriter::new(opened), is_file: true }),
            Err(why) if why.kind() == io::ErrorKind::AlreadyExists => {
                failure(name, "it exists already: expected a new name, since kav never overwrites")
            }
            Err(why) => failure(name, why),
        }
    }

    pub fn standard() -> Result<Output, Failure> {
        let name = "standard output".to_string();
        let to = BufWriter::new(stream(io::stdout(), &name)?);
        Ok(Output { name, to, is_file: false })
    }

    fn failed<T>(&self, why: io::Error) -> Result<T, Failure> {
        let left = if self.is_file { "; what is in the file is not the whole" } else { "" };
        failure(&self.name, format!("{why}{left}"))
    }

    pub fn put(&mut self, bytes: &[u8]) -> Result<(), Failure> {
        self.to.write_all(bytes).or_else(|why| self.failed(why))
    }

    /// Everything is written, or it is a failure.
    pub fn finish(mut self) -> Result<(), Failure> {
        self.to.flush().or_else(|why| self.failed(why))
    }
}
