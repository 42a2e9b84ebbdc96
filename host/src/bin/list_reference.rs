//! The listing program in plain Rust: words from standard input, the listing to standard output.

use kavtziron_host::reference::listing::list;
use std::io;
use std::process::ExitCode;

fn main() -> ExitCode {
    let output = io::BufWriter::with_capacity(1 << 16, io::stdout().lock());
    match list(io::stdin().lock(), output) {
        Ok(()) => ExitCode::SUCCESS,
        Err(error) => {
            eprintln!("list_reference: {error}");
            ExitCode::FAILURE
        }
    }
}
