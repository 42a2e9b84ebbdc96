//! A write that fails is never status 0, and no other status than 2; and so is input that is closed.

use crate::tools::{fed, file_of, said, Ended, Folder, KAV};
use std::fs::File;
use std::io::{pipe, Read as _, Write as _};
use std::process::{Command, Stdio};

/// Every command that writes to standard output, on a few words.
const SHORT: [&[&str]; 16] = [
    &["play", "--sheet", "bench.sheet", "a.words"],
    &["play", "--sheet", "bench.sheet", "--cards", "L7,R7", "a.words"],
    &["play", "--help"],
    &["list", "a.words"],
    &["list", "--help"],
    &["normal", "--spelled", "a.words"],
    &["normal", "a.words"],
    &["normal", "--help"],
    &["write", "--spelled", "a.txt"],
    &["write", "a.txt"],
    &["read", "replies.txt"],
    &["verify", "collection"],
    &["verify", "--help"],
    &["help"],
    &["help", "read"],
    &["--help"],
];

/// The same on recordings that give more than a pipe or a buffer holds. The folder of `verify` has one transcript
/// for each line of its output.
const LONG: [&[&str]; 7] = [
    &["play", "--sheet", "bench.sheet", "long.words"],
    &["play", "--sheet", "bench.sheet", "--cards", "L7,R7", "long.words"],
    &["list", "long.words"],
    &["normal", "--spelled", "long.words"],
    &["normal", "long.words"],
    &["write", "--spelled", "long.txt"],
    &["read", "replies-long.txt"],
];

const MESSAGES: usize = 100_000;

fn folder(name: &str) -> Folder {
    let folder = Folder::with_case_e(name);
    folder.write("a.txt", "L7M?*\n");
    folder.write("replies.txt", "L7M02311A*\n");
    folder.write("long.words", file_of(&said(&"L7M?*".repeat(MESSAGES))));
    folder.write("long.txt", "L7M?*\n".repeat(MESSAGES));
    folder.write("replies-long.txt", "L7M02311A*\n".repeat(MESSAGES));
    std::fs::create_dir(folder.path("collection")).unwrap();
    for name in ["a.words", "bench.sheet"] {
        std::fs::copy(folder.path(name), folder.path(&format!("collection/{name}"))).unwrap();
    }
    folder.kav(&["play", "--sheet", "bench.sheet", "a.words", "--out", "collection/a.transcript"]).prints("");
    folder
}

/// The command with this standard output.
fn with_output(folder: &Folder, arguments: &[&str], output: impl Into<Stdio>) -> Ended {
    let mut command = Command::new(KAV);
    command.args(arguments).current_dir(&folder.0).stdin(Stdio::null()).stdout(output).stderr(Stdio::piped());
    Ended::of(command.spawn().unwrap().wait_with_output().unwrap())
}

#[test]
fn all_are_well_without_a_failure() {
    let folder = folder("well");
    for arguments in SHORT.into_iter().chain(LONG) {
        let ended = folder.kav(arguments);
        assert_eq!((ended.status, ended.err.as_str()), (0, ""), "{arguments:?}");
        assert!(!ended.bytes.is_empty());
    }
    for arguments in LONG {
        assert!(folder.kav(arguments).bytes.len() > 500_000, "{arguments:?}");
    }
}

#[test]
fn a_full_device() {
    let folder = folder("full");
    for arguments in SHORT.into_iter().chain(LONG) {
        let full = File::options().write(true).open("/dev/full").unwrap();
        with_output(&folder, arguments, full).fails(&["standard output: ", "No space left"]);
    }
}

/// The reader is gone before the command begins.
#[test]
fn a_closed_pipe() {
    let folder = folder("pipe");
    for arguments in SHORT.into_iter().chain(LONG) {
        let (reader, writer) = pipe().unwrap();
        drop(reader);
        with_output(&folder, arguments, writer).fails(&["standard output: ", "Broken pipe"]);
    }
}

/// The reader takes the first bytes and goes.
#[test]
fn a_pipe_closed_on_the_way() {
    let folder = folder("way");
    for arguments in LONG {
        let mut command = Command::new(KAV);
        command.args(arguments).current_dir(&folder.0).stdin(Stdio::null());
        let mut child = command.stdout(Stdio::piped()).stderr(Stdio::piped()).spawn().unwrap();
        let mut reader = child.stdout.take().unwrap();
        reader.read_exact(&mut [0; 1_000]).unwrap();
        drop(reader);
        Ended::of(child.wait_with_output().unwrap()).fails(&["standard output: ", "Broken pipe"]);
    }
}

/// Standard output is closed before the command begins, and with it the others.
#[test]
fn closed_before_the_start() {
    let folder = folder("closed");
    for arguments in SHORT.into_iter().chain(LONG) {
        let command = format!("\"$KAV\" {}", arguments.join(" "));
        folder.shell(&format!("exec {command} >&-")).refuses(&["standard output: it is closed"]);
        folder.shell(&format!("exec {command} <&- >&-")).refuses(&["standard output: it is closed"]);
        assert_eq!(folder.shell(&format!("exec {command} <&- >&- 2>&-")).status, 2, "{arguments:?}");
        // What is thrown away on purpose is well.
        folder.shell(&format!("exec {command} >/dev/null")).prints("");
        folder.shell(&format!("exec {command} >>/dev/null")).prints("");
    }
    // A file isn't hindered by it.
    folder.shell("exec \"$KAV\" list a.words --out listed >&-").prints("");
    assert_eq!(folder.read("listed"), folder.kav(&["list", "a.words"]).out);
}

/// A file that may not grow beyond a block: what is in it is not the whole, and that is said.
#[test]
fn a_file_that_may_not_grow() {
    let folder = folder("grow");
    for (number, arguments) in LONG.into_iter().enumerate() {
        let out = format!("new-{number}");
        let command = format!("exec \"$KAV\" {} --out {out}", arguments.join(" "));
        let ended = folder.shell(&format!("trap '' XFSZ; ulimit -f 1; {command}"));
        ended.refuses(&[&format!("{out}: "), "File too large", "what is in the file is not the whole"]);
        assert!(std::fs::metadata(folder.path(&out)).unwrap().len() <= 1_024, "{arguments:?}");
    }
    // None at all: nothing but the last flush fails.
    for (number, arguments) in [0, 3, 5, 6, 8, 9, 10].map(|at| SHORT[at]).into_iter().enumerate() {
        let out = format!("none-{number}");
        let command = format!("exec \"$KAV\" {} --out {out}", arguments.join(" "));
        let ended = folder.shell(&format!("trap '' XFSZ; ulimit -f 0; {command}"));
        ended.refuses(&[&format!("{out}: "), "File too large", "what is in the file is not the whole"]);
        assert_eq!(std::fs::metadata(folder.path(&out)).unwrap().len(), 0, "{arguments:?}");
    }
}

#[test]
fn closed_input() {
    let folder = folder("input");
    for command in [
        "play --sheet bench.sheet -",
        "play --text --sheet bench.sheet -",
        "list -",
        "normal -",
        "write -",
        "read -",
    ] {
        folder.shell(&format!("exec \"$KAV\" {command} <&-")).refuses(&["standard input: it is closed"]);
        let ended = folder.shell(&format!("exec \"$KAV\" {command} --out new <&-"));
        ended.refuses(&["standard input: it is closed"]);
        assert!(!folder.has("new"), "{command}");
        assert_eq!(
            folder.shell(&format!("exec \"$KAV\" {command} </dev/null >/dev/null")).status,
            0,
            "{command}"
        );
        // A folder can't be read.
        folder.shell(&format!("exec \"$KAV\" {command} <.")).refuses(&["standard input: ", "directory"]);
    }
}

/// Words at standard input in pieces of all sizes: no half of a word is lost between two of them.
#[test]
fn input_in_pieces() {
    let folder = Folder::with_case_e("pieces");
    let words = said(&"xL07M?*L7m#00231*".repeat(9_000));
    let bytes = file_of(&words);
    let listed = folder.kav_reads(&["list", "-"], &bytes).out;
    assert_eq!(listed.lines().count(), 18_002);
    for piece in [1, 3, 101, 4_095, 65_535, 65_536, 65_537] {
        // Not so many writes of one byte.
        let end = bytes.len().min(4_000 * piece) / 34 * 34;
        let mut child = Command::new(KAV);
        let mut child =
            child.args(["list", "-"]).stdin(Stdio::piped()).stdout(Stdio::piped()).spawn().unwrap();
        let mut input = child.stdin.take().unwrap();
        let part = bytes[..end].to_vec();
        let feeder =
            std::thread::spawn(move || part.chunks(piece).for_each(|part| input.write_all(part).unwrap()));
        let out = String::from_utf8(child.wait_with_output().unwrap().stdout).unwrap();
        feeder.join().unwrap();
        let count = end / 17;
        let lines: Vec<&str> = listed.lines().take(1 + count).collect();
        assert_eq!(out, format!("{}\nEND {count}\n", lines.join("\n")), "pieces of {piece}");
    }
}

/// Standard error that can't be written to doesn't change the status.
#[test]
fn a_full_standard_error() {
    let folder = folder("error");
    for arguments in ["", "bogus", "list missing", "play --card L0 a.words", "read a.txt", "verify missing"] {
        for error in ["/dev/full", "/dev/null"] {
            let mut command = Command::new("sh");
            let script = format!("exec \"$KAV\" {arguments} 2>{error}");
            let output = fed(command.args(["-c", &script]).env("KAV", KAV).current_dir(&folder.0), b"");
            assert_eq!(output.status.code(), Some(2), "kav {arguments} 2>{error}");
        }
    }
}

/// Standard output that is open for reading alone takes nothing.
#[test]
fn an_output_for_reading() {
    let folder = folder("reading");
    for arguments in SHORT.into_iter().chain(LONG) {
        let input = File::open(folder.path("a.words")).unwrap();
        with_output(&folder, arguments, input).fails(&["standard output: "]);
    }
}

/// Standard input that is open for writing alone gives nothing.
#[test]
fn an_input_for_writing() {
    let folder = folder("writing");
    for command in ["play --sheet bench.sheet -", "list -", "normal -", "write -", "read -"] {
        folder.shell(&format!("exec \"$KAV\" {command} 0>written")).refuses(&["standard input: "]);
    }
}

/// `/dev/null` open for both reading and writing, as Python's `subprocess.DEVNULL` has it, isn't a closed stream.
#[test]
fn a_null_device_for_both() {
    let folder = folder("both");
    for arguments in SHORT {
        folder.shell(&format!("exec \"$KAV\" {} 1<>/dev/null", arguments.join(" "))).prints("");
    }
    folder.shell("exec \"$KAV\" list - 0<>/dev/null").prints("AT CARD ID KIND DATA\nEND 0\n");
}
