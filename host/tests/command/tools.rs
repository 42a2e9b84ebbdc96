//! Folders for a test's files, the command, and words as files hold them.

use kavtziron_host::gen::words_of;
use std::ffi::OsStr;
use std::fs;
use std::io::Write as _;
use std::os::unix::fs::PermissionsExt as _;
use std::path::{Path, PathBuf};
use std::process::{Command, Output, Stdio};

pub const KAV: &str = env!("CARGO_BIN_EXE_kav");

/// The rows of document 01's bench cases, as `samples/bench.sheet` has them.
pub const BENCH: &str =
    "J rw 1 0.5 -10.0 10.0 0.0\nM r 1 0.1 -199.9 999.9 23.1\nZ w 0 1 15 18 15\nm rw 1 0.5 0.0 100.0 2.0\n";

/// A folder of the repository.
pub fn repository(name: &str) -> PathBuf {
    Path::new(env!("CARGO_MANIFEST_DIR")).join("..").join(name)
}

/// The recordings of `samples/`, in order.
pub fn samples() -> Vec<PathBuf> {
    let folder = fs::read_dir(repository("samples")).unwrap();
    let mut files: Vec<PathBuf> = folder.map(|entry| entry.unwrap().path()).collect();
    files.retain(|file| file.extension() == Some(OsStr::new("words")));
    files.sort();
    assert!(files.len() >= 20, "{} recordings in samples", files.len());
    files
}

/// A new folder that is removed at the end. The command runs in it, so that files are named without a path.
pub struct Folder(pub PathBuf);

impl Folder {
    pub fn new(name: &str) -> Folder {
        let path = std::env::temp_dir().join(format!("kav-command-{}-{name}", std::process::id()));
        fs::create_dir(&path).unwrap_or_else(|why| panic!("{}: {why}", path.display()));
        Folder(path)
    }

    /// The same with the bench sheet and `a.words`, which holds bench case e.
    pub fn with_case_e(name: &str) -> Folder {
        let folder = Folder::new(name);
        folder.write("bench.sheet", BENCH);
        folder.write("a.words", file_of(&said("L7m#00231*L7mI*")));
        folder
    }

    pub fn path(&self, name: &str) -> PathBuf {
        self.0.join(name)
    }

    pub fn write(&self, name: &str, bytes: impl AsRef<[u8]>) {
        fs::write(self.path(name), bytes).unwrap();
    }

    pub fn read(&self, name: &str) -> String {
        String::from_utf8(fs::read(self.path(name)).unwrap()).unwrap()
    }

    pub fn has(&self, name: &str) -> bool {
        fs::symlink_metadata(self.path(name)).is_ok()
    }

    /// The command with these arguments, nothing to read at standard input.
    pub fn kav(&self, arguments: &[&str]) -> Ended {
        self.kav_reads(arguments, b"")
    }

    /// The same with standard input.
    pub fn kav_reads(&self, arguments: &[&str], input: &[u8]) -> Ended {
        let mut command = Command::new(KAV);
        Ended::of(fed(command.args(arguments).current_dir(&self.0), input))
    }

    /// A shell's script, in which `$KAV` is the command.
    pub fn shell(&self, script: &str) -> Ended {
        let mut command = Command::new("sh");
        Ended::of(fed(command.args(["-c", script]).env("KAV", KAV).current_dir(&self.0), b""))
    }
}

impl Drop for Folder {
    fn drop(&mut self) {
        // A folder inside may have been left without write permission.
        for entry in fs::read_dir(&self.0).into_iter().flatten().flatten() {
            if entry.file_type().is_ok_and(|kind| kind.is_dir()) {
                let _ = fs::set_permissions(entry.path(), fs::Permissions::from_mode(0o755));
            }
        }
        let _ = fs::remove_dir_all(&self.0);
    }
}

/// Runs a command to its end.
pub fn fed(command: &mut Command, input: &[u8]) -> Output {
    command.stdin(Stdio::piped()).stdout(Stdio::piped()).stderr(Stdio::piped());
    let mut child = command.spawn().unwrap_or_else(|why| panic!("{command:?}: {why}"));
    let mut pipe = child.stdin.take().unwrap();
    let input = input.to_vec();
    // A command that reads nothing may have gone.
    let feeder = std::thread::spawn(move || drop(pipe.write_all(&input)));
    let output = child.wait_with_output().unwrap();
    feeder.join().unwrap();
    output
}

/// How a command ended.
#[derive(Debug)]
pub struct Ended {
    pub status: i32,
    pub bytes: Vec<u8>,
    pub out: String,
    pub err: String,
}

impl Ended {
    pub fn of(output: Output) -> Ended {
        Ended {
            status: output.status.code().unwrap_or_else(|| panic!("{:?}: {output:?}", output.status)),
            out: String::from_utf8_lossy(&output.stdout).into_owned(),
            bytes: output.stdout,
            err: String::from_utf8_lossy(&output.stderr).into_owned(),
        }
    }

    /// All is well: this is the whole output, and nothing is said.
    #[track_caller]
    pub fn prints(&self, out: &str) {
        assert_eq!(self.out, out);
        assert_eq!((self.status, self.err.as_str()), (0, ""));
    }

    /// Status 2, and these are in the one line that is said.
    #[track_caller]
    pub fn fails(&self, parts: &[&str]) {
        assert_eq!(self.status, 2, "{self:?}");
        assert!(self.err.starts_with("kav: ") && self.err.ends_with('\n'), "{self:?}");
        assert_eq!(self.err.lines().count(), 1, "{self:?}");
        for part in parts {
            assert!(self.err.contains(part), "expected {part:?} in {:?}", self.err);
        }
    }

    /// The same, with nothing printed.
    #[track_caller]
    pub fn refuses(&self, parts: &[&str]) {
        self.fails(parts);
        assert_eq!(self.out, "");
    }
}

/// Characters in good parity.
pub fn said(text: &str) -> Vec<u16> {
    words_of(text.as_bytes()).collect()
}

/// Words as a file holds them.
pub fn file_of(words: &[u16]) -> Vec<u8> {
    words.iter().flat_map(|word| [*word as u8, (*word >> 8) as u8]).collect()
}

/// The words of a file.
pub fn words_in(bytes: &[u8]) -> Vec<u16> {
    assert!(bytes.len().is_multiple_of(2));
    bytes.chunks(2).map(|pair| u16::from(pair[0]) + 256 * u16::from(pair[1])).collect()
}

/// Whether a program can be started.
pub fn has_program(name: &str) -> bool {
    Command::new(name).arg("--version").output().is_ok()
}

/// Says what wasn't tried, past the test's capture.
pub fn left_out(what: &str) {
    std::io::stderr().write_all(format!("command: {what}\n").as_bytes()).unwrap();
}
