//! `kav verify`: it finds what differs, and changes nothing.

use crate::tools::{fed, file_of, left_out, said, Ended, Folder, BENCH, KAV};
use std::fs;
use std::os::unix::fs::{MetadataExt as _, PermissionsExt as _};
use std::path::{Path, PathBuf};
use std::process::Command;

const HEADING: &str = "     AT  MESSAGE      REPLY       CAUSE";

/// A folder `c` with a sheet, recordings of each ending and their transcripts, made with all sorts of settings.
pub fn collection(name: &str) -> Folder {
    let folder = Folder::new(name);
    fs::create_dir(folder.path("c")).unwrap();
    folder.write("c/bench.sheet", BENCH);
    folder.write("c/a.words", file_of(&said("L7m#00231*L7mI*")));
    folder.write("c/b.text", "L7m#00231*~L8??*{4C}L7mI*L7M!*R7{00}");
    folder.write("c/c.txt", "R7M?*L7M?*R7m+*");
    folder.write("c/d.words", file_of(&said("R9J#00006*R9J#00001*R9JI*L9??*R9]?*")));
    folder.write("c/e.words", file_of(&[said("L7m+*L7M?*L7m"), vec![256]].concat().repeat(2_000)));
    folder.write("c/f.words", "");
    folder.write("c/alone.words", file_of(&said("L7M?*")));
    let played: [(&str, &[&str]); 6] = [
        ("a.words", &[]),
        ("b.text", &["--drops"]),
        ("c.txt", &["--cards", "L7,R7"]),
        (
            "d.words",
            &["--card", "R9", "--revision", "2", "--scan", "JMmJ", "--set", "J=-0.5", "--set", "m=100"],
        ),
        ("e.words", &["--drops"]),
        ("f.words", &[]),
    ];
    for (file, settings) in played {
        let out = format!("c/{}.transcript", &file[..1]);
        let file = format!("c/{file}");
        let arguments = [&["play", "--sheet", "c/bench.sheet", "--out", &out], settings, &[&file]].concat();
        folder.kav(&arguments).prints("");
    }
    folder
}

const ALL_SAME: &str = "\
same     a.words
same     b.text
same     c.txt
same     d.words
same     e.words
same     f.words
END 6 same, 0 differ, 0 unread, 1 without a transcript
";

/// Path, kind, mode, times and contents of everything in a folder.
type Listed = Vec<(PathBuf, u32, [i64; 4], u64, Vec<u8>)>;

fn listed(folder: &Path) -> Listed {
    let mut all = Vec::new();
    let mut folders = vec![folder.to_path_buf()];
    while let Some(folder) = folders.pop() {
        let known = fs::symlink_metadata(&folder).unwrap();
        let contents = if known.is_file() { fs::read(&folder).unwrap() } else { Vec::new() };
        if known.is_dir() {
            folders.extend(fs::read_dir(&folder).unwrap().map(|entry| entry.unwrap().path()));
        }
        let times = [known.mtime(), known.mtime_nsec(), known.ctime(), known.ctime_nsec()];
        all.push((folder, known.mode(), times, known.ino(), contents));
    }
    all.sort();
    all
}

/// Verifies the collection, and sees that nothing in it has changed.
#[track_caller]
fn verify(folder: &Folder) -> Ended {
    let before = listed(&folder.0);
    assert!(before.len() > 10);
    let ended = folder.kav(&["verify", "c"]);
    assert!(before == listed(&folder.0), "something has changed");
    ended
}

#[test]
fn all_the_same() {
    let folder = collection("same");
    verify(&folder).prints(ALL_SAME);
    verify(&folder).prints(ALL_SAME);
    // From inside, by a path, and with settings that every transcript has for itself.
    let mut command = Command::new(KAV);
    Ended::of(fed(command.args(["verify", "."]).current_dir(folder.path("c")), b"")).prints(ALL_SAME);
    folder.kav(&["verify", folder.path("c").to_str().unwrap()]).prints(ALL_SAME);
    folder.kav(&["verify", "c/", "--card", "R1", "--revision", "2"]).prints(ALL_SAME);
}

/// One reply wrong, one transcript cut off behind a line, one longer.
#[test]
fn differences() {
    let folder = collection("differences");
    let wrong = folder.read("c/d.transcript").replace("R9J00001I*", "R9J00011I*");
    assert_ne!(wrong, folder.read("c/d.transcript"));
    folder.write("c/d.transcript", wrong);
    let long = folder.read("c/a.transcript") + "END 2 heard, 0 not well formed, 0 dropped\n";
    folder.write("c/a.transcript", long);
    let text = folder.read("c/b.transcript");
    let end = text.trim_end().rfind('\n').unwrap() + 1;
    folder.write("c/b.transcript", &text[..end]);
    let last = &text[end..];
    let ended = verify(&folder);
    assert_eq!(
        ended.out,
        format!(
            "\
differs  a.words, line 9
         transcript                                | replay
         END 2 heard, 0 not well formed, 0 dropped | (nothing)
differs  b.text, line 12
         transcript | replay
         (nothing)  | {last}same     c.txt
differs  d.words, line 9
         transcript                       | replay
              19  R9J#00001*   R9J00011I* |      19  R9J#00001*   R9J00001I*
same     e.words
same     f.words
END 3 same, 3 differ, 0 unread, 1 without a transcript
"
        )
    );
    assert_eq!((ended.status, ended.err.as_str()), (1, ""));
    // With one that can't be read beside them it is status 2, and all are shown all the same.
    folder.write("c/f.transcript", folder.read("c/f.transcript").trim_end());
    let ended = verify(&folder);
    ended.fails(&["c: not every transcript could be compared"]);
    assert!(
        ended.out.contains("differs  a.words, line 9") && ended.out.contains("same     e.words"),
        "{ended:?}"
    );
    assert!(ended.out.contains("unread   c/f.transcript: ") && ended.out.contains("cut off"), "{ended:?}");
    assert!(ended.out.ends_with("END 2 same, 3 differ, 1 unread, 1 without a transcript\n"), "{ended:?}");
}

/// One line wrong in thousands: the last reply, one in the middle, the count at the end.
#[test]
fn differences_far_down() {
    let folder = collection("far-down");
    let good = folder.read("c/e.transcript");
    let lines: Vec<&str> = good.lines().collect();
    assert!(lines.len() > 5_000);
    for at in [lines.len() - 1, lines.len() - 2, lines.len() - 3, lines.len() / 2, 4_097, 101, 70] {
        let last = lines[at].char_indices().rev().find(|(_, found)| found.is_ascii_digit()).unwrap().0;
        let digit = if &lines[at][last..=last] == "1" { "2" } else { "1" };
        let wrong = format!("{}{digit}{}", &lines[at][..last], &lines[at][last + 1..]);
        let mut other = lines.clone();
        other[at] = &wrong;
        folder.write("c/e.transcript", other.join("\n") + "\n");
        let ended = verify(&folder);
        let shown = format!(
            "differs  e.words, line {}\n         {:width$} | replay\n         {wrong:width$} | {}\n",
            at + 1,
            "transcript",
            lines[at],
            width = wrong.len().max(10)
        );
        assert!(ended.status == 1 && ended.out.contains(&shown), "expected {shown}in {ended:?}");
        assert!(ended.out.ends_with("END 5 same, 1 differ, 0 unread, 1 without a transcript\n"), "{ended:?}");
    }
}

/// Settings at the head of a transcript that make another replay, and a recording or a sheet that has changed.
#[test]
fn other_settings() {
    let folder = collection("other");
    let good = folder.read("c/d.transcript");
    for (from, to) in [
        ("--card R9", "--card L9"),
        ("--revision 2", "--revision 1"),
        ("--scan JMmJ", "--scan none"),
        ("--set m=100", "--set m=0"),
        ("--set m=100\n", ""),
    ] {
        let other = good.replace(from, to);
        assert_ne!(other, good);
        folder.write("c/d.transcript", other);
        let ended = verify(&folder);
        assert_eq!((ended.status, ended.err.as_str()), (1, ""), "{to}");
        assert!(ended.out.contains("\ndiffers  d.words, line "), "{ended:?}");
        assert!(ended.out.ends_with("END 5 same, 1 differ, 0 unread, 1 without a transcript\n"), "{ended:?}");
    }
    folder.write("c/d.transcript", good);
    verify(&folder).prints(ALL_SAME);
    // Drops that weren't shown.
    folder.write("c/e.transcript", folder.read("c/e.transcript").replace("--drops\n", ""));
    assert_eq!(verify(&folder).status, 1);
    folder.write("c/bench.sheet", BENCH.replace("23.1", "23.2"));
    let ended = verify(&folder);
    assert!(ended.status == 1 && ended.out.contains("differs  c.txt, line 6\n"), "{ended:?}");
}

/// Each byte of a transcript behind its settings that is another, each line that is missing, twice or in another place.
#[test]
fn every_change_is_found() {
    let folder = Folder::new("changes");
    fs::create_dir(folder.path("c")).unwrap();
    folder.write("c/bench.sheet", BENCH);
    folder.write("c/a.txt", "L7m#00231*L7mI*R7M?*L7!!*L7~L7q?*L7m#00005*L7Z?*L7~L");
    folder
        .kav(&["play", "--drops", "--sheet", "c/bench.sheet", "c/a.txt", "--out", "c/a.transcript"])
        .prints("");
    let good = folder.read("c/a.transcript");
    let end = "END 6 heard, 1 not well formed, 2 dropped, open: L\n";
    assert!(good.contains(HEADING) && good.ends_with(end), "{good}");
    let body = good.find(HEADING).unwrap();
    let found = |transcript: &str, what: &str| {
        folder.write("c/a.transcript", transcript);
        let ended = folder.kav(&["verify", "c"]);
        assert!(
            matches!(ended.status, 1 | 2) && ended.out.contains(", 0 unread") == (ended.status == 1),
            "{what}: {ended:?}"
        );
        assert!(!ended.out.contains("same "), "{what}: {ended:?}");
    };
    for at in body..good.len() {
        let other = if good.as_bytes()[at] == b'x' { "y" } else { "x" };
        found(&format!("{}{other}{}", &good[..at], &good[at + 1..]), &format!("byte {at}"));
        found(&format!("{}{}", &good[..at], &good[at + 1..]), &format!("without byte {at}"));
    }
    let lines: Vec<&str> = good.split_inclusive('\n').collect();
    let first = lines.iter().position(|line| line.starts_with(HEADING)).unwrap();
    for at in first..lines.len() {
        found(&[&lines[..at], &lines[at + 1..]].concat().concat(), &format!("without line {at}"));
        found(&[&lines[..=at], &lines[at..]].concat().concat(), &format!("line {at} twice"));
        found(&lines[..at].concat(), &format!("up to line {at}"));
        if at > first {
            let mut lines = lines.clone();
            lines.swap(at - 1, at);
            found(&lines.concat(), &format!("line {at} before the one before it"));
        }
    }
    found(&good.replace('\n', "\r\n"), "other line ends");
    found(&format!("{good}\n"), "an empty line more");
    folder.write("c/a.transcript", &good);
    folder
        .kav(&["verify", "c"])
        .prints("same     a.txt\nEND 1 same, 0 differ, 0 unread, 0 without a transcript\n");
}

fn is_root() -> bool {
    Command::new("id").arg("-u").output().unwrap().stdout == b"0\n"
}

/// A folder that may not be written to; as root, by a user that may not.
#[test]
fn without_write_permission() {
    let folder = collection("permission");
    // By another process: a copy that a test beside this one's child holds open for writing couldn't be started.
    assert!(Command::new("cp").arg(KAV).arg(folder.path("kav")).status().unwrap().success());
    let mut user: Vec<&str> = Vec::new();
    if is_root() {
        user = vec!["setpriv", "--reuid=65534", "--regid=65534", "--clear-groups"];
        let mut reach = Command::new(user[0]);
        reach.args(&user[1..]).arg("test").arg("-x").arg(folder.path("kav"));
        if !reach.status().is_ok_and(|status| status.success()) {
            return left_out("no other user by setpriv, a folder without write permission NOT TRIED");
        }
    }
    let allow = |mode| fs::set_permissions(folder.path("c"), fs::Permissions::from_mode(mode)).unwrap();
    allow(0o555);
    let run = |arguments: &[&str]| {
        let all = [&user[..], &["./kav"], arguments].concat();
        let mut command = Command::new(all[0]);
        Ended::of(fed(command.args(&all[1..]).current_dir(&folder.0), b""))
    };
    let before = listed(&folder.0);
    run(&["verify", "c"]).prints(ALL_SAME);
    let play = ["play", "--sheet", "c/bench.sheet", "c/a.words"];
    run(&[&play[..], &["--out", "c/new.transcript"]].concat())
        .refuses(&["c/new.transcript: Permission denied"]);
    run(&[&play[..], &["--out", "c/a.transcript"]].concat()).refuses(&["c/a.transcript: ", "exists already"]);
    assert!(before == listed(&folder.0), "something has changed");
    allow(0o755);
    // The wrong reply is found there as well.
    let wrong = folder.read("c/a.transcript").replace("L7m00201A*", "L7m00251A*");
    folder.write("c/a.transcript", wrong);
    allow(0o555);
    let ended = run(&["verify", "c"]);
    allow(0o755);
    assert_eq!(ended.status, 1);
    assert!(ended.out.starts_with("differs  a.words, line 7\n"), "{ended:?}");
}

/// The calls that make or change a file. A `?` lets a machine lack one.
const CHANGING: [&str; 25] = [
    "rename",
    "renameat",
    "renameat2",
    "unlink",
    "unlinkat",
    "truncate",
    "ftruncate",
    "mkdir",
    "mkdirat",
    "rmdir",
    "link",
    "linkat",
    "symlink",
    "symlinkat",
    "chmod",
    "fchmod",
    "fchmodat",
    "chown",
    "fchown",
    "fchownat",
    "utime",
    "utimensat",
    "mknod",
    "mknodat",
    "fallocate",
];

/// What the command did to files, by strace: lines that open one for writing, or change one and succeed.
fn changes(folder: &Folder, arguments: &[&str]) -> (Vec<String>, String) {
    let calls: Vec<String> = ["open", "openat", "openat2", "creat"]
        .iter()
        .chain(&CHANGING)
        .map(|call| format!("?{call}"))
        .collect();
    let trace = folder.path("trace.log");
    let mut command = Command::new("strace");
    command.args(["-f", "-qq", "-o", trace.to_str().unwrap(), "-e", &format!("trace={}", calls.join(","))]);
    let output = fed(command.arg(KAV).args(arguments).current_dir(&folder.0), b"");
    let text = fs::read_to_string(&trace).unwrap();
    fs::remove_file(&trace).unwrap();
    assert!(output.status.code().is_some(), "{output:?}");
    let writing = ["O_WRONLY", "O_RDWR", "O_CREAT", "O_TRUNC", "O_APPEND"];
    let is_change = |line: &&str| {
        let Some((name, _)) = line.split_once('(') else { return false };
        let name = name.split_ascii_whitespace().last().unwrap_or("");
        let failed = line.contains(") = -1 ");
        match name.starts_with("open") {
            true => writing.iter().any(|flag| line.contains(flag)),
            false => !failed,
        }
    };
    (text.lines().filter(is_change).map(str::to_string).collect(), text)
}

#[test]
fn no_file_is_opened_for_writing() {
    let works = |mut command: Command| command.output().is_ok_and(|output| output.status.success());
    let mut probe = Command::new("strace");
    probe.args(["-o", "/dev/null", "true"]);
    if !works(probe) {
        return left_out("no strace that works, the files that `kav verify` opens NOT TRACED");
    }
    let folder = collection("trace");
    folder.write("c/b.transcript", "--card L7\n");
    let wrong = folder.read("c/a.transcript").replace("L7m00201A*", "L7m00251A*");
    folder.write("c/a.transcript", wrong);
    let (found, trace) = changes(&folder, &["verify", "c"]);
    assert!(found.is_empty(), "{found:#?}");
    for name in ["c/a.transcript", "c/a.words", "c/bench.sheet", "c/c.txt", "c/e.transcript"] {
        assert!(trace.contains(&format!("\"{name}\", O_RDONLY")), "{name} isn't in {trace}");
    }
    // The trace does show a file that is written.
    let (found, _) = changes(&folder, &["list", "c/a.words", "--out", "new"]);
    assert!(
        found.len() == 1 && found[0].contains("\"new\"") && found[0].contains("O_CREAT|O_EXCL"),
        "{found:#?}"
    );
    // And one that is refused is opened so that it can't be cut off.
    let (found, _) = changes(&folder, &["list", "c/a.words", "--out", "new"]);
    assert!(found.len() == 1 && !found[0].contains("O_TRUNC") && found[0].contains("EEXIST"), "{found:#?}");
}
