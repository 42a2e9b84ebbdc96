//! What docs/archivist.md and README.md show: every command is run, and prints what stands there.

use crate::tools::{repository, Folder, KAV};
use std::fs;
use std::path::Path;

/// A line of code, without its four blanks.
fn code(line: &str) -> Option<&str> {
    line.strip_prefix("    ")
}

/// The commands of a text, each with the lines that are shown behind it.
fn commands(text: &str) -> Vec<(&str, Vec<&str>)> {
    let mut found: Vec<(&str, Vec<&str>)> = Vec::new();
    let mut is_open = false;
    for line in text.lines() {
        match code(line).map(|line| (line, line.strip_prefix("$ "))) {
            Some((_, Some(command))) => {
                found.push((command, Vec::new()));
                is_open = true;
            }
            Some((line, None)) if is_open => found.last_mut().unwrap().1.push(line),
            _ => is_open = false,
        }
    }
    found
}

fn copy(from: &Path, to: &Path) {
    fs::create_dir_all(to).unwrap();
    for entry in fs::read_dir(from).unwrap() {
        let path = entry.unwrap().path();
        let to = to.join(path.file_name().unwrap());
        if path.is_dir() {
            copy(&path, &to);
        } else {
            fs::copy(&path, &to).unwrap();
        }
    }
}

/// A folder with what the commands name.
fn folder(name: &str) -> Folder {
    let folder = Folder::new(name);
    for part in ["samples", "host/tests/command/old-emulator"] {
        copy(&repository(part), &folder.path(part));
    }
    std::os::unix::fs::symlink(KAV, folder.path("kav")).unwrap();
    folder
}

#[test]
fn a_thursday() {
    let folder = folder("thursday");
    let text = fs::read_to_string(repository("docs/archivist.md")).unwrap();
    let commands = commands(&text);
    for name in ["play", "list", "normal", "write", "read", "verify"] {
        assert!(
            commands.iter().any(|(command, _)| command.contains(&format!("./kav {name} "))),
            "kav {name}"
        );
    }
    for (command, shown) in commands {
        let ended = folder.shell(&format!("{{ {command}\n}} 2>&1"));
        assert_eq!(ended.out.lines().collect::<Vec<_>>(), shown, "{command}");
    }
}

/// The README's first command, and what it says of it.
#[test]
fn the_first_command() {
    let text = fs::read_to_string(repository("README.md")).unwrap();
    let line =
        text.lines().filter_map(code).find(|line| line.starts_with("./kav play ")).expect("./kav play");
    let command = line.split(" #").next().unwrap();
    let ended = folder("readme").shell(command);
    assert_eq!((ended.status, ended.err.as_str()), (0, ""));
    for part in
        ["L7m00201I*", "not well formed", "Type 4 without its offer", "no such identifier", "END 13 heard"]
    {
        assert!(ended.out.contains(part), "{part} in\n{}", ended.out);
    }
}
