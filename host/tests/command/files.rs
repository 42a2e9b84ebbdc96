//! No file that is there is written to, and none is left behind where the input fails.

use crate::tools::{file_of, said, Folder};
use std::fs;
use std::os::unix::fs::symlink;

/// Every command with `--out`, and its input in [`Folder::with_case_e`] and two files more.
const WRITING: [&[&str]; 6] = [
    &["play", "--sheet", "bench.sheet", "a.words"],
    &["list", "a.words"],
    &["normal", "--spelled", "a.words"],
    &["normal", "a.words"],
    &["write", "--spelled", "messages"],
    &["read", "replies.txt"],
];

fn folder(name: &str) -> Folder {
    let folder = Folder::with_case_e(name);
    folder.write("messages", "L7 M ?\n");
    folder.write("replies.txt", "L7M02311A*\n");
    folder
}

fn with_out<'a>(arguments: &[&'a str], out: &'a str) -> Vec<&'a str> {
    [arguments, &["--out", out]].concat()
}

#[test]
fn never_overwritten() {
    for (number, arguments) in WRITING.into_iter().enumerate() {
        let folder = folder(&format!("kept-{number}"));
        folder.write("kept", "what was there\n");
        folder.write("empty", "");
        fs::create_dir(folder.path("directory")).unwrap();
        symlink("nowhere", folder.path("dangling")).unwrap();
        symlink("kept", folder.path("link")).unwrap();
        for out in [
            "kept",
            "empty",
            "directory",
            "dangling",
            "link",
            "a.words",
            "bench.sheet",
            "./kept",
            "/dev/null",
        ] {
            folder.kav(&with_out(arguments, out)).refuses(&[
                &format!("kav: {out}: "),
                "exists already",
                "never overwrites",
            ]);
        }
        folder.kav(&with_out(arguments, "none/there")).refuses(&["none/there: ", "No such file"]);
        folder.kav(&with_out(arguments, "kept/there")).refuses(&["kept/there: ", "Not a directory"]);
        folder.kav(&with_out(arguments, "directory/")).refuses(&["directory/: "]);
        folder.kav(&with_out(arguments, "")).refuses(&["No such file"]);
        assert_eq!(folder.read("kept"), "what was there\n");
        assert_eq!(folder.read("empty"), "");
        assert_eq!(fs::read(folder.path("a.words")).unwrap(), file_of(&said("L7m#00231*L7mI*")));
        assert!(fs::symlink_metadata(folder.path("dangling")).unwrap().is_symlink());
        assert!(fs::symlink_metadata(folder.path("link")).unwrap().is_symlink());
        assert!(!folder.has("nowhere") && fs::read_dir(folder.path("directory")).unwrap().next().is_none());
        // A new name is written to, once.
        let printed = folder.kav(arguments).bytes;
        folder.kav(&with_out(arguments, "new")).prints("");
        assert_eq!(fs::read(folder.path("new")).unwrap(), printed);
        folder.kav(&with_out(arguments, "new")).refuses(&["new: ", "exists already"]);
        assert_eq!(fs::read(folder.path("new")).unwrap(), printed);
    }
}

#[test]
fn no_file_left_behind() {
    let folder = folder("behind");
    folder.write("odd.words", "abc");
    folder.write("high.words", file_of(&[257]));
    folder.write("bad.txt", "{");
    folder.write("bad", "L7 M\n");
    folder.write("bad.sheet", "m\n");
    let failing: [&[&str]; 16] = [
        &["play", "--sheet", "bench.sheet", "missing"],
        &["play", "--sheet", "bench.sheet", "odd.words"],
        &["play", "--sheet", "bench.sheet", "high.words"],
        &["play", "--sheet", "bench.sheet", "bad.txt"],
        &["play", "--sheet", "bad.sheet", "a.words"],
        &["play", "--sheet", "bench.sheet", "--card", "L0", "a.words"],
        &["play", "--sheet", "bench.sheet", "--set", "m=2.1", "a.words"],
        &["play", "--bogus", "a.words"],
        &["list", "missing"],
        &["list", "bad.txt"],
        &["normal", "--spelled", "missing"],
        &["normal", "--spelled", "high.words"],
        &["normal", "bad.txt"],
        &["write", "--spelled", "bad"],
        &["read", "odd.words"],
        &["read", "."],
    ];
    for arguments in failing {
        let ended = folder.kav(&with_out(arguments, "new"));
        assert_eq!(ended.status, 2, "{arguments:?}");
        assert!(!folder.has("new"), "{arguments:?}");
    }
}

/// Where a listing or the reading of replies goes wrong on the way, the file holds what is printed without `--out`.
#[test]
fn a_file_with_the_failure_in_it() {
    let folder = folder("in-it");
    folder.write("odd.words", [file_of(&said("L7M?*")), vec![1]].concat());
    folder.write("high.words", file_of(&[said("L7M?*"), vec![257]].concat()));
    folder.write("wrong.txt", "L7M02311A*L7M?*");
    for (number, (arguments, end)) in [
        (["list", "odd.words"], "ODD\n"),
        (["list", "high.words"], "BAD 5\n"),
        (["read", "wrong.txt"], "END 1\n"),
    ]
    .into_iter()
    .enumerate()
    {
        let printed = folder.kav(&arguments);
        printed.fails(&[arguments[1]]);
        assert!(printed.out.ends_with(end), "{printed:?}");
        let out = format!("new-{number}");
        let ended = folder.kav(&with_out(&arguments, &out));
        ended.refuses(&[arguments[1]]);
        assert_eq!((folder.read(&out), ended.err), (printed.out, printed.err));
    }
}
