//! Progress is shown at a terminal and nowhere else.

use crate::tools::{fed, has_program, left_out, Ended, KAV};
use crate::verify::collection;
use std::process::Command;

#[test]
fn none_in_a_pipe_or_a_file() {
    let folder = collection("no-progress");
    assert_eq!(folder.kav(&["verify", "c"]).err, "");
    folder.shell("exec \"$KAV\" verify c 2>error >out").prints("");
    assert_eq!(folder.read("error"), "");
    assert!(folder.read("out").starts_with("same     a.words\n"));
}

#[test]
fn some_at_a_terminal() {
    if !has_program("script") {
        return left_out("no script, progress at a terminal NOT TRIED");
    }
    let folder = collection("progress");
    let at_terminal = |script: &str| {
        let mut command = Command::new("script");
        let command = command.args(["-qec", script, "/dev/null"]).env("KAV", KAV).current_dir(&folder.0);
        Ended::of(fed(command, b""))
    };
    let ended = at_terminal("\"$KAV\" verify c >out");
    assert_eq!(ended.status, 0);
    for number in 1..=6 {
        assert!(ended.out.contains(&format!("{number} of 6: ")), "{ended:?}");
    }
    // Nothing of it stays on the screen, and nothing is in the output.
    assert!(ended.out.ends_with("\r\x1b[K"), "{ended:?}");
    assert_eq!(folder.read("out"), folder.kav(&["verify", "c"]).out);
    // Standard output at a terminal, standard error not.
    let ended = at_terminal("\"$KAV\" verify c 2>error");
    assert_eq!(
        (ended.out.replace("\r\n", "\n"), folder.read("error")),
        (folder.kav(&["verify", "c"]).out, String::new())
    );
    // The other commands have none.
    let ended = at_terminal("\"$KAV\" play --sheet c/bench.sheet c/e.words >out2");
    assert_eq!((ended.status, ended.out.as_str()), (0, ""));
}
