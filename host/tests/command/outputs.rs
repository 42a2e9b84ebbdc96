//! Every command on small inputs, with the whole output written out.

use crate::tools::{file_of, left_out, repository, said, samples, words_in, Folder, BENCH};
use std::fs;
use std::path::PathBuf;
use std::process::{Command, Stdio};

const CASE_E: &str = "\
--card L7
--revision 1
--sheet bench.sheet
--scan none
     AT  MESSAGE      REPLY       CAUSE
      9  L7m#00231*   L7m00201I*
     14  L7mI*        L7m00201A*
END 2 heard, 0 not well formed, 0 dropped
";

/// Every way to name a recording, and to name the output.
#[test]
fn play_and_its_inputs() {
    let folder = Folder::with_case_e("play");
    let text = "L7m#00231*\n  L7mI*\n";
    folder.write("a.text", text);
    folder.write("a.txt", text);
    folder.write("a.recording", text);
    folder.write("-", text);
    folder.kav(&["play", "--sheet", "bench.sheet", "a.words"]).prints(CASE_E);
    folder.kav(&["play", "a.words", "--sheet=bench.sheet"]).prints(CASE_E);
    folder.kav(&["play", "--sheet", "bench.sheet", "--", "a.words"]).prints(CASE_E);
    folder.kav(&["play", "--sheet", "bench.sheet", "a.text"]).prints(CASE_E);
    folder.kav(&["play", "--sheet", "bench.sheet", "a.txt"]).prints(CASE_E);
    folder.kav(&["play", "--sheet", "bench.sheet", "a.txt", "--text"]).prints(CASE_E);
    folder.kav(&["play", "--sheet", "bench.sheet", "--text", "a.recording"]).prints(CASE_E);
    folder.kav(&["play", "--sheet", "bench.sheet", "--text", "./-"]).prints(CASE_E);
    let words = file_of(&said("L7m#00231*L7mI*"));
    folder.kav_reads(&["play", "--sheet", "bench.sheet", "-"], &words).prints(CASE_E);
    folder.kav_reads(&["play", "--sheet", "bench.sheet", "--text", "-"], text.as_bytes()).prints(CASE_E);
    let sheet = folder.path("bench.sheet");
    folder.kav(&["play", "--sheet", sheet.to_str().unwrap(), "a.words"]).prints(CASE_E);
    folder.kav(&["play", "--sheet", "bench.sheet", "--out", "a.transcript", "a.words"]).prints("");
    assert_eq!(folder.read("a.transcript"), CASE_E);
    folder.kav_reads(&["play", "--sheet", "bench.sheet", "--out=b.transcript", "-"], &words).prints("");
    assert_eq!(folder.read("b.transcript"), CASE_E);
}

/// Every setting, and every cause.
#[test]
fn play_and_its_settings() {
    let folder = Folder::new("settings");
    folder.write("bench.sheet", BENCH);
    let sent =
        "xR8??*R08M?*L8M?*R8q?*R8Z?*R8m#00230*R8J#00006*R8m#10051*R8m+*R8mI*R8]?*R8]+*R8M!*R8Z#00180*R8";
    folder.write("a.words", file_of(&[said(sent), vec![256, 76, 204], said("7")].concat()));
    let arguments = ["--sheet", "bench.sheet", "--card", "R08", "--revision", "2", "--scan", "JMmm"];
    let sets = ["--set", "m=100", "--set", "J=-0.5", "--set", "M=-199.9"];
    folder.kav(&[&["play", "--drops"], &arguments[..], &sets[..], &["a.words"]].concat()).prints(
        "\
--card R08
--revision 2
--sheet bench.sheet
--scan JMmm
--set m=100
--set J=-0.5
--set M=-199.9
--drops
     AT  MESSAGE      REPLY       CAUSE
      5  R8??*        R8?A*
     11  R08M?*       R8M19996A*
     16  L8M?*        -           not for this card
     21  R8q?*        R8q00000N*  no such identifier
     26  R8Z?*        R8Z00000N*  access forbids it
     36  R8m#00230*   R8m10001N*  wrong decimals
     46  R8J#00006*   R8J00056N*  minus zero
     56  R8m#10051*   R8m10001N*  out of range
     61  R8m+*        R8m10001N*  at the limit
     66  R8mI*        -           Type 4 without its offer
     71  R8]?*        R8]2000056199961000110001A*
     76  R8]+*        R8]00000N*  access forbids it
     81  R8M!*        -           not well formed
            ^
     91  R8Z#00180*   R8Z00180I*
     94  R8~                      dropped
END 13 heard, 1 not well formed, 1 dropped, open: L7
",
    );
    folder.kav(&["play", "--sheet", "bench.sheet", "--cards", "L7,R8,R07", "a.words"]).prints(
        "\
--cards L7,R8,R07
--revision 1
--sheet bench.sheet
--scan none
     AT  REPLY
      5  R8?A*
     11  R8M02311A*
     21  R8q00000N*
     26  R8Z00000N*
     36  R8m00201N*
     46  R8J00001I*
     56  R8m00201N*
     61  R8m00251A*
     71  R8]00000N*
     76  R8]00000N*
     91  R8Z00180I*
END 11 replies
",
    );
    // An empty recording, and a sheet without a row.
    folder.write("none.sheet", "// nothing\n");
    folder.write("empty.words", "");
    let none = "--card L7\n--revision 1\n--sheet none.sheet\n--scan none\n";
    let heading = "     AT  MESSAGE      REPLY       CAUSE\n";
    let end = "END 0 heard, 0 not well formed, 0 dropped\n";
    folder.kav(&["play", "--sheet", "none.sheet", "empty.words"]).prints(&format!("{none}{heading}{end}"));
}

/// The bench cases of document 01, each by its own file, as its table has them.
#[test]
fn play_the_bench_cases() {
    let folder = Folder::new("cases");
    let sheet = repository("samples/bench.sheet");
    let cases: [(&str, &[&str]); 15] = [
        ("a", &["L7?A*"]),
        ("b", &["L7M02311A*"]),
        ("c", &["L7m00251A*"]),
        ("d", &["L7M02311N*"]),
        ("e", &["L7m00201I*", "L7m00201A*"]),
        ("f", &["L7J00156I*"]),
        ("g", &["L7m00201N*"]),
        ("h", &["L7m00201N*"]),
        ("i", &["L7J00001I*"]),
        ("j", &["-"]),
        // By request 2 the neighbour doesn't cancel the offer.
        ("k", &["L7m00301I*", "-", "L7m00301A*"]),
        ("l", &["L7Z00000N*"]),
        ("m", &["-", "-", "-"]),
        ("n", &["L7m10001N*"]),
        ("o", &["L7Z00150I*"]),
    ];
    for (case, replies) in cases {
        let file = repository(&format!("samples/case-{case}.words"));
        let mut arguments = vec!["play", "--sheet", sheet.to_str().unwrap(), file.to_str().unwrap()];
        if case == "n" {
            arguments.extend(["--set", "m=100.0"]);
        }
        let out = folder.kav(&arguments).out;
        let lines = out.lines().filter(|line| line.starts_with(' ') && line.trim() != "^").skip(1);
        let found: Vec<&str> = lines.map(|line| line.split_ascii_whitespace().nth(2).unwrap()).collect();
        assert_eq!(found, replies, "case {case}");
    }
}

#[test]
fn list() {
    let folder = Folder::new("list");
    let example = "AT CARD ID KIND DATA\n6 L7 M ? -\n16 L7 m # 00231\nEND 2\n";
    let words = file_of(&said("xL07M?*L7m#00231*"));
    folder.write("a.words", &words);
    folder.write("a.txt", "x L07M?*\nL7m#00231*");
    folder.write("a.text", "xL07M?*{CC}7m#00231{AA}");
    folder.write("a.recording", "xL07M?*L7m#00231*");
    folder.write("empty", "");
    folder.kav(&["list", "a.words"]).prints(example);
    folder.kav(&["list", "a.txt"]).prints(example);
    folder.kav(&["list", "a.text"]).prints(example);
    folder.kav(&["list", "--text", "a.recording"]).prints(example);
    folder.kav_reads(&["list", "-"], &words).prints(example);
    folder.kav_reads(&["list", "--text", "-"], b"xL07M?*L7m#00231*").prints(example);
    folder.kav(&["list", "--out", "listed", "a.words"]).prints("");
    assert_eq!(folder.read("listed"), example);
    folder.kav(&["list", "empty"]).prints("AT CARD ID KIND DATA\nEND 0\n");
    let every = b"L7??*R99?\x1B*R12J+*L09J-*L9JI*L10m#00006*R1~~L1L#99998*L1+#00005*L1I#00003*L1#I*L1II*L1-";
    let every: Vec<u16> = kavtziron_host::gen::words_of(every).collect();
    folder.kav_reads(&["list", "-"], &file_of(&every)).prints(
        "\
AT CARD ID KIND DATA
4 L7 ? ? -
16 R12 J + -
22 L9 J - -
27 L9 J I -
38 L10 m # 00006
62 L1 + # 00005
72 L1 I # 00003
77 L1 # I -
82 L1 I I -
END 9
",
    );
}

/// `../target/bin/list`, or `KAV_LIST`.
fn program() -> Option<PathBuf> {
    let path = std::env::var_os("KAV_LIST").map_or_else(|| repository("target/bin/list"), PathBuf::from);
    path.is_file().then_some(path)
}

#[test]
fn list_as_the_proved_program() {
    let Some(program) = program() else {
        return left_out("no program (../target/bin/list or KAV_LIST), `kav list` NOT COMPARED WITH IT");
    };
    let folder = Folder::new("listing");
    for file in samples() {
        let input = Stdio::from(fs::File::open(&file).unwrap());
        let listed = Command::new(&program).stdin(input).output().unwrap();
        let ended = folder.kav(&["list", file.to_str().unwrap()]);
        assert_eq!((ended.bytes, ended.status), (listed.stdout, 0), "{}", file.display());
    }
}

#[test]
fn normal() {
    let folder = Folder::new("normal");
    let words = file_of(&said("xL07M?*L007M?*L7m#00231*R12??*L7J#00005*L7J"));
    let form = "L7M?*\nL7m#00231*\nR12??*\nL7J#00005*\n";
    let normal = said("L7M?*L7m#00231*R12??*L7J#00005*");
    folder.write("a.words", &words);
    folder.write("a.txt", "xL07M?*L007M?*L7m#00231*\nR12??*L7J#00005*L7J\n");
    folder.write("empty.words", "");
    folder.kav(&["normal", "--spelled", "a.words"]).prints(form);
    folder.kav(&["normal", "--spelled", "a.txt"]).prints(form);
    folder.kav_reads(&["normal", "--spelled", "-"], &words).prints(form);
    folder.kav_reads(&["normal", "--spelled", "-", "--text"], form.as_bytes()).prints(form);
    folder.kav(&["normal", "--spelled", "empty.words"]).prints("");
    let ended = folder.kav(&["normal", "a.words"]);
    assert_eq!((words_in(&ended.bytes), ended.status), (normal.clone(), 0));
    folder.kav(&["normal", "a.words", "--out", "b.words"]).prints("");
    assert_eq!(words_in(&fs::read(folder.path("b.words")).unwrap()), normal);
    folder.kav(&["normal", "a.words", "--out", "b.txt"]).prints("");
    assert_eq!(folder.read("b.txt"), form);
    folder.kav(&["normal", "a.words", "--out", "b"]).prints("");
    assert_eq!(words_in(&fs::read(folder.path("b")).unwrap()), normal);
    // What was written is its own normal form.
    folder.kav(&["normal", "--spelled", "b.words"]).prints(form);
    folder.kav(&["normal", "--spelled", "b.txt"]).prints(form);
}

#[test]
fn write() {
    let folder = Folder::new("write");
    let asked = "\
L7 m # 2.3
L7 m I

  L7\tm  +
L7 m - -
R99 M ? -
L7 ? ?
L7 J # -1.2
L7 J # -0.0
L7 J # 0
L1 z # 9.999
L1 z # -9999
L1 # # 0
L1 + +
L07m#00231*
L7{CA}?*
";
    let form = "\
L7m#00231*
L7mI*
L7m+*
L7m-*
R99M?*
L7??*
L7J#00126*
L7J#00006*
L7J#00000*
L1z#99993*
L1z#99995*
L1##00000*
L1++*
L7m#00231*
L7J?*
";
    folder.write("asked", asked);
    folder.kav(&["write", "--spelled", "asked"]).prints(form);
    folder.kav_reads(&["write", "--spelled", "-"], asked.as_bytes()).prints(form);
    folder.kav_reads(&["write", "--spelled", "-"], b"").prints("");
    folder.kav_reads(&["write", "--spelled", "-"], b"L7 M ?").prints("L7M?*\n");
    let words = said(&form.replace('\n', ""));
    let ended = folder.kav(&["write", "asked"]);
    assert_eq!((words_in(&ended.bytes), ended.status), (words.clone(), 0));
    folder.kav(&["write", "asked", "--out", "a.words"]).prints("");
    assert_eq!(words_in(&fs::read(folder.path("a.words")).unwrap()), words);
    folder.kav(&["write", "asked", "--out", "a.txt"]).prints("");
    assert_eq!(folder.read("a.txt"), form);
    // What was written is heard, all of it.
    folder.kav(&["normal", "--spelled", "a.words"]).prints(form);
}

#[test]
fn read() {
    let folder = Folder::new("read");
    let replies = "L7M02311A*R12?A*L7J00156I*L7Z00000N*L7q00123N*L7J10008A*L9]2000001012020003300087A*";
    let form = "\
AT CARD ID MARK NUMBERS
9 L7 M A 23.1
15 R12 ? A
25 L7 J I -1.5
35 L7 Z N 0
45 L7 q N 0.012
55 L7 J A -1.000
82 L9 ] A 0.0 1.20 0.003 -0.08
END 7
";
    folder.write("a.words", file_of(&said(replies)));
    folder.write("a.txt", replies.replace('*', "*\n"));
    folder.kav(&["read", "a.words"]).prints(form);
    folder.kav(&["read", "a.txt"]).prints(form);
    folder.kav_reads(&["read", "--text", "-"], replies.as_bytes()).prints(form);
    folder.kav_reads(&["read", "-"], &file_of(&said(replies))).prints(form);
    folder.kav(&["read", "a.words", "--out", "read"]).prints("");
    assert_eq!(folder.read("read"), form);
    folder.kav_reads(&["read", "-"], b"").prints("AT CARD ID MARK NUMBERS\nEND 0\n");
    // What isn't a reply is named, and the others are read all the same.
    let ended = folder.kav_reads(&["read", "--text", "-"], b"L7M02311A*L7M?*L7?A*L7J00006A*L7M02311A*L7M");
    assert_eq!(ended.out, "AT CARD ID MARK NUMBERS\n9 L7 M A 23.1\n19 L7 ? A\n39 L7 M A 23.1\nEND 3\n");
    let wrong = [("10", "L7M?*"), ("20", "L7J00006A*"), ("40", "L7M")];
    let wrong = wrong.map(|(at, text)| {
        format!("kav: standard input: word {at}: expected one whole reply, found {text}\n")
    });
    assert_eq!((ended.status, ended.err), (2, wrong.concat()));
}

/// A replay by the settings at the head, and by those of the command line.
#[test]
fn verify() {
    let folder = Folder::with_case_e("verified");
    folder.write("a.transcript", CASE_E);
    folder.write("b.txt", "L7m#00231*L7mI*");
    folder.write("b.transcript", CASE_E);
    folder.write("c.text", "L7m#00231*L7mI*");
    let without: String = CASE_E.lines().skip(4).map(|line| format!("{line}\n")).collect();
    folder.write("c.transcript", without);
    folder.write("d.words", "");
    let all = "same     a.words\nsame     b.txt\nsame     c.text\nEND 3 same, 0 differ, 0 unread, 1 without a transcript\n";
    folder.kav(&["verify", "--sheet", "bench.sheet", "."]).prints(all);
    let path = folder.0.clone();
    folder.kav(&["verify", "--sheet", "bench.sheet", "--card", "L7", path.to_str().unwrap()]).prints(all);
    // The options are for those without settings alone.
    let ended = folder.kav(&["verify", "--sheet", "bench.sheet", "--card", "L8", "."]);
    assert_eq!(
        ended.out,
        "\
same     a.words
same     b.txt
differs  c.text, line 2
         transcript                       | replay
               9  L7m#00231*   L7m00201I* |       9  L7m#00231*   -           not for this card
END 2 same, 1 differ, 0 unread, 1 without a transcript
"
    );
    assert_eq!((ended.status, ended.err.as_str()), (1, ""));
}

#[test]
fn help() {
    let folder = Folder::new("help");
    let all = folder.kav(&["--help"]);
    assert!(all.out.starts_with("kav: replays recordings") && all.status == 0 && all.err.is_empty());
    folder.kav(&["-h"]).prints(&all.out);
    folder.kav(&["help"]).prints(&all.out);
    for command in ["play", "list", "normal", "write", "read", "verify"] {
        assert!(all.out.contains(&format!("    kav {command} ")), "{command}");
        let own = folder.kav(&[command, "--help"]);
        assert!(own.out.starts_with(&format!("kav {command} ")) && own.status == 0 && own.err.is_empty());
        folder.kav(&[command, "-h", "x", "y"]).prints(&own.out);
        folder.kav(&["help", command]).prints(&own.out);
    }
}

/// The examples of the help run as they stand there, from the top of the repository.
#[test]
fn examples_of_the_help() {
    let folder = Folder::new("examples");
    let mut tried = 0;
    for command in ["play", "list", "normal", "write", "read", "verify"] {
        let help = folder.kav(&[command, "--help"]).out;
        let example = help.lines().find_map(|line| line.strip_prefix("Example:  ")).unwrap();
        if example.contains("samples/collection") && !repository("samples/collection").is_dir() {
            left_out("no samples/collection, the example of `kav verify --help` NOT TRIED");
            continue;
        }
        let top = repository("");
        let script = format!("cd '{}' && {}", top.display(), example.replace("kav ", "\"$KAV\" "));
        let ended = folder.shell(&script);
        assert_eq!((ended.status, ended.err.as_str()), (0, ""), "{example}");
        assert!(!ended.out.is_empty(), "{example}");
        tried += 1;
    }
    assert!(tried >= 5);
}
