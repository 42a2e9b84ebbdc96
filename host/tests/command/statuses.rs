//! Status 2 and what is said for bad usage, and for input that can't be read. Nothing is printed then.

use crate::tools::{file_of, said, Folder, BENCH};

/// The commands with an operand that they ask for.
const OPERANDS: [(&str, &str); 6] = [
    ("play", "RECORDING"),
    ("list", "RECORDING"),
    ("normal", "RECORDING"),
    ("write", "MESSAGES"),
    ("read", "REPLIES"),
    ("verify", "FOLDER"),
];

const NAMES: &str = "play, list, normal, write, read, verify or help";

#[test]
fn bad_commands() {
    let folder = Folder::new("commands");
    folder.kav(&[]).refuses(&["expected a command", NAMES]);
    for name in ["", "Play", "plays", "pla", "--text", "-x", "-", "--", "a.words"] {
        folder.kav(&[name]).refuses(&[&format!("kav: {name}: "), "expected a command", NAMES]);
    }
    folder.kav(&["help", "bogus"]).refuses(&["help bogus", "expected a command", NAMES]);
}

#[test]
fn bad_options() {
    let folder = Folder::with_case_e("options");
    for (command, operand) in OPERANDS {
        let hint = format!("kav {command} --help");
        for option in ["--bogus", "-x", "--", "--bogus=1", "---", "--text=1", "--drops=1", "--Out"] {
            let ended = folder.kav(&[command, option]);
            match option {
                "--" => ended.refuses(&[&format!("expected one {operand}, found 0"), &hint]),
                _ => ended.refuses(&[option, "no such option", &hint]),
            }
        }
        folder.kav(&[command]).refuses(&[&format!("expected one {operand}, found 0"), &hint]);
        folder.kav(&[command, "a", "b"]).refuses(&[&format!("expected one {operand}, found 2"), &hint]);
        folder
            .kav(&[command, "a", "--", "-", "--bogus"])
            .refuses(&[&format!("expected one {operand}, found 3")]);
    }
    // Options of other commands.
    for (command, option) in [
        ("list", "--sheet"),
        ("list", "--words"),
        ("list", "--drops"),
        ("write", "--text"),
        ("read", "--words"),
        ("play", "--words"),
        ("verify", "--out"),
        ("verify", "--text"),
    ] {
        folder.kav(&[command, option, "a.words"]).refuses(&[option, "no such option", command]);
    }
}

#[test]
fn options_without_value_or_twice() {
    let folder = Folder::with_case_e("values");
    let settings = ["--model", "--card", "--cards", "--revision", "--scan", "--sheet"];
    for option in settings.into_iter().chain(["--out"]) {
        folder.kav(&["play", option]).refuses(&[option, "expected a value"]);
        folder.kav(&["play", "a.words", option, "x", option, "x"]).refuses(&[option, "twice"]);
        folder.kav(&["play", "a.words", option, "x", &format!("{option}=x")]).refuses(&[option, "twice"]);
    }
    folder.kav(&["play", "a.words", "--set"]).refuses(&["--set", "expected a value"]);
    for option in settings {
        folder.kav(&["verify", ".", option]).refuses(&[option, "expected a value"]);
        folder.kav(&["verify", ".", option, "x", option, "x"]).refuses(&[option, "twice"]);
    }
    for command in ["list", "normal", "write", "read"] {
        folder.kav(&[command, "a.words", "--out"]).refuses(&["--out", "expected a value"]);
        folder.kav(&[command, "a.words", "--out", "x", "--out", "y"]).refuses(&["--out", "twice"]);
    }
    assert!(!folder.has("x") && !folder.has("y"));
}

/// Settings that are no card, revision, scan or value. Each message names the option with its value, and says what was expected.
#[test]
fn bad_settings() {
    let folder = Folder::with_case_e("unsound");
    let refuse = |option: &str, value: &str, expected: &str| {
        let arguments = ["--sheet", "bench.sheet", option, value];
        let named = format!("kav: {option} {value}: ");
        folder.kav(&[&["play"], &arguments[..], &["a.words"]].concat()).refuses(&[&named, expected]);
        folder.kav(&[&["verify"], &arguments[..], &["."]].concat());
    };
    for card in [
        "", "L", "7", "L0", "L00", "L100", "L007", "L-7", "L+7", "L 7", "l7", "A7", "X7", "L7,R7", "LL7",
        "é7",
    ] {
        refuse("--card", card, "expected L or R and an address of 1 to 99");
    }
    let many: Vec<String> = (1..=33).map(|address| format!("L{address}")).collect();
    for cards in ["", "L7,", ",L7", "L7,L7", "L7,R7,L07", "L7 R7", "L7,X7", "L0,L7", &many.join(",")] {
        refuse("--cards", cards, "expected L or R and an address of 1 to 99");
    }
    for revision in ["0", "3", "", "x", "1.0", "-1", "12", "99999999999"] {
        refuse("--revision", revision, "expected 1 or 2");
    }
    // Too few, too many, without a row, write only, `]` itself, not ASCII.
    for scan in ["J", "JMm", "JMmJMm", "JMmq", "JMmZ", "JMm]", "JMmé", "None", "JMm ", "JMm?"] {
        refuse("--scan", scan, "expected none, or four or five identifiers with rows that can be read");
    }
    for set in ["", "m", "=", "=2.0", "mm=2.0", "é=1", "m:2.0"] {
        refuse("--set", set, "expected an identifier, `=` and a number");
    }
    for set in [
        "m=",
        "m=x",
        "m=2.05",
        "m=2.",
        "m=.5",
        "m=1e1",
        "m=+2",
        "m= 2",
        "m=--2",
        "m=2,0",
        "m=9999999999",
        "Z=15.0",
    ] {
        refuse("--set", set, "expected a number, decimals at most");
    }
    for set in ["m=2.1", "m=-0.5", "m=100.5", "m=99999", "Z=14", "J=-10.5"] {
        refuse("--set", set, "expected a number in range and on the step of its row");
    }
    for set in ["q=1", "?=1", "]=1", "==1", " =1", "*=1"] {
        refuse("--set", set, "there is no row for");
    }
    for model in ["", "DCP100", "dcp", "1", "udi"] {
        refuse("--model", model, "expected dcp100, programmer or udi1500");
    }
    let both = ["play", "--sheet", "bench.sheet", "--card", "L7", "--cards", "L7", "a.words"];
    folder.kav(&both).refuses(&["--card", "--cards", "not both"]);
    // All of 32 cards is no failure.
    let cards = many[..32].join(",");
    assert_eq!(folder.kav(&["play", "--sheet", "bench.sheet", "--cards", &cards, "a.words"]).status, 0);
}

/// Rows that are none: the message names the file and the line.
#[test]
fn bad_sheets() {
    let folder = Folder::with_case_e("sheets");
    let play = |sheet: &str| {
        folder.write("bad.sheet", sheet);
        folder.kav(&["play", "--sheet", "bad.sheet", "a.words"])
    };
    let columns = "expected identifier, access (r, rw or w), decimals, step, least, greatest and value";
    for row in [
        "m",
        "m rw 1 0.5 0.0 100.0",
        "m rw 1 0.5 0.0 100.0 2.0 x",
        "mm rw 1 0.5 0.0 100.0 2.0",
        "é rw 1 0.5 0.0 100.0 2.0",
        "m wr 1 0.5 0.0 100.0 2.0",
        "m 2 1 0.5 0.0 100.0 2.0",
        "m rw x 0.5 0.0 100.0 2.0",
        "m rw -1 0.5 0.0 100.0 2.0",
        "m rw 1 0.05 0.0 100.0 2.0",
        "m rw 1 0.5 0.0 100.0 2.05",
        "m rw 1 0.5 low 100.0 2.0",
        "m rw 1 0.5 0.0 100.0 2,0",
        "/ / m rw 1 0.5 0.0 100.0 2.0",
    ] {
        play(&format!("// a remark\n\nJ rw 1 0.5 -10.0 10.0 0.0\n{row}\n"))
            .refuses(&["bad.sheet: line 4: ", columns]);
    }
    let row_and_value = "expected a row and a value";
    for row in [
        "m rw 4 0.5 0.0 1.0 0.0",
        "m rw 1 0.0 0.0 100.0 2.0",
        "m rw 1 -0.5 0.0 100.0 2.0",
        "m rw 1 1000.0 0.0 100.0 2.0",
        "m rw 1 0.5 0.1 100.0 2.0",
        "m rw 1 0.5 0.0 99.9 2.0",
        "m rw 1 0.5 100.0 0.0 2.0",
        "m rw 1 0.5 0.0 1000.0 2.0",
        "m rw 1 0.5 -1000.0 0.0 -2.0",
        "m rw 1 0.5 0.0 100.0 2.1",
        "m rw 1 0.5 0.0 100.0 100.5",
        "m rw 1 0.5 0.0 100.0 -0.5",
        "? rw 1 0.5 0.0 100.0 2.0",
        "* rw 1 0.5 0.0 100.0 2.0",
        "7 rw 1 0.5 0.0 100.0 2.0",
        "\0 rw 1 0.5 0.0 100.0 2.0",
        "\x7F rw 1 0.5 0.0 100.0 2.0",
        "] rw 1 0.5 0.0 100.0 2.0",
    ] {
        play(&format!("{row}\n")).refuses(&["bad.sheet: line 1: ", row_and_value]);
    }
    // All together: not rising, one twice, more than 64.
    let rising = "an identifier behind the one before, and 64 rows at most";
    play("m rw 1 0.5 0.0 100.0 2.0\nJ rw 1 0.5 -10.0 10.0 0.0\n").refuses(&["bad.sheet: line 2: ", rising]);
    play("m rw 1 0.5 0.0 100.0 2.0\n\nm rw 1 0.5 0.0 100.0 2.0\n").refuses(&["bad.sheet: line 3: ", rising]);
    let codes: Vec<char> = (b'!'..=b'~').map(char::from).filter(|c| !"0123456789*?]".contains(*c)).collect();
    let rows: Vec<String> = codes.iter().map(|code| format!("{code} rw 0 1 0 9 5\n")).collect();
    assert_eq!(play(&rows[..64].concat()).status, 0);
    play(&rows[..65].concat()).refuses(&["bad.sheet: ", rising]);
    folder
        .kav(&["play", "--sheet", "missing.sheet", "a.words"])
        .refuses(&["missing.sheet: ", "No such file"]);
    folder.kav(&["play", "--sheet", ".", "a.words"]).refuses(&["kav: .: ", "directory"]);
}

#[test]
fn unreadable_recordings() {
    let folder = Folder::with_case_e("unreadable");
    folder.write("odd.words", b"L\0c");
    folder.write("one.words", "a");
    folder.write("high.words", file_of(&[204, 256, 55, 257, 65_535]));
    folder.write("column.txt", "L7M?*\nL7\x01?*\n");
    folder.write("foreign.text", "L7M?*\n\n  é");
    let text = "expected a character that prints, `~` for a silence, or a byte as {4C}";
    let hex = "expected two hex digits and `}` behind `{`, as {4C}";
    for command in ["play", "list", "normal", "read"] {
        let run = |file: &str, input: &[u8]| match command {
            "play" => folder.kav_reads(&["play", "--sheet", "bench.sheet", file], input),
            _ => folder.kav_reads(&[command, file], input),
        };
        run("missing.words", b"").refuses(&["missing.words: ", "No such file"]);
        run(".", b"").refuses(&["kav: .: ", "directory"]);
        run("", b"").refuses(&["No such file"]);
        let odd = [run("odd.words", b""), run("one.words", b""), run("-", b"L\0c")];
        for (ended, place) in
            odd.iter().zip(["odd.words: byte 2 ", "one.words: byte 0 ", "standard input: byte 2 "])
        {
            ended.fails(&[place, "expected two bytes to a word"]);
            // The listing ends as document 01 has it.
            assert_eq!(ended.out, if command == "list" { "AT CARD ID KIND DATA\nODD\n" } else { "" });
        }
        run("column.txt", b"").refuses(&["column.txt: line 2, column 3: ", text]);
        run("foreign.text", b"").refuses(&["foreign.text: line 3, column 3: ", text]);
        for wrong in
            ["{", "{4", "{4C", "{4C ", "{ 4C}", "{+4}", "{4G}", "{}", "{4}", "{04C}", "{~}", "{100}", "{é}"]
        {
            folder.write("hex.txt", format!("L7{{4C}}*\n{{cC}}L{wrong}"));
            run("hex.txt", b"").refuses(&["hex.txt: line 2, column 6: ", hex]);
        }
        for wrong in ["\0", "\x7F", "\x1B", "\x0B", "é"] {
            folder.write("sign.txt", format!("\n\nL {wrong}"));
            run("sign.txt", b"").refuses(&["sign.txt: line 3, column 3: ", text]);
        }
        let ended = run("high.words", b"");
        match command {
            "play" | "normal" => ended.refuses(&["high.words: word 3 is 257: expected 0 to 256"]),
            "list" => {
                ended.fails(&["high.words: word 3 is 257: expected 0 to 256"]);
                assert_eq!(ended.out, "AT CARD ID KIND DATA\nBAD 3\n");
            }
            _ => assert_eq!((ended.status, ended.out.as_str()), (2, "AT CARD ID MARK NUMBERS\nEND 0\n")),
        }
    }
    let words = file_of(&[said("L7M?*L7"), vec![300], said("M?*")].concat());
    let ended = folder.kav_reads(&["list", "-"], &words);
    ended.fails(&["standard input: word 7 is 300"]);
    assert_eq!(ended.out, "AT CARD ID KIND DATA\n4 L7 M ? -\nBAD 7\n");
    // `--text` makes text of any name, and words are no text.
    folder.kav(&["list", "--text", "a.words"]).refuses(&["a.words: line 1, column 1: ", text]);
}

#[test]
fn unreadable_messages() {
    let folder = Folder::new("messages");
    for wrong in [
        "L7",
        "L7M",
        "L7M?",
        "L7M?*L7M?*",
        "xL7M?*",
        "L7M?*x",
        "*",
        "L0M?*",
        "L7m#00234*",
        "L7 m",
        "L7 m #",
        "L7 m # x",
        "L7 m # 2.3 4",
        "L7 m # 99999",
        "L7 m # 2.3456",
        "L7 m # 1.",
        "L7 m # +1",
        "L7 m ? 2.3",
        "L7 m + 1",
        "L7 mm ?",
        "L7 m ??",
        "L7 ? +",
        "L7 ? I",
        "L7 M !",
        "L7 7 ?",
        "L7 * ?",
        "L0 M ?",
        "L100 M ?",
        "L M ?",
        "7 M ?",
        "X7 M ?",
        "l7 M ?",
        "L-7 M ?",
        "é7 M ?",
        "L7 é ?",
        "L7~M?*",
        "{4C}7M?*",
    ] {
        folder.write("messages", format!("L7 M ?\n\n{wrong}\nL7 M ?\n"));
        let ended = folder.kav(&["write", "--spelled", "messages"]);
        assert_eq!(ended.status, 2, "{wrong}");
        ended.refuses(&["messages: line 3: expected a message, as `L7 m # 2.3`"]);
    }
    folder.kav(&["write", "--spelled", "missing"]).refuses(&["missing: ", "No such file"]);
    folder.kav(&["write", "--spelled", "."]).refuses(&["kav: .: ", "directory"]);
}

/// Transcripts that can't be compared: each is named, and the others are compared all the same.
#[test]
fn unreadable_transcripts() {
    let folder = Folder::with_case_e("transcripts");
    let good = folder.kav(&["play", "--sheet", "bench.sheet", "a.words"]).out;
    folder.write("a.transcript", &good);
    let words = file_of(&said("L7m#00231*L7mI*"));
    let unread = |name: &str, transcript: &[u8], what: &str| {
        folder.write(&format!("{name}.transcript"), transcript);
        let ended = folder.kav(&["verify", "."]);
        std::fs::remove_file(folder.path(&format!("{name}.transcript"))).unwrap();
        ended.fails(&["not every transcript could be compared"]);
        let lines: Vec<&str> = ended.out.lines().collect();
        assert_eq!(lines.len(), 3, "{ended:?}");
        assert!(lines.contains(&"same     a.words"), "{ended:?}");
        assert!(lines[2].starts_with("END 1 same, 0 differ, 1 unread, "), "{ended:?}");
        let named = format!("{name}.transcript");
        let line = lines.iter().find(|line| line.starts_with("unread   ") && line.contains(&named));
        assert!(line.is_some_and(|line| line.contains(what)), "expected {what:?} in {ended:?}");
    };
    unread("z", good.as_bytes(), "expected a recording beside it");
    folder.write("z.words", &words);
    // Cut off inside a line, or empty.
    unread("z", &good.as_bytes()[..good.len() - 1], "cut off");
    unread("z", &good.as_bytes()[..good.len() - 20], "cut off");
    unread("z", b"--card L7", "cut off");
    unread("z", b"", "cut off");
    unread("z", &[good.as_bytes(), b"\xFF\n"].concat(), "expected plain text");
    unread("z", format!("--bogus 1\n{good}").as_bytes(), "line 1: --bogus: no such setting");
    unread(
        "z",
        good.replace("--scan none\n", "--scan none\n--text\n").as_bytes(),
        "line 5: --text: no such setting",
    );
    unread("z", good.replace("bench.sheet", "missing.sheet").as_bytes(), "missing.sheet");
    unread("z", good.replace("L7\n", "L0\n").as_bytes(), "--card L0");
    unread("z", good.replace("--revision 1", "--revision 3").as_bytes(), "--revision 3");
    unread("z", good.replace("--scan none", "--set m=2.1").as_bytes(), "--set m=2.1");
    folder.write("z.txt", "L7M?*");
    unread("z", good.as_bytes(), "found more");
    std::fs::remove_file(folder.path("z.txt")).unwrap();
    // A recording that can't be read is unread too; its own name is said.
    for (bytes, what) in [(b"abc".to_vec(), "byte 2 "), (file_of(&[300]), "word 0 is 300")] {
        folder.write("z.words", bytes);
        folder.write("z.transcript", &good);
        let ended = folder.kav(&["verify", "."]);
        ended.fails(&["not every transcript"]);
        assert!(ended.out.contains("unread   ./z.words: ") && ended.out.contains(what), "{ended:?}");
    }
}

#[test]
fn nothing_to_verify() {
    let folder = Folder::new("nothing");
    let ended = folder.kav(&["verify", "."]);
    ended.fails(&["expected a recording with a transcript beside it"]);
    assert_eq!(ended.out, "END 0 same, 0 differ, 0 unread, 0 without a transcript\n");
    folder.write("bench.sheet", BENCH);
    folder.write("a.words", "");
    let ended = folder.kav(&["verify", "--sheet", "bench.sheet", "."]);
    ended.fails(&["expected a recording with a transcript beside it"]);
    assert_eq!(ended.out, "END 0 same, 0 differ, 0 unread, 1 without a transcript\n");
    folder.kav(&["verify", "missing"]).refuses(&["missing: ", "No such file"]);
    folder.kav(&["verify", "a.words"]).refuses(&["a.words: ", "Not a directory"]);
}

/// Standard input for both a sheet and a recording: the second finds nothing there.
#[test]
fn standard_input_twice() {
    let folder = Folder::new("twice");
    let ended = folder.kav_reads(&["play", "--sheet", "-", "-"], BENCH.as_bytes());
    assert_eq!((ended.status, ended.out.as_str()), (2, ""));
}

/// Numbers with a sign where the papers have digits alone.
#[test]
fn numbers_with_a_sign() {
    let folder = Folder::with_case_e("signed");
    for message in ["L+7 M ?", "L007 M ?", "L+07 M ?"] {
        folder
            .kav_reads(&["write", "--spelled", "-"], message.as_bytes())
            .refuses(&["line 1: expected a message"]);
    }
    for revision in ["+1", "01", "+2"] {
        let ended = folder.kav(&["play", "--sheet", "bench.sheet", "--revision", revision, "a.words"]);
        ended.refuses(&[&format!("--revision {revision}: "), "expected 1 or 2"]);
    }
    folder.write("signed.sheet", "m rw +1 0.5 0.0 100.0 2.0\n");
    folder.kav(&["play", "--sheet", "signed.sheet", "a.words"]).refuses(&["signed.sheet: line 1: "]);
}

/// The options of `verify` are judged though every transcript has settings of its own; a sheet given there is looked for as
/// `play` does.
#[test]
fn options_of_verify() {
    let folder = Folder::with_case_e("given");
    let replay = folder.kav(&["play", "--sheet", "bench.sheet", "a.words"]).out;
    folder.write("a.transcript", &replay);
    for options in
        [["--model", "bogus"], ["--revision", "9"], ["--card", "Q"], ["--set", "zzz"], ["--sheet", "no"]]
    {
        let [option, value] = options;
        let ended = folder.kav(&["verify", option, value, "."]);
        assert_eq!((ended.status, ended.out.as_str()), (2, ""), "{options:?}");
        assert!(ended.err.contains(value), "{ended:?}");
    }
    std::fs::create_dir(folder.path("inner")).unwrap();
    for name in ["a.words", "a.transcript"] {
        std::fs::rename(folder.path(name), folder.path(&format!("inner/{name}"))).unwrap();
    }
    let body: String =
        replay.lines().filter(|line| !line.starts_with("--")).map(|line| format!("{line}\n")).collect();
    folder.write("inner/a.transcript", body);
    let ended = folder.kav(&["verify", "--sheet", "bench.sheet", "inner"]);
    assert_eq!((ended.status, ended.err.as_str()), (0, ""), "{}", ended.out);
}

/// A transcript with carriage returns is named by its line, and a difference that doesn't print is shown by its code.
#[test]
fn carriage_returns() {
    let folder = Folder::with_case_e("returns");
    let replay = folder.kav(&["play", "--sheet", "bench.sheet", "a.words"]).out;
    folder.write("a.transcript", replay.replace('\n', "\r\n"));
    let ended = folder.kav(&["verify", "."]);
    assert_eq!(ended.status, 2);
    assert!(ended.out.contains("a.transcript: line 1: --card: expected a line feed alone"), "{}", ended.out);
    for (end, shown) in
        [("\r\n", "L7m00201A*\\r |"), ("  \n", "L7m00201A*\\x20\\x20 |"), ("\u{1b}[2K\n", "\\u{1b}[2K |")]
    {
        folder.write("a.transcript", replay.replace("00201A*\n", &format!("00201A*{end}")));
        let ended = folder.kav(&["verify", "."]);
        assert_eq!(ended.status, 1);
        assert!(ended.out.contains(shown) && !ended.out.contains('\u{1b}'), "{}", ended.out);
    }
    folder.write("a.transcript", replay.replace("--card L7", "--card L0"));
    let ended = folder.kav(&["verify", "."]);
    assert!(ended.out.contains("a.transcript: line 1: --card L0: "), "{}", ended.out);
}

/// A file that claims to be longer than any memory, one that isn't a file, and what can't be asked for.
#[test]
fn hostile_files() {
    let folder = Folder::with_case_e("hostile");
    let big = std::fs::File::create(folder.path("big.words")).unwrap();
    // As long as the file system lets it be.
    if (40..60).rev().any(|bits| big.set_len(1 << bits).is_ok()) {
        let ended = folder.shell("ulimit -v 4000000; exec \"$KAV\" list big.words");
        ended.refuses(&["big.words: too long for this machine's memory"]);
    }
    let made = std::process::Command::new("mkfifo").arg(folder.path("b.words")).status();
    if made.is_ok_and(|status| status.success()) {
        folder.write("b.transcript", "--card L7\n");
        let ended = folder.kav(&["verify", "."]);
        assert!(ended.out.contains("b.transcript: expected a recording beside it"), "{ended:?}");
    }
    folder
        .kav(&["play", "--sheet", "bench.sheet", "--out", "-", "a.words"])
        .refuses(&["--out -", "expected a file"]);
    let ended = folder.kav(&["play", "--sheet", "bench.sheet", "--cards", "L7", "--drops", "a.words"]);
    ended.refuses(&["--drops: expected --card"]);
    folder.kav_reads(&["list", "-"], b"L7??*L").fails(&["word 0 is 14156", "a text needs --text"]);
}
