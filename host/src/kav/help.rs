//! What `--help` prints.

use super::output::Output;
use super::{failure, Failure, WELL};

pub const NAMES: &str = "play, list, normal, write, read, verify or help";

const ALL: &str = "\
kav: replays recordings of RS485 option cards, by proved calls

    kav play RECORDING      plays it at a card: each message, its reply, and why it said N or nothing
    kav list RECORDING      lists the messages heard in it, whatever their card
    kav normal RECORDING    its normal form: those messages and nothing else, in one spelling
    kav write MESSAGES      messages in text to words
    kav read REPLIES        replies to text
    kav verify FOLDER       replays every recording that has a transcript beside it, and compares

`kav COMMAND --help` says more, with an example. A recording is a file, or - for standard input: words of two bytes,
low byte first, or text where the name ends in .text or .txt, or with --text.

In a text, a character stands for its byte in good parity, ~ is a silence longer than the card's timeout, and {4C} is
any other byte, in hex. Blanks and line ends don't count.

Output goes to standard output, or with --out FILE to a new file; a file that exists is never written to.
Status: 0 all well, 1 differences found, 2 bad usage, unreadable input or a failed write.
";

const PLAY: &str = "\
kav play [OPTION..] RECORDING: plays a recording at a card

    --model NAME        dcp100 (the default), programmer or udi1500: maker's sheet, values, scan and letter
    --sheet FILE        a bench sheet in text; with no --model it is the only one
    --card L7           letter and address; the default is the model's letter and 7
    --cards L7,R7,L8    several cards on one pair; replies alone are shown, no causes and no drops
    --revision 1|2      the card's revision; 1 is the default
    --scan SMWL|none    the identifiers that a query of ] answers with; the model's by default
    --set m=2.0         a starting value; may be given again, and of two for one identifier the later holds
    --drops             show each message that was dropped, at the word that did it
    --text              the input is text
    --out FILE          write to a new file

First come the settings. Then there is a line for each closed message: the position of its *, counted from 0; the message; the
reply, or - for silence; and why it was N or silence. Under a message that isn't well formed, ^ marks the first
character that no message could have there. The last line counts; it is missing where the replay isn't whole.

A bench sheet has a line for each row, identifiers rising: identifier, access (r, rw or w), decimals, step, least,
greatest, value at first. Lines that begin with // are passed over.

    m rw 1 0.5 0.0 100.0 2.0

Example:  kav play --sheet samples/bench.sheet samples/case-e.words
";

const LIST: &str = "\
kav list [--text] [--out FILE] RECORDING: lists the messages heard in a recording

For each one: the position of its *, counted from 0, letter and address, identifier, sign, and data or -.
END gives their number. In its place, BAD and a position is a word above 256, and ODD a lone last byte; the status is then 2.

Example:  kav list samples/paper-example.words
";

const NORMAL: &str = "\
kav normal [--text] [--spelled] [--out FILE] RECORDING: the normal form of a recording

The messages heard, in one spelling, nothing between. As words; with --spelled, or where the name behind --out ends in
.text or .txt, as text, one message to a line.

Example:  kav normal --spelled samples/paper-example.words
";

const WRITE: &str = "\
kav write [--spelled] [--out FILE] MESSAGES: messages in text to words

One message to a line, by its parts or as it is spelled:

    L7 m # 2.3          set m to 2.3 (Type 3)      L7 m I      store what was offered (Type 4)
    L7 m +              one step up; - is down     L7 M ?      query
    L7 ? ?              status (Type 1)            L7m#00231*  the first of these, spelled

As words; with --spelled, or where the name behind --out ends in .text or .txt, as text, one message to a line.

Example:  echo 'L7 m # 2.3' | kav write --spelled -
";

const READ: &str = "\
kav read [--text] [--out FILE] REPLIES: replies to text

For each one: the position of its *, counted from 0, letter and address, identifier, A, I or N, and its numbers.
What isn't one whole reply is named on standard error, and the status is 2.

Example:  echo 'L7M02311A*' | kav read --text -
";

const VERIFY: &str = "\
kav verify [OPTION..] FOLDER: replays every recording that has a transcript beside it, and compares

NAME.transcript is what `kav play` wrote for NAME.words, NAME.text or NAME.txt in the same folder. Its first lines, those
that begin with --, are the settings it is replayed with; a sheet is looked for in the folder. A transcript without
them is replayed with the options given here, which are those of play but for --text and --out; a sheet is then looked
for as play does.

For each: same or differs, and where it differs the first such line of both. The status is 1 where one differs, and 2 where
one couldn't be read. No file is opened for writing.

Example:  kav verify samples/collection
";

pub fn print(command: &str) -> Result<u8, Failure> {
    let text = match command {
        "" => ALL,
        "play" => PLAY,
        "list" => LIST,
        "normal" => NORMAL,
        "write" => WRITE,
        "read" => READ,
        "verify" => VERIFY,
        _ => return failure(format!("help {command}"), format!("expected a command: {NAMES}")),
    };
    let mut output = Output::standard()?;
    output.put(text.as_bytes())?;
    output.finish()?;
    Ok(WELL)
}
