//! Parity, how a message is opened, dropped and closed, and which ones are well formed.

use super::{heard, words};
use crate::reference::hearing::Open;
use crate::reference::message::{parse, Data, Kind};
use crate::reference::parity::{is_good, on_line};

#[test]
fn parity() {
    assert_eq!((on_line(b'L'), on_line(b'*'), on_line(b'?')), (0xCC, 0xAA, 0x3F));
    for byte in 0..=255u8 {
        let ones = (0..8).filter(|bit| byte >> bit & 1 == 1).count();
        assert_eq!(is_good(byte), ones % 2 == 0);
        assert_eq!(is_good(byte), on_line(byte & 0x7F) == byte);
    }
}

fn heard_at(text: &str) -> Vec<usize> {
    heard(&words(text)).into_iter().map(|(at, _)| at).collect()
}

#[test]
fn opening_and_closing() {
    // The same seven bits in bad parity open nothing, and drop inside; a bad `*` doesn't close.
    let mut sent = words("L7??*");
    sent[0] = 0x4C;
    assert!(heard(&sent).is_empty());
    let mut sent = words("L7??*");
    sent[4] = 0x2A;
    assert!(heard(&sent).is_empty());
    let mut sent = words("L7L?*");
    sent[2] = 0x4C;
    assert!(heard(&sent).is_empty());
    // The word that drops a message opens nothing; the one behind it may.
    assert_eq!(heard(&[&[0xCC, 256][..], &words("L7??*")].concat()).len(), 1);
    assert!(heard(&[&[0xCC, 256][..], &words("7??*")].concat()).is_empty());
    // Ten characters and `*`.
    assert_eq!(heard_at("L07m#00231*"), [10]);
    // An eleventh is used up, an `L` too; the twelfth may open.
    assert_eq!(heard_at("L123456789LL7??*"), [15]);
    assert!(heard_at("L123456789L7??*").is_empty());
    assert!(heard_at("L07m#002311*").is_empty());
    // `L` and `R` inside are added.
    assert!(heard_at("L7L7??*").is_empty());
    assert_eq!(heard_at("L7L?*R7R?*"), [4, 9]);
    // Controls are added and count: NUL too.
    let mut open = Open::NONE;
    assert_eq!(open.to_close(&[0xCC, 0, 0, 0]), 4);
    assert_eq!((open.length, open.characters()), (4, &[b'L', 0, 0, 0][..]));
    // 256 with none open, and words between, do nothing.
    assert_eq!(heard(&[&[256, 256, 0][..], &words("x*L7??*")].concat()).len(), 1);
    // `*` with none open closes nothing.
    assert_eq!(heard_at("***L7??**"), [7]);
}

#[test]
fn well_formed() {
    let kind = |text: &str| parse(text.as_bytes()).map(|message| message.kind);
    let address = |text: &str| parse(text.as_bytes()).map(|message| message.address);
    for (text, number) in [("L7M?", 7), ("L07M?", 7), ("L70M?", 70), ("L99M?", 99), ("R10M?", 10)] {
        assert_eq!(address(text), Some(number), "{text}");
    }
    for text in ["L0M?", "L00M?", "L007M?", "L123M?", "LM?", "L", "", "L7", "L7M", "7M?", "x7M?"] {
        assert_eq!(address(text), None, "{text}");
    }
    let data = |number, decimals, minus_zero| Some(Kind::Set { data: Data { number, decimals }, minus_zero });
    let set = |number, decimals| data(number, decimals, false);
    for (text, expected) in [
        ("L7??", Some(Kind::Status)),
        ("L7##00231", set(23, 1)),
        ("L7+-", Some(Kind::Down)),
        ("L7II", Some(Kind::Store)),
        ("L7L?", Some(Kind::Query)),
        ("L7]+", Some(Kind::Up)),
        ("L7!?", Some(Kind::Query)),
        ("L7~?", Some(Kind::Query)),
        ("L7m#99993", set(9999, 3)),
        ("L7m#99998", set(-9999, 3)),
        ("L7m#00000", set(0, 0)),
        ("L7m#00003", set(0, 3)),
        ("L7m#00005", data(0, 0, true)),
        ("L7m#00008", data(0, 3, true)),
        ("L7#00231", None),
        ("L7?+", None),
        ("L7?-", None),
        ("L7?I", None),
        ("L7?#00000", None),
        ("L7m#00004", None),
        ("L7m#00009", None),
        ("L7m#0023", None),
        ("L7m#002311", None),
        ("L7m#", None),
        ("L7m#0 231", None),
        ("L7m?+", None),
        ("L7m??", None),
        ("L7mi", None),
        ("L7 ?", None),
        ("L7\x7f?", None),
        ("L7*?", None),
        ("L7m:", None),
    ] {
        assert_eq!(kind(text), expected, "{text}");
    }
    assert_ne!(parse(b"L7m#00000"), parse(b"L7m#00001"));
    // Request 5.
    assert_ne!(parse(b"L7m#00001"), parse(b"L7m#00006"));
}
