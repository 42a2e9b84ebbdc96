//! Request 4: the cause of each `N` and of each silence, and the position in what isn't well formed.

use super::{values, words, BENCH, CARD};
use crate::reference::calls::{self, row_of};
use crate::reference::card::{step, Card, Offer};
use crate::reference::cause::{first_wrong, Cause};
use crate::reference::message::parse;
use crate::reference::scan::Scan;
use std::collections::BTreeSet;

const OFFERED: Option<Offer> = Some(Offer { identifier: b'm', value: 30 });
const SCANNING: Scan = Scan { count: 4, identifiers: *b"mJMM\0" };

/// Cards with and without an offer and a scan.
const CARDS: [Card; 4] = [
    CARD,
    Card { offer: OFFERED, ..CARD },
    Card { scan: SCANNING, ..CARD },
    Card { offer: OFFERED, scan: SCANNING, ..CARD },
];

/// The cause of the last of these words, under sheets and values.
fn cause_under(mut card: Card, bench: &[i32], maker: &[i32], values: &mut [i32], sent: &[u16]) -> Cause {
    let steps = sent.iter().map(|&word| step(&mut card, bench, maker, values, word, &mut [0; 33]).unwrap());
    steps.last().unwrap().cause
}

fn cause(card: Card, sent: &str) -> Cause {
    cause_under(card, &BENCH, &[], &mut values(), &words(sent))
}

/// Messages that aren't well formed, with their positions.
const POSITIONS: [(&str, usize); 30] = [
    ("L0??*", 2),
    ("L00M?*", 2),
    ("L100M?*", 3),
    ("L*", 1),
    ("L7*", 2),
    ("L7M*", 3),
    ("L7?+*", 3),
    ("L7??x*", 4),
    ("L7m#1234*", 8),
    ("L7m#00304*", 8),
    ("L7m#000001*", 9),
    ("L8M!*", 3),
    ("L?*", 1),
    ("LL7??*", 1),
    ("R0*", 2),
    ("L007M?*", 2),
    ("L07*", 3),
    ("L70*", 3),
    ("L7 ?*", 2),
    ("L7\u{7f}?*", 2),
    ("L7#00231*", 3),
    ("L7M??*", 4),
    ("L7m#*", 4),
    ("L7m#0x*", 5),
    ("L7m#00?*", 6),
    ("L7m#000?0*", 7),
    ("L70M++*", 5),
    ("L70m#00009*", 9),
    ("L07m#0000*", 9),
    ("R99]#00004*", 9),
];

#[test]
fn positions() {
    for (sent, position) in POSITIONS {
        // Whatever address it seems to have, and whatever the card.
        for card in CARDS {
            for (letter, address) in [(b'L', 7), (b'L', 70), (b'L', 8), (b'R', 7)] {
                let card = Card { letter, address, ..card };
                assert_eq!(cause(card, sent), Cause::NotWellFormed(position), "{sent}");
            }
        }
    }
    let all: BTreeSet<usize> = POSITIONS.map(|(_, position)| position).into();
    assert_eq!(all, (1..=9).collect());
}

/// What completes the beginning of a well-formed message, wherever it ends.
const ENDS: [&str; 11] = ["", "*", "?*", "M?*", "7M?*", "L7M?*", "0*", "00*", "000*", "0000*", "00000*"];

fn begins_a_well_formed_message(characters: &[u8]) -> bool {
    ENDS.iter().any(|end| match [characters, end.as_bytes()].concat().split_last() {
        Some((b'*', before)) => !before.contains(&b'*') && parse(before).is_some(),
        _ => false,
    })
}

/// The position by its definition; `None` where the message is well formed.
fn by_definition(characters: &[u8]) -> Option<usize> {
    let closed = [characters, b"*"].concat();
    (0..closed.len()).find(|&at| !begins_a_well_formed_message(&closed[..=at]))
}

fn same_position(characters: &[u8]) {
    let wanted = by_definition(characters);
    assert_eq!(wanted.is_none(), parse(characters).is_some());
    // All of a well-formed message matches, its `*` too.
    assert_eq!(first_wrong(characters), wanted.unwrap_or(characters.len() + 1), "{characters:?}");
}

/// Every text of these characters behind a beginning, up to so many characters together.
fn every_text(beginning: &str, alphabet: &[u8], length: usize) {
    let mut texts = vec![beginning.as_bytes().to_vec()];
    for _ in beginning.len()..=length {
        texts.iter().for_each(|text| same_position(text));
        texts =
            texts.iter().flat_map(|text| alphabet.iter().map(|&last| [text, &[last][..]].concat())).collect();
    }
}

#[test]
fn the_position_is_that_of_the_definition() {
    every_text("L", b"L079M?#+I \x7f", 6);
    every_text("R7", b"04?-]#", 8);
    every_text("L7m#", b"0459?", 10);
    every_text("L07m#", b"0348#", 10);
    for shape in
        ["L7??", "R07??", "L70??", "L7M?", "L07M+", "R70M-", "L9MI", "L7m#00231", "L07m#99998", "R10]#00000"]
    {
        for at in 1..shape.len() {
            for character in (0..128).filter(|&character| character != b'*') {
                let mut text = shape.as_bytes().to_vec();
                text[at] = character;
                same_position(&text);
                text.insert(at, shape.as_bytes()[at]);
                same_position(&text);
                same_position(&text[..at]);
            }
        }
    }
}

/// Messages and words with their causes at the four cards: one with neither offer nor scan, one with an offer for
/// `m`, one with a scan, one with both.
#[test]
fn each_cause() {
    use Cause::{Access, Decimals, Identifier, Limit, NoOffer, NotClosed, OtherCard, Range};
    const NONE: Cause = Cause::None;
    let mut drawn = BTreeSet::new();
    for (sent, wanted) in [
        ("L7??*", [NONE; 4]),
        ("L7m?*", [NONE; 4]),
        ("L7m+*", [NONE; 4]),
        ("L7m#00301*", [NONE; 4]),
        ("L7mI*", [NoOffer, NONE, NoOffer, NONE]),
        ("L7a?*", [Identifier; 4]),
        ("L7a+*", [Identifier; 4]),
        ("L7a#00004*", [Cause::NotWellFormed(8); 4]),
        ("L7a#99993*", [Identifier; 4]),
        ("L7Z?*", [Access; 4]),
        ("L7Z-*", [Access; 4]),
        ("L7M+*", [Access; 4]),
        // Read only and wrong decimals, out of range, or both.
        ("L7M#02311*", [Access; 4]),
        ("L7M#02310*", [Access; 4]),
        ("L7M#99996*", [Access; 4]),
        ("L7M#99998*", [Access; 4]),
        // Wrong decimals, in range and not.
        ("L7m#00230*", [Decimals; 4]),
        ("L7m#10032*", [Decimals; 4]),
        ("L7Z#00001*", [Decimals; 4]),
        ("L7m#10031*", [Range; 4]),
        ("L7m#00016*", [Range; 4]),
        ("L7Z#00190*", [Range; 4]),
        ("L7m-*L7m-*L7m-*L7m-*L7m-*", [Limit; 4]),
        ("R7m?*", [OtherCard; 4]),
        ("L8mI*", [OtherCard; 4]),
        ("R7a#00000*", [OtherCard; 4]),
        ("L8]+*", [OtherCard; 4]),
        ("L8??*", [OtherCard; 4]),
        ("L7JI*", [NoOffer; 4]),
        ("L7aI*", [NoOffer; 4]),
        ("L7MI*", [NoOffer; 4]),
        ("L7]I*", [NoOffer; 4]),
        ("L7]?*", [Identifier, Identifier, NONE, NONE]),
        ("L7]+*", [Identifier, Identifier, Access, Access]),
        ("L7]-*", [Identifier, Identifier, Access, Access]),
        ("L7]#00000*", [Identifier, Identifier, Access, Access]),
        ("L7]#99998*", [Identifier, Identifier, Access, Access]),
        ("L", [NotClosed; 4]),
        ("L7m+", [NotClosed; 4]),
        // However the message would be answered if it were closed.
        ("L8m?", [NotClosed; 4]),
        ("L8M!", [NotClosed; 4]),
        ("L7mI", [NotClosed; 4]),
        ("*", [NotClosed; 4]),
        ("x", [NotClosed; 4]),
        ("L7M!*L7m+", [NotClosed; 4]),
        ("L7m+**", [NotClosed; 4]),
        ("L7m#0023123", [NotClosed; 4]),
        ("L7m#0023123*", [NotClosed; 4]),
    ] {
        for (card, wanted) in CARDS.into_iter().zip(wanted) {
            for revision in [1, 2] {
                assert_eq!(cause(Card { revision, ..card }, sent), wanted, "{sent} {card:?}");
            }
            drawn.insert(wanted.numbers()[0]);
        }
    }
    // None of these has minus zero.
    assert_eq!(drawn, [0, 1, 2, 3, 5, 6, 7, 8, 9, 10].into());
    for sent in [&[256][..], &[0xCC, 256], &[0xCC, 0x4C], &[0xCC, 0x37, 0x2A]] {
        assert_eq!(cause_under(CARD, &BENCH, &[], &mut values(), sent), NotClosed, "{sent:?}");
    }
}

#[test]
fn the_limits_of_a_step() {
    let row = |access| [109, access, 1, 5, -10, 10];
    for (value, up, down) in
        [(-10, Cause::None, Cause::Limit), (0, Cause::None, Cause::None), (10, Cause::Limit, Cause::None)]
    {
        for (body, wanted) in [("+", up), ("-", down)] {
            let sent = words(&format!("L7m{body}*"));
            let under = |access| cause_under(CARD, &row(access), &[], &mut [value; 128], &sent);
            assert_eq!(under(2), wanted, "{value} {body}");
            // Access comes first.
            assert_eq!([under(1), under(3)], [Cause::Access; 2], "{value} {body}");
        }
    }
}

#[test]
fn the_row_that_wins_decides() {
    let (open, shut) = ([109, 2, 1, 5, 0, 1000], [109, 1, 1, 5, 0, 1000]);
    let (narrow, other) = ([109, 2, 1, 5, 0, 20], [109, 3, 3, 1, 0, 9999]);
    for (bench, maker, sent, wanted) in [
        (&open[..], &shut[..], "L7m+*", Cause::None),
        (&shut, &open, "L7m+*", Cause::Access),
        (&open, &other, "L7m?*", Cause::None),
        (&other, &open, "L7m?*", Cause::Access),
        (&narrow, &open, "L7m+*", Cause::Limit),
        (&open, &narrow, "L7m+*", Cause::None),
        (&narrow, &open, "L7m#00301*", Cause::Range),
        (&open, &narrow, "L7m#00301*", Cause::None),
        (&open, &other, "L7m#00303*", Cause::Decimals),
        (&other, &open, "L7m#00303*", Cause::None),
        (&other, &open, "L7m#00301*", Cause::Decimals),
        (&[], &narrow, "L7m#00301*", Cause::Range),
        (&narrow, &[], "L7m#00301*", Cause::Range),
        (&[], &[], "L7m#00301*", Cause::Identifier),
    ] {
        let got = cause_under(CARD, bench, maker, &mut [20; 128], &words(sent));
        assert_eq!(got, wanted, "{bench:?} {maker:?} {sent}");
    }
}

#[test]
fn where_the_two_numbers_stand() {
    let mut card = CARD;
    card.open.to_close(&words("L70m#0000"));
    for (length, wanted) in
        [(0, &[][..]), (1, &[77]), (2, &[10, 9]), (3, &[10, 9, 77]), (5, &[10, 9, 77, 77, 77])]
    {
        let (mut row, mut cause) = (row_of(&card), vec![77; length]);
        let given = calls::step(&mut row, &BENCH, &[], &mut values(), 0xAA, &mut [0; 33], &mut cause);
        assert_eq!((given, &cause[..]), (if length < 2 { -5 } else { 0 }, wanted));
        assert_eq!(row, row_of(if length < 2 { &card } else { &CARD }));
    }
    // One behind the other, in one slice: each served word writes both.
    let (mut row, mut cause) = (row_of(&CARD), [77; 2]);
    for (sent, code, position) in
        [("L7M!*", 10, 3), ("L", 9, 0), ("8??*", 7, 0), ("L7m?*", 0, 0), ("x", 9, 0)]
    {
        for word in words(sent) {
            calls::step(&mut row, &BENCH, &[], &mut values(), word, &mut [0; 33], &mut cause);
        }
        assert_eq!(cause, [code, position], "{sent}");
    }
}
