//! Messages for another letter or address: the card takes no notice of them.

use super::{answers, from_afresh, heard, line, values, words, BENCH, CARD};
use crate::reference::card::{run, step, Card, Offer, Ran, Stepped};
use crate::reference::cause::Cause;
use crate::reference::normal::normal_form;
use crate::reference::scan::Scan;

/// `m` offered at 30.
const OFFERED: Card = Card { offer: Some(Offer { identifier: b'm', value: 30 }), ..CARD };

/// A body of each type, on identifiers with and without a row, in range and not.
const BODIES: [&str; 20] = [
    "??", "m?", "m+", "m-", "mI", "m#00301", "m#00401", "m#10031", "m#00300", "m#00006", "M?", "M#00001",
    "JI", "J#00126", "Z#00150", "ZI", "a?", "a#00000", "]?", "]I",
];

/// The messages with this head and each body.
fn each(head: &str) -> Vec<String> {
    BODIES.iter().map(|body| format!("{head}{body}*")).collect()
}

/// Heads at card L7 that are for another card.
const OTHERS: [&str; 9] = ["R7", "R07", "L8", "L08", "L17", "L70", "L77", "L1", "R99"];

/// A card that has heard this is as before, and silent.
fn takes_no_notice(card: Card, sent: &str) {
    let (mut after, mut held) = (card, values());
    assert_eq!(answers(&mut after, &mut held, &words(sent)), "", "{sent}");
    assert_eq!((after, held), (card, values()), "{sent}");
}

/// The card stores `m` at 30 behind this.
fn stores_behind(between: &str) {
    let (mut card, mut held, mut wanted) = (CARD, values(), values());
    let sent = words(&format!("L7m#00301*{between}L7mI*"));
    assert_eq!(answers(&mut card, &mut held, &sent), "L7m00301I*L7m00301A*", "{between}");
    wanted[usize::from(b'm')] = 30;
    assert_eq!((card, held), (CARD, wanted), "{between}");
}

#[test]
fn nothing_changes_but_the_message_closed() {
    let scan = Scan { count: 4, identifiers: *b"mJMM\0" };
    for head in OTHERS {
        for sent in each(head) {
            assert_eq!(heard(&words(&sent)).len(), 1, "{sent} is heard");
            for card in [CARD, OFFERED, Card { scan, ..CARD }, Card { scan, ..OFFERED }] {
                takes_no_notice(card, &sent);
            }
            stores_behind(&sent);
        }
    }
}

#[test]
fn a_neighbours_type_4_does_not_use_the_offer_up() {
    for between in ["L8mI*", "R7mI*", "L8JI*", "L8mI*L8mI*R8mI*"] {
        takes_no_notice(OFFERED, between);
        stores_behind(between);
        // Ours uses it up: a second one finds none.
        let sent = format!("L7m#00301*{between}L07mI*{between}L7mI*");
        assert_eq!(from_afresh(&sent), "L7m00301I*L7m00301A*", "{sent}");
    }
    // It stores nothing, with its own Type 3 before it or not.
    takes_no_notice(CARD, "L8mI*");
    takes_no_notice(CARD, "L8m#00301*L8mI*");
}

#[test]
fn a_neighbours_type_3_leaves_no_offer() {
    // In range, the same number, out of range, with other decimals, and for another identifier.
    for set in ["m#00401", "m#00301", "m#10031", "m#00300", "J#00126", "M#00001", "a#00000"] {
        for head in ["L8", "R7"] {
            stores_behind(&format!("{head}{set}*"));
            stores_behind(&format!("{head}{set}*{head}mI*"));
            // With none of ours before it there is still none behind it.
            assert_eq!(from_afresh(&format!("{head}{set}*L7mI*L7JI*")), "", "{head}{set}");
        }
    }
    // Each card has its own: ours is 30, the neighbour's 40.
    let pair = "L7m#00301*R7m#00401*R7mI*L7mI*";
    assert_eq!(from_afresh(pair), "L7m00301I*L7m00301A*");
    let mut other = Card { letter: b'R', ..CARD };
    assert_eq!(answers(&mut other, &mut values(), &words(pair)), "R7m00401I*R7m00401A*");
}

#[test]
fn the_other_letter_with_the_same_address() {
    for sent in each("R7").into_iter().chain(each("R07")) {
        takes_no_notice(OFFERED, &sent);
        stores_behind(&sent);
    }
    let right = Card { letter: b'R', ..OFFERED };
    each("L7").iter().for_each(|sent| takes_no_notice(right, sent));
    assert_eq!(answers(&mut right.clone(), &mut values(), &words("L7mI*R07mI*")), "R7m00301A*");
}

#[test]
fn an_offer_outlives_many_neighbours() {
    let all: String = OTHERS.iter().flat_map(|head| each(head)).collect();
    assert_eq!(heard(&words(&all)).len(), OTHERS.len() * BODIES.len());
    stores_behind(&all);
    stores_behind(&each("L8").concat());
    // With silences, drops and what isn't heard among them.
    let (mut card, mut held) = (OFFERED, values());
    for sent in each("R8") {
        let noise = [&words(&sent)[..], &[256, 0xCC, 256, 0xCC, 0x4C], &words("L7*L007mI*")].concat();
        assert_eq!(answers(&mut card, &mut held, &noise), "");
    }
    assert_eq!((card, held), (OFFERED, values()));
    assert_eq!(answers(&mut card, &mut held, &words("L7mI*")), "L7m00301A*");
}

#[test]
fn a_neighbours_scan() {
    for identifiers in [*b"mJMM\0", *b"mJMMJ"] {
        let count = if identifiers[4] == 0 { 4 } else { 5 };
        let card = Card { scan: Scan { count, identifiers }, ..OFFERED };
        for head in OTHERS {
            for body in ["]?", "]+", "]-", "]I", "]#00301"] {
                takes_no_notice(card, &format!("{head}{body}*"));
            }
        }
        // Ours still takes the offer away.
        for sent in ["L7]?*", "L07]I*"] {
            let (mut after, mut held) = (card, values());
            answers(&mut after, &mut held, &words(sent));
            assert_eq!((after, held), (Card { offer: None, ..card }, values()), "{sent}");
        }
    }
}

#[test]
fn addresses_of_two_digits() {
    // 07 is 7; 08, 17, 70 and 77 are others.
    let heads =
        [("L07mI*", true), ("L08mI*", false), ("L17mI*", false), ("L70mI*", false), ("L77mI*", false)];
    for (sent, ours) in heads {
        let wanted = if ours { "L7m00301A*" } else { "" };
        assert_eq!(answers(&mut OFFERED.clone(), &mut values(), &words(sent)), wanted, "{sent}");
    }
    let card = Card { address: 17, ..OFFERED };
    for sent in ["L7mI*", "L1mI*", "L71mI*", "L07mI*", "L01??*", "R17mI*"] {
        takes_no_notice(card, sent);
    }
    assert_eq!(answers(&mut card.clone(), &mut values(), &words("L7??*L17mI*")), "L17m00301A*");
}

#[test]
fn a_message_for_this_card_still_takes_the_offer_away() {
    let neighbours = each("L8").concat();
    for (ours, reply) in [
        ("??", "L7?A*"),
        ("m?", "L7m00201A*"),
        ("M?", "L7M02311A*"),
        ("a?", "L7a00000N*"),
        ("m+", "L7m00251A*"),
        ("M-", "L7M02311N*"),
        ("m#10031", "L7m00201N*"),
        ("m#00300", "L7m00201N*"),
        ("JI", ""),
        ("]?", "L7]00000N*"),
        ("]I", ""),
    ] {
        for head in ["L7", "L07"] {
            let sent = format!("L7m#00301*{neighbours}{head}{ours}*{neighbours}L7mI*");
            assert_eq!(from_afresh(&sent), format!("L7m00301I*{reply}"), "{head}{ours}");
        }
    }
    // A second Type 3 of ours takes the place of the first.
    let sent = format!("L7m#00301*{neighbours}L7J#00126*{neighbours}L7mI*L7JI*");
    assert_eq!(from_afresh(&sent), "L7m00301I*L7J00156I*");
    let sent = format!("L7m#00301*{neighbours}L7m#00401*{neighbours}L7mI*");
    assert_eq!(from_afresh(&sent), "L7m00301I*L7m00401I*L7m00401A*");
}

#[test]
fn what_is_unheard_is_no_neighbours_message() {
    for sent in
        ["L8m*", "L0??*", "L00mI*", "L008mI*", "L100mI*", "L8mI+*", "L8m#00304*", "L8?I*", "R7*", "R*"]
    {
        assert!(heard(&words(sent)).is_empty(), "{sent}");
        takes_no_notice(OFFERED, sent);
        stores_behind(sent);
    }
    // Replies that travel on the same pair, the card's own too.
    let scans = ["L8]20_00201_00001_02311_02311_A*", "R7]25_00201_00001_02311_02311_00001_A*"];
    for sent in ["L8?A*", "L8m00301I*", "L8m00301A*", "R7m00201N*", "L7m00301I*"].into_iter().chain(scans) {
        assert!(heard(&words(sent)).is_empty(), "{sent}");
        takes_no_notice(OFFERED, sent);
        stores_behind(sent);
    }
    // A neighbour's message that is dropped: the rest of it opens nothing.
    let (mut card, mut held) = (OFFERED, values());
    for drop in [256, 0x4C] {
        let sent = [&words("L8m")[..], &[drop], &words("I*")].concat();
        assert_eq!(answers(&mut card, &mut held, &sent), "");
        assert_eq!((card, held), (OFFERED, values()));
    }
}

#[test]
fn a_neighbours_message_asks_for_no_room() {
    let sent = words("L8mI*R7m#00401*L17]?*");
    let mut card = OFFERED;
    let ran = run(&mut card, &BENCH, &[], &mut values(), &sent, &mut []);
    assert_eq!((ran, card), (Ok(Ran { taken: sent.len(), written: 0 }), OFFERED));
    // The run stops at the store behind it, with the offer kept, and goes on from there.
    let (mut card, mut held) = (CARD, values());
    let sent = words("L7m#00301*L8mI*L7mI*L8mI*");
    let mut out = [0; 19];
    let ran = run(&mut card, &BENCH, &[], &mut held, &sent, &mut out);
    assert_eq!(ran, Ok(Ran { taken: 19, written: 10 }));
    assert_eq!((card.offer, held), (OFFERED.offer, values()));
    let ran = run(&mut card, &BENCH, &[], &mut held, &sent[19..], &mut out);
    assert_eq!((ran, card), (Ok(Ran { taken: 6, written: 10 }), CARD));
    assert_eq!(out[..10], line("L7m00301A*"));
    // A single word asks for 33 whatever it closes.
    let mut open = OFFERED;
    open.open.to_close(&words("L8mI"));
    for (room, wanted) in [(32, None), (33, Some(Stepped { written: 0, cause: Cause::OtherCard }))] {
        let mut card = open;
        let answer = step(&mut card, &BENCH, &[], &mut values(), 0xAA, &mut vec![0; room]);
        assert_eq!(answer.ok(), wanted);
        assert_eq!(card, if wanted.is_some() { OFFERED } else { open });
    }
}

#[test]
fn the_normal_form_keeps_them() {
    let sent = "L7m#00301*L8mI*R7??*L17]?*L7mI*";
    let mut out = [0; 40];
    let length = normal_form(&words(&format!("x{sent}L8")), &mut out).unwrap();
    assert_eq!(out[..length], words(sent));
}
