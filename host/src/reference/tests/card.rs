//! What a card answers, what becomes of an offer, and where a run stops.

use super::{answers, from_afresh, text, values, words, BENCH, CARD};
use crate::reference::calls::{card_of, row_of};
use crate::reference::card::{run, Card, Offer, Ran};
use crate::reference::scan::Scan;
use crate::reference::Refusal;

#[test]
fn bench_cases() {
    for (case, sent, answer) in [
        ('a', "L7??*", "L7?A*"),
        ('b', "L07M?*", "L7M02311A*"),
        ('c', "L7m+*", "L7m00251A*"),
        ('d', "L7M+*", "L7M02311N*"),
        ('e', "L7m#00231*L7mI*", "L7m00201I*L7m00201A*"),
        ('f', "L7J#00126*", "L7J00156I*"),
        ('g', "L7m#00230*", "L7m00201N*"),
        ('h', "L7m#10031*", "L7m00201N*"),
        // As request 5 says, for the first revision.
        ('i', "L7J#00006*", "L7J00001I*"),
        ('j', "L7mI*", ""),
        // As request 2 corrects it.
        ('k', "L7m#00301*L8??*L7mI*", "L7m00301I*L7m00301A*"),
        ('l', "L7Z?*", "L7Z00000N*"),
        ('m', "L7m#00304*L0??*L007M?*", ""),
        ('o', "L7Z#00150*", "L7Z00150I*"),
    ] {
        assert_eq!(from_afresh(sent), answer, "case {case}");
    }
    let (mut held, mut wanted) = (values(), values());
    answers(&mut CARD.clone(), &mut held, &words("L7m#00301*L8??*L7mI*"));
    wanted[usize::from(b'm')] = 30;
    assert_eq!(held, wanted, "case k: m ends at 30");
    let mut full = values();
    full[usize::from(b'm')] = 1000;
    assert_eq!(answers(&mut CARD.clone(), &mut full, &words("L7m+*")), "L7m10001N*", "case n");
}

#[test]
fn drops_keep_the_offer_and_clear_the_room() {
    let mut card = CARD;
    let mut values = values();
    answers(&mut card, &mut values, &words("L7m#00301*"));
    let offer = Some(Offer { identifier: b'm', value: 30 });
    assert_eq!(card, Card { offer, ..CARD });
    // Neither a silence, nor a drop, nor an unheard message touches an offer.
    for sent in [vec![256], vec![0xCC, 256], vec![0xCC, 0x4C], words("L7x*"), words("L123456789ab")] {
        assert_eq!(answers(&mut card, &mut values, &sent), "");
        assert_eq!(card, Card { offer, ..CARD });
    }
    assert_eq!(answers(&mut card, &mut values, &words("L7mI*")), "L7m00301A*");
    assert_eq!(answers(&mut card, &mut values, &words("L7mI*")), "", "an offer is used once");
    assert_eq!(values[usize::from(b'm')], 30);
}

#[test]
fn what_takes_an_offer_away() {
    for between in ["L7??*", "L7m?*", "L7m+*", "L7M+*", "L7m#00000*", "L7JI*", "L07??*", "L7??*L8mI*"] {
        let sent = format!("L7m#00301*{between}L7mI*");
        assert!(!from_afresh(&sent).ends_with("L7m00301A*"), "{between}");
    }
    for between in ["", "L0mI*", "L7#00231*", "R7?+*", "L8mI*", "R7mI*", "R7??*"] {
        let sent = format!("L7m#00301*{between}L7mI*");
        assert!(from_afresh(&sent).ends_with("L7m00301A*"), "{between}");
    }
}

#[test]
fn access() {
    // Read only, write only and no row, with a value that can be read or not.
    for (sent, answer) in [
        ("L7M?*", "L7M02311A*"),
        ("L7M-*", "L7M02311N*"),
        ("L7M#00001*", "L7M02311N*"),
        ("L7Z+*", "L7Z00000N*"),
        ("L7Z#00190*", "L7Z00000N*"),
        ("L7Z#00160*L7ZI*", "L7Z00160I*L7Z00160A*"),
        ("L7a?*", "L7a00000N*"),
        ("L7a#00000*", "L7a00000N*"),
        ("L7a+*", "L7a00000N*"),
        ("L7aI*", ""),
        ("L7J-*L7J?*", "L7J00056A*L7J00056A*"),
        ("L7m-*L7m-*L7m-*L7m-*L7m-*", "L7m00151A*L7m00101A*L7m00051A*L7m00001A*L7m00001N*"),
        ("L7J#01006*", "L7J01006I*"),
        ("L7J#01016*", "L7J00001N*"),
        ("L7J#00016*", "L7J00056I*"),
        ("L7J#00041*", "L7J00001I*"),
        ("R7??*L70??*L8??*", ""),
    ] {
        assert_eq!(from_afresh(sent), answer, "{sent}");
    }
}

#[test]
fn a_run_stops_where_the_reply_no_longer_fits() {
    let sent = words("xL7m+*L7??*L8??*");
    for room in 0..30 {
        let mut card = CARD;
        let mut held = values();
        let mut out = vec![0xEE; room];
        let ran = run(&mut card, &BENCH, &[], &mut held, &sent, &mut out).unwrap();
        let (taken, written, value, open) = match room {
            // That word leaves no trace; the shorter reply behind it isn't taken.
            0..=9 => (5, 0, 20, &b"L7m+"[..]),
            10..=14 => (10, 10, 25, &b"L7??"[..]),
            _ => (16, 15, 25, &b""[..]),
        };
        assert_eq!(ran, Ran { taken, written }, "room {room}");
        assert_eq!(held[usize::from(b'm')], value);
        assert_eq!(card.open.characters(), open);
        assert!(card.open.is_sound());
        assert!(out[written..].iter().all(|&byte| byte == 0xEE));
        assert_eq!(text(&out[..written]), "L7m00251A*L7?A*"[..written]);
        // What is left is taken by the next run.
        let mut more = [0; 30];
        let rest = run(&mut card, &BENCH, &[], &mut held, &sent[taken..], &mut more).unwrap();
        assert_eq!(rest, Ran { taken: 16 - taken, written: 15 - written });
    }
    // Every word lent is looked at, whether it would be reached or not.
    let far = [&sent[..], &[257]].concat();
    assert_eq!(run(&mut CARD.clone(), &BENCH, &[], &mut values(), &far, &mut []), Err(Refusal::Word));
}

#[test]
fn two_digit_addresses() {
    let mut card = Card { address: 70, ..CARD };
    let mut out = [0xEE; 12];
    let ran = run(&mut card, &BENCH, &[], &mut values(), &words("L70m?*"), &mut out).unwrap();
    assert_eq!((ran.written, text(&out[..11])), (11, "L70m00201A*".into()));
    assert_eq!(out[11], 0xEE);
}

#[test]
fn card_rows() {
    let scan = Scan { count: 4, identifiers: *b"MMJm~" };
    let mut card = Card { offer: Some(Offer { identifier: b'm', value: -5 }), scan, revision: 2, ..CARD };
    card.open.to_close(&words("R7m#00231"));
    let row = row_of(&card);
    assert_eq!(row[..16], [76, 7, 9, 82, 55, 109, 35, 48, 48, 50, 51, 49, 0, 1, 109, -5]);
    assert_eq!(row[16..], [4, 77, 77, 74, 109, 126, 2]);
    assert_eq!(card_of(&row), Some(card));
    assert_eq!(card_of(&row_of(&CARD)), Some(CARD));
}
