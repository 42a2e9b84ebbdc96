//! The scan: what `]` draws, which cards may name what, and the room that it asks for.

use super::{answers, from_afresh, plain, text, values, words, BENCH, CARD};
use crate::reference::calls::{self, row_of};
use crate::reference::card::{run, step, Card, Offer, Ran, Stepped};
use crate::reference::cause::Cause;
use crate::reference::scan::Scan;
use crate::reference::sheet::lookup;
use crate::reference::Refusal;

fn naming(identifiers: &[u8]) -> Card {
    let mut scan = Scan { count: identifiers.len() as u8, ..Scan::NONE };
    scan.identifiers[..identifiers.len()].copy_from_slice(identifiers);
    Card { scan, ..CARD }
}

/// What a card that names these answers, under the bench cases' sheet and values.
fn scanned(identifiers: &[u8], sent: &str) -> String {
    answers(&mut naming(identifiers), &mut values(), &words(sent))
}

#[test]
fn what_a_card_answers() {
    let none: &[u8] = b"";
    for (named, sent, answer) in [
        (&b"mJMMJ"[..], "L7]?*", "L7]25_00201_00001_02311_02311_00001_A*"),
        (b"mJMM", "L7]?*", "L7]20_00201_00001_02311_02311_A*"),
        (b"MMMMM", "L07]?*", "L7]25_02311_02311_02311_02311_02311_A*"),
        (none, "L7]?*", "L7]00000N*"),
        // The values are those at that moment.
        (b"JJJm", "L7J-*L7]?*", "L7J00056A*L7]20_00056_00056_00056_00201_A*"),
        (b"mmmm", "L7m#00301*L7mI*L7]?*", "L7m00301I*L7m00301A*L7]20_00301_00301_00301_00301_A*"),
    ] {
        assert_eq!(scanned(named, sent), plain(answer), "{sent}");
    }
    for named in [none, b"mJMM", b"mJMMJ"] {
        for sent in ["L7]+*", "L7]-*", "L7]#00000*", "L7]#00201*", "L7]#99998*"] {
            assert_eq!(scanned(named, sent), "L7]00000N*", "{sent}");
        }
        assert_eq!(scanned(named, "L7]#00201*L7]I*"), "L7]00000N*");
        // Type 4, messages for other cards and what isn't well formed.
        for sent in ["L7]I*", "R7]?*", "L8]?*", "L7]*", "L7]??*", "L7]25*", "L7]#00004*"] {
            assert_eq!(scanned(named, sent), "", "{sent}");
        }
    }
}

#[test]
fn decimals_signs_and_letters() {
    // a to d with 0 to 3 decimals; a and c below zero, d at zero.
    let bench = [97, 1, 0, 1, -9999, 0, 98, 2, 1, 1, 0, 9999];
    let maker = [98, 3, 3, 1, 5, 5, 99, 2, 2, 5, -100, 100, 100, 1, 3, 1, 0, 0];
    let mut held = [i32::MAX; 128];
    held[97..101].copy_from_slice(&[-9999, 9999, -5, 0]);
    for (letter, address, named, reply) in [
        (b'L', 1, &b"abcdd"[..], "L1]25_99995_99991_00057_00003_00003_A*"),
        (b'R', 99, b"dcbaa", "R99]25_00003_00057_99991_99995_99995_A*"),
        (b'R', 10, b"ccbd", "R10]20_00057_00057_99991_00003_A*"),
    ] {
        let mut card = Card { letter, address, ..naming(named) };
        let sent = words(&format!("{}{address}]?*", letter as char));
        let mut out = [0xEE; 40];
        let ran = run(&mut card, &bench, &maker, &mut held, &sent, &mut out).unwrap();
        assert_eq!((ran.taken, text(&out[..ran.written])), (sent.len(), plain(reply)));
        assert_eq!(out[ran.written], 0xEE);
    }
}

#[test]
fn every_message_on_it_for_this_card_takes_an_offer_away() {
    let offer = Some(Offer { identifier: b'm', value: 30 });
    for named in [&b""[..], b"mJMM", b"mJMMJ"] {
        for sent in ["L7]?*", "L7]+*", "L7]-*", "L7]#00000*", "L7]I*", "L07]I*"] {
            let (mut card, mut held) = (Card { offer, ..naming(named) }, values());
            answers(&mut card, &mut held, &words(sent));
            assert_eq!((card, held), (naming(named), values()), "{sent}");
        }
    }
    let answer = plain("L7m00301I*L7]20_00201_00201_00201_00201_A*");
    assert_eq!(scanned(b"mmmm", "L7m#00301*L7]?*L7mI*"), answer);
    assert_eq!(from_afresh("L7m#00301*L7]I*L7mI*"), "L7m00301I*");
}

fn refusal(card: &Card, bench: &[i32], maker: &[i32], values: &mut [i32]) -> Option<Refusal> {
    run(&mut card.clone(), bench, maker, values, &[], &mut []).err()
}

#[test]
fn which_identifiers_a_card_may_name() {
    let card = Some(Refusal::Card);
    for (named, wanted) in [
        (&b"MMMM"[..], None),
        (b"mJMmJ", None),
        (b"mJMZ", card),
        (b"ZJMmJ", card),
        (b"mJMmZ", card),
        (b"mJaM", card),
        (b"]]]]", card),
        (b"???\x00", card),
        (&[b'm', b'm', b'm', b'm' | 0x80], card),
    ] {
        assert_eq!(refusal(&naming(named), &BENCH, &[], &mut values()), wanted, "{named:?}");
        // After the sheets and before the values.
        assert_eq!(refusal(&naming(named), &BENCH[1..], &[], &mut values()), Some(Refusal::Sheet));
        assert_eq!(refusal(&naming(named), &BENCH, &[], &mut []), wanted.or(Some(Refusal::Values)));
    }
    for count in 0..=255 {
        let scan = Scan { count, identifiers: *b"MMMMM" };
        let sound = [0, 4, 5].contains(&count);
        let wanted = if sound { None } else { card };
        assert_eq!(refusal(&Card { scan, ..CARD }, &BENCH, &[], &mut values()), wanted, "{count}");
    }
    // The row that wins decides.
    let hidden = |access, other| {
        let (bench, maker) = ([77, access, 0, 1, 0, 9], [77, other, 0, 1, 0, 9]);
        let mut held = [0; 128];
        (refusal(&naming(b"MMMM"), &bench, &maker, &mut held), refusal(&CARD, &bench, &maker, &mut held))
    };
    assert_eq!(hidden(3, 1), (card, None));
    assert_eq!(hidden(1, 3), (None, None));
    assert_eq!(hidden(2, 3), (None, None));
}

#[test]
fn a_row_for_it_makes_every_card_unsound() {
    let row = [93, 1, 0, 1, 0, 9];
    let mut held = values();
    held[93] = 5;
    for card in [CARD, naming(b"mJMM"), naming(b"mJMMJ")] {
        let both = [&BENCH[..18], &row, &BENCH[18..]].concat();
        assert_eq!(refusal(&card, &both, &[], &mut held), Some(Refusal::Card));
        assert_eq!(refusal(&card, &BENCH, &row, &mut held), Some(Refusal::Card));
        assert_eq!(refusal(&card, &row, &BENCH, &mut []), Some(Refusal::Card), "before the values");
        assert_eq!(refusal(&card, &row, &BENCH[1..], &mut held), Some(Refusal::Sheet), "after the sheets");
    }
    // The sheet is sound: the lookup shows the row.
    assert_eq!(lookup(&BENCH, &row, b']'), row);
    assert_eq!(lookup(&row, &BENCH, b']'), row);
}

#[test]
fn what_stands_behind_the_count_is_not_looked_at() {
    let sent = words("L7]?*");
    for (numbers, written) in [
        ([0, i32::MIN, i32::MAX, -1, 256, 93], 10),
        ([0, 90, 97, 0, 255, 63], 10),
        ([4, 77, 109, 74, 77, i32::MIN], 27),
        ([4, 77, 109, 74, 77, 90], 27),
        ([4, 77, 109, 74, 77, 93], 27),
        ([5, 77, 109, 74, 77, 77], 32),
    ] {
        let mut card = row_of(&CARD);
        card[13..16].copy_from_slice(&[1, 109, 30]);
        card[16..22].copy_from_slice(&numbers);
        let (mut out, mut counts) = ([0; 40], [0; 2]);
        let given = calls::run(&mut card, &BENCH, &[], &mut values(), &sent, &mut out, &mut counts);
        assert_eq!((given, counts), (0, [5, written]), "{numbers:?}");
        // Numbers 16 to 21 stay as they were.
        assert_eq!(card[..16], row_of(&CARD)[..16]);
        assert_eq!(card[16..22], numbers);
    }
}

#[test]
fn the_room_for_it() {
    // 33 for every card and word, and then the longest reply fits.
    for card in [CARD, Card { address: 70, ..naming(b"MMMMM") }] {
        for word in words("L*x").into_iter().chain([256]) {
            for (room, wanted) in [(0, Err(Refusal::Room)), (32, Err(Refusal::Room)), (33, Ok(0))] {
                let mut out = vec![0xEE; room];
                let got = step(&mut card.clone(), &BENCH, &[], &mut values(), word, &mut out);
                assert_eq!(got.map(|stepped| stepped.written), wanted);
            }
        }
    }
    let mut longest = Card { address: 70, ..naming(b"MMMMM") };
    longest.open.to_close(&words("L70]?"));
    let (mut card, mut out) = (longest, [0xEE; 33]);
    let longest_reply = Stepped { written: 33, cause: Cause::None };
    assert_eq!(step(&mut card, &BENCH, &[], &mut values(), 0xAA, &mut out), Ok(longest_reply));
    assert_eq!(text(&out), plain("L70]25_02311_02311_02311_02311_02311_A*"));
    // A run stops where it no longer fits, and that word leaves no trace.
    let offer = Some(Offer { identifier: b'm', value: 30 });
    let sent = words("*L70??*");
    for (room, taken, written) in [(32, 0, 0), (33, 6, 33), (38, 6, 33), (39, 7, 39)] {
        let (mut card, mut out) = (Card { offer, ..longest }, vec![0xEE; room]);
        let ran = run(&mut card, &BENCH, &[], &mut values(), &sent, &mut out);
        assert_eq!(ran, Ok(Ran { taken, written }), "{room}");
        assert_eq!(card.offer, if taken == 0 { offer } else { None });
        assert_eq!(card.open == longest.open, taken == 0);
        assert!(out[written..].iter().all(|&byte| byte == 0xEE));
    }
}
