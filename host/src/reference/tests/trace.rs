//! The trace: what it notes of known recordings, and where it stops.

use super::{text, values, words, BENCH, CARD};
use crate::reference::calls::{self, row_of};
use crate::reference::card::{Card, Offer};
use crate::reference::hearing::Open;

/// The notes, the words taken and the replies, with this room.
fn traced(card: &Card, sent: &[u16], room: usize) -> (Vec<[u64; 5]>, usize, String) {
    let (mut row, mut held) = (row_of(card), values());
    let (mut other, mut others) = (row, held);
    let (mut out, mut notes, mut counts) = (vec![0xEE; room], vec![77; 5 * sent.len() + 1], [77; 4]);
    let given = calls::trace(&mut row, &BENCH, &[], &mut held, sent, &mut out, &mut notes, &mut counts);
    let (mut replies, mut two) = (vec![0xEE; room], [0; 2]);
    assert_eq!(given, calls::run(&mut other, &BENCH, &[], &mut others, sent, &mut replies, &mut two));
    assert_eq!((given, counts[3]), (0, 77));
    assert_eq!((row, held, &out, &counts[..2]), (other, others, &replies, &two[..]));
    let [taken, written, noted] = [counts[0], counts[1], counts[2]].map(|count| count as usize);
    assert!(notes[5 * noted..].iter().all(|&number| number == 77));
    let notes = notes.as_chunks().0[..noted].to_vec();
    (notes, taken, text(&out[..written]))
}

#[test]
fn each_message_that_is_closed() {
    let sent = words("xL07m#00231*R7??*L7mI*L7M+*L0*L7a?*L7mI*");
    let notes = vec![
        [11, 10, 10, 0, 0],
        [16, 4, 0, 7, 0],
        [21, 4, 10, 0, 0],
        [26, 4, 10, 2, 0],
        [29, 2, 0, 10, 2],
        [34, 4, 10, 1, 0],
        [39, 4, 0, 8, 0],
    ];
    let replies = "L7m00201I*L7m00201A*L7M02311N*L7a00000N*";
    assert_eq!(traced(&CARD, &sent, 40), (notes, 40, replies.to_string()));
}

/// A `*` with no message open, a `*` in bad parity, a silence and an eleventh character.
#[test]
fn what_closes_no_message() {
    let mut sent = words("*L7??");
    sent.extend([0x2A, 256]);
    sent.extend(words("L7??"));
    sent.push(256);
    sent.extend(words("*L123456789a*L7??"));
    assert_eq!(traced(&CARD, &sent, 40), (vec![], sent.len(), String::new()));
    assert_eq!(traced(&CARD, &[], 0), (vec![], 0, String::new()));
}

#[test]
fn messages_open_at_first() {
    let mut open = Open::NONE;
    open.to_close(&words("L7m"));
    let card = Card { open, offer: Some(Offer { identifier: b'm', value: 30 }), revision: 2, ..CARD };
    let notes = vec![[1, 4, 10, 0, 0], [11, 9, 10, 4, 0]];
    let replies = "L7m00301A*L7J00001N*".to_string();
    assert_eq!(traced(&card, &words("I*L7J#00006*"), 20), (notes, 12, replies));
}

/// Where a reply doesn't fit its word isn't taken and isn't noted; silence always fits.
#[test]
fn rooms() {
    let sent = words("L8??*L7m+*L0*L7??*L8??*");
    let notes = [[4, 4, 0, 7, 0], [9, 4, 10, 0, 0], [12, 2, 0, 10, 2], [17, 4, 5, 0, 0], [22, 4, 0, 7, 0]];
    for room in 0..20 {
        let (noted, taken, replies) = match room {
            0..=9 => (1, 9, ""),
            10..=14 => (3, 17, "L7m00251A*"),
            _ => (5, 23, "L7m00251A*L7?A*"),
        };
        assert_eq!(traced(&CARD, &sent, room), (notes[..noted].to_vec(), taken, replies.to_string()));
    }
}
