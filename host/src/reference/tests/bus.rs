//! Several cards on one pair, through the boundary's call.

use super::{line, text, values, words, BENCH, CARD};
use crate::reference::calls::{self, row_of};
use crate::reference::card::{Card, Offer};
use crate::reference::hearing::Open;
use crate::reference::scan::Scan;

/// What is lent to a run, with a pattern where it may write.
#[derive(Clone, Debug, PartialEq)]
struct Lent {
    cards: Vec<i32>,
    bench: Vec<i32>,
    maker: Vec<i32>,
    values: Vec<i32>,
    words: Vec<u16>,
    out: Vec<u8>,
    counts: Vec<u64>,
}

impl Lent {
    fn new(cards: &[Card], sent: &str) -> Lent {
        Lent {
            cards: cards.iter().flat_map(row_of).collect(),
            bench: BENCH.to_vec(),
            maker: vec![],
            values: values().repeat(cards.len()),
            words: words(sent),
            out: vec![0xEE; 400],
            counts: vec![77; 2],
        }
    }

    fn run(&mut self) -> i64 {
        let Lent { cards, bench, maker, values, words, out, counts } = self;
        calls::bus_run(cards, bench, maker, values, words, out, counts)
    }

    /// Refused with this number, with nothing changed.
    fn refused(&self, number: i64) {
        let mut lent = self.clone();
        assert_eq!(lent.run(), -number);
        assert_eq!(lent, *self);
    }

    /// Every word taken; the replies as text, with nothing written behind them.
    fn served(&mut self) -> String {
        assert_eq!(self.run(), 0);
        assert_eq!(self.counts[0], self.words.len() as u64);
        let written = self.counts[1] as usize;
        assert!(self.out[written..].iter().all(|&byte| byte == 0xEE));
        text(&self.out[..written])
    }

    fn card(&self, at: usize) -> Card {
        calls::card_of(&self.cards[23 * at..23 * at + 23]).unwrap()
    }

    fn value(&self, at: usize, identifier: u8) -> i32 {
        self.values[128 * at + usize::from(identifier)]
    }
}

fn open(sent: &str) -> Open {
    let mut open = Open::NONE;
    open.to_close(&words(sent));
    open
}

/// L7, R7 and L8.
const THREE: [Card; 3] = [CARD, Card { letter: b'R', ..CARD }, Card { address: 8, ..CARD }];

/// So many cards, no two alike.
fn many(count: usize) -> Vec<Card> {
    let card = |at: usize| Card { letter: b"LR"[at % 2], address: 1 + (at / 2) as u8, ..CARD };
    (0..count).map(card).collect()
}

#[test]
fn offers_at_three_cards() {
    let mut lent = Lent::new(&THREE, "L7m#00301*R7m#00401*L08m#00501*");
    assert_eq!(lent.served(), "L7m00301I*R7m00401I*L8m00501I*");
    for (at, value) in [30, 40, 50].into_iter().enumerate() {
        assert_eq!(lent.card(at), Card { offer: Some(Offer { identifier: b'm', value }), ..THREE[at] });
        assert_eq!(lent.value(at, b'm'), 20);
    }
    // Each is stored in its turn, and only there. A query takes away the offer of its own card alone.
    lent.words = words("R7mI*L9mI*L8m?*L8mI*L7mI*L7mI*");
    assert_eq!(lent.served(), "R7m00401A*L8m00201A*L7m00301A*");
    assert_eq!([0, 1, 2].map(|at| lent.value(at, b'm')), [30, 40, 20]);
    assert_eq!([0, 1, 2].map(|at| lent.card(at)), THREE);
}

#[test]
fn one_word_changes_nothing_where_its_reply_does_not_fit() {
    let offered = |card: Card, value| Card { offer: Some(Offer { identifier: b'm', value }), ..card };
    for speaker in 0..3 {
        let cards = [0, 1, 2].map(|at| offered(THREE[at], 30 + 5 * at as i32));
        let head = ["L7", "R7", "L8"][speaker];
        let lent = Lent::new(&cards, &format!("L9m?*{head}mI*L9"));
        for room in 0..12 {
            let mut lent = Lent { out: vec![0xEE; room], ..lent.clone() };
            assert_eq!(lent.run(), 0);
            if room < 10 {
                assert_eq!(lent.counts, [9, 0]);
                let open = open(&format!("{head}mI"));
                (0..3).for_each(|at| assert_eq!(lent.card(at), Card { open, ..cards[at] }));
                assert_eq!(lent.values, values().repeat(3));
                assert!(lent.out.iter().all(|&byte| byte == 0xEE));
                // It goes on from there.
                lent.words.drain(..9);
                lent.out = vec![0xEE; 10];
                assert_eq!((lent.run(), &lent.counts[..]), (0, &[3, 10][..]));
            } else {
                assert_eq!(lent.counts, [12, 10]);
            }
            let stored = 30 + 5 * speaker as i32;
            assert_eq!(lent.out[..10], line(&format!("{head}m{stored:04}1A*")));
            for at in 0..3 {
                let offer = cards[at].offer.filter(|_| at != speaker);
                assert_eq!(lent.card(at), Card { open: open("L9"), offer, ..THREE[at] });
                assert_eq!(lent.value(at, b'm'), if at == speaker { stored } else { 20 });
            }
        }
    }
}

#[test]
fn no_card() {
    let sent = "L7m#00301*R7??*L";
    let mut lent = Lent::new(&[], sent);
    assert_eq!(lent.served(), "");
    for room in [0, 1, 40] {
        assert_eq!(Lent { out: vec![0xEE; room], ..Lent::new(&[], sent) }.served(), "");
    }
    assert_eq!(Lent::new(&[], "").served(), "");
    // A row for `]` makes every card unsound, and there is none.
    let own = vec![93, 1, 0, 1, 0, 0];
    assert_eq!(Lent { maker: own.clone(), ..Lent::new(&[], sent) }.served(), "");
    Lent { maker: own, ..Lent::new(&[CARD], sent) }.refused(1);
    let sound = Lent::new(&[], sent);
    Lent { cards: vec![0], ..sound.clone() }.refused(1);
    Lent { cards: row_of(&CARD)[..22].to_vec(), ..sound.clone() }.refused(1);
    Lent { bench: vec![0], ..sound.clone() }.refused(2);
    Lent { values: vec![0], ..sound.clone() }.refused(3);
    Lent { values: values().to_vec(), ..sound.clone() }.refused(3);
    Lent { words: vec![256, 257], ..sound.clone() }.refused(4);
    Lent { counts: vec![77], ..sound }.refused(5);
}

#[test]
fn two_alike() {
    let offer = Some(Offer { identifier: b'm', value: 30 });
    let scan = Scan { count: 4, identifiers: *b"mJMM\0" };
    for other in [CARD, Card { revision: 2, ..CARD }, Card { offer, ..CARD }, Card { scan, ..CARD }] {
        for cards in [vec![CARD, other], vec![CARD, THREE[1], other], vec![THREE[2], other, THREE[1], CARD]] {
            Lent::new(&cards, "L7??*").refused(8);
        }
        for other in [Card { letter: b'R', ..other }, Card { address: 17, ..other }] {
            assert_eq!(Lent::new(&[CARD, other], "L7??*").served(), "L7?A*");
        }
    }
}

#[test]
fn thirty_three_cards() {
    for count in [1, 31, 32] {
        assert_eq!(
            Lent::new(&many(count), "L1??*L2??*L3??*L16??*R16??*").served(),
            match count {
                1 => "L1?A*",
                31 => "L1?A*L2?A*L3?A*L16?A*",
                _ => "L1?A*L2?A*L3?A*L16?A*R16?A*",
            }
        );
    }
    for count in [33, 34, 40, 64, 198] {
        Lent::new(&many(count), "L1??*").refused(8);
        // Number 1 is asked of all of them first, number 2 comes behind.
        for at in [0, 31, 32, count - 1] {
            for (place, number) in [(0, 77), (1, 0), (2, 11), (3, 1), (12, 1), (22, 3)] {
                let mut lent = Lent::new(&many(count), "L1??*");
                lent.cards[23 * at + place] = number;
                lent.refused(1);
            }
        }
        Lent { bench: vec![0], ..Lent::new(&many(count), "") }.refused(8);
    }
}

#[test]
fn open_messages_that_differ() {
    let with = |opens: [Open; 3]| [0, 1, 2].map(|at| Card { open: opens[at], ..THREE[at] });
    let same = open("L7m");
    assert_eq!(Lent::new(&with([same; 3]), "+*").served(), "L7m00251A*");
    // Another character, one more, one less, none, and one that is a NUL.
    let nul = Open { length: 4, ..same };
    for other in [open("L7J"), open("R7m"), open("L7mI"), open("L7"), Open::NONE, nul] {
        for at in 0..3 {
            let mut opens = [same; 3];
            opens[at] = other;
            Lent::new(&with(opens), "+*").refused(8);
        }
        assert_eq!(Lent::new(&with([other; 3])[..1], "").served(), "");
        assert_eq!(Lent::new(&with([other; 3]), "").served(), "");
    }
}

/// What is made wrong at a card.
type Fault = fn(&mut Lent, usize);

/// Each number before each that comes behind it, at any card.
#[test]
fn order_of_refusals() {
    let faults: [(i64, Fault); 10] = [
        (1, |lent, at| lent.cards[23 * at + 22] = 3),
        (1, |lent, _| lent.cards.push(0)),
        (8, |lent, at| lent.cards[23 * at + 2..23 * at + 4].copy_from_slice(&[1, 76])),
        (8, |lent, at| lent.cards.copy_within(23 * at..23 * at + 2, 23 * ((at + 1) % 3))),
        (2, |lent, _| lent.maker.push(0)),
        (1, |lent, at| lent.cards[23 * at + 13] = 2),
        (1, |lent, at| lent.cards[23 * at + 16] = 3),
        (3, |lent, at| lent.values[128 * at + 109] = 21),
        (4, |lent, _| lent.words.insert(2, 257)),
        (5, |lent, _| lent.counts.truncate(1)),
    ];
    for at in 0..3 {
        for (first, &(number, fault)) in faults.iter().enumerate() {
            let mut lent = Lent::new(&THREE, "L7m+*R7m+*");
            fault(&mut lent, at);
            lent.refused(number);
            for behind in faults[first + 1..].iter().filter(|other| other.0 != number) {
                for other in 0..3 {
                    let mut lent = lent.clone();
                    behind.1(&mut lent, other);
                    lent.refused(number);
                }
            }
        }
    }
    // No length of `out` is refused, and what stands behind two counts stays.
    let mut lent = Lent { out: vec![], counts: vec![77; 3], ..Lent::new(&THREE, "L7m+*R7m+*") };
    assert_eq!((lent.run(), &lent.counts[..]), (0, &[4, 0, 77][..]));
}

#[test]
fn lengths() {
    for count in 0..4 {
        let sound = Lent::new(&THREE[..count], "L7??*");
        for length in [1, 2, 22, 24, 45] {
            let mut longer = sound.clone();
            longer.cards.resize(23 * count + length, 0);
            longer.refused(1);
        }
        let length = 128 * count;
        for wrong in [length + 1, length + 128, length.saturating_sub(1), length.saturating_sub(128)] {
            if wrong != length {
                let mut other = sound.clone();
                other.values.resize(wrong, 0);
                other.refused(3);
            }
        }
    }
}

#[test]
fn each_card_has_its_own_scan_revision_and_values() {
    let four = Scan { count: 4, identifiers: *b"mJMM\0" };
    let five = Scan { count: 5, identifiers: *b"MmmmJ" };
    let cards = [THREE[0], Card { scan: four, revision: 2, ..THREE[1] }, Card { scan: five, ..THREE[2] }];
    let mut lent = Lent::new(&cards, "L8m+*R7m-*L7]?*R7]?*L8]?*L7J#00006*R7J#00006*L8J#00006*");
    let wanted = "L8m00251A*R7m00151A*L7]00000N*R7]2000151000010231102311A*\
                  L8]250231100251002510025100001A*L7J00001I*R7J00001N*L8J00001I*";
    assert_eq!(lent.served(), wanted);
    // What a run can't change in a row stays, also where it means nothing.
    let mut lent = Lent::new(&cards, "L7??*");
    (17..22).for_each(|place| lent.cards[place] = -9 * place as i32);
    let before = lent.cards.clone();
    assert_eq!(lent.served(), "L7?A*");
    assert_eq!(lent.cards, before);
}
