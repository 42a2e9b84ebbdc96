//! The order of the refusals, and the cards, offers and values that are refused.

use super::{values, words, BENCH, CARD};
use crate::reference::calls::{self, row_of};
use crate::reference::card::{run, Card, Offer};
use crate::reference::hearing::Open;
use crate::reference::scan::Scan;
use crate::reference::Refusal;

/// Cards that are unsound whatever their offer and the sheets, by row.
fn wrong_cards() -> Vec<Vec<i32>> {
    let row = |change: &[(usize, i32)]| {
        let mut row = row_of(&CARD).to_vec();
        change.iter().for_each(|&(place, number)| row[place] = number);
        row
    };
    vec![
        vec![],
        row(&[])[..16].to_vec(),
        row(&[])[..22].to_vec(),
        [row(&[]), vec![0]].concat(),
        row(&[(0, 0xCC)]),
        row(&[(0, 77)]),
        row(&[(0, 76 + 256)]),
        row(&[(0, -1)]),
        row(&[(1, 0)]),
        row(&[(1, 100)]),
        row(&[(1, -7)]),
        row(&[(1, 263)]),
        row(&[(2, -1)]),
        row(&[(2, 11)]),
        row(&[(2, 1)]),
        row(&[(2, 1), (3, 77)]),
        row(&[(2, 1), (3, 0xCC)]),
        row(&[(3, 76)]),
        row(&[(12, 1)]),
        row(&[(2, 2), (3, 76), (4, 42)]),
        row(&[(2, 2), (3, 76), (4, 128)]),
        row(&[(2, 2), (3, 76), (4, -1)]),
        row(&[(2, 2), (3, 76), (4, 55), (5, 1)]),
        row(&[(22, 0)]),
        row(&[(22, 3)]),
        row(&[(22, -1)]),
        row(&[(22, 256)]),
        row(&[(22, 257)]),
        row(&[(22, 258)]),
        row(&[(22, i32::MIN)]),
        row(&[(22, i32::MAX)]),
    ]
}

/// Numbers 13 to 15 of rows whose offer no Type 3 could leave: no offer at all, or an unsound one.
const WRONG_OFFERS: [[i32; 3]; 12] = [
    [1, 109, 1],
    [1, 0, 0],
    [1, 0, 20],
    [1, 300, 20],
    [1, 109 + 256, 20],
    [1, -1, 20],
    [2, 0, 0],
    [2, 109, 20],
    [-1, 109, 20],
    [0, 109, 0],
    [0, 0, 1],
    [0, 300, 20],
];

/// Numbers 16 to 21 of rows whose scan isn't sound: the count, or an identifier that can't be read.
const WRONG_SCANS: [[i32; 6]; 12] = [
    [1, 77, 77, 77, 77, 77],
    [2, 77, 77, 77, 77, 77],
    [3, 77, 77, 77, 77, 77],
    [6, 77, 77, 77, 77, 77],
    [255, 77, 77, 77, 77, 77],
    [-1, 77, 77, 77, 77, 77],
    [260, 77, 77, 77, 77, 77],
    [4, 77, 77, 77, 90, 77],
    [5, 77, 77, 77, 77, 97],
    [4, 93, 77, 77, 77, 77],
    [5, 77, 77 + 256, 77, 77, 77],
    [4, 77, 77, -1, 77, 77],
];

fn wrong_offers() -> Vec<Offer> {
    [
        (b'M', 0),
        (b'a', 0),
        (b'?', 0),
        (b'm', 3),
        (b'm', 1005),
        (b'm', -5),
        (b'm', i32::MIN),
        (b'Z', 14),
        (0, 0),
        (b'm' | 0x80, 20),
        (b'J', 105),
    ]
    .map(|(identifier, value)| Offer { identifier, value })
    .to_vec()
}

/// What is lent to one call, and the refusal that comes first whatever the room; 0 for none.
#[derive(Clone)]
struct Lent<'a> {
    card: Vec<i32>,
    bench: &'a [i32],
    maker: &'a [i32],
    values: Vec<i32>,
    word: u16,
    first: i64,
}

impl Lent<'_> {
    fn step(&self, room: usize, length: usize) {
        let Lent { mut card, bench, maker, mut values, word, first } = self.clone();
        let wanted = if first == 0 && (room < 33 || length < 2) { 5 } else { first };
        let (mut out, mut cause) = (vec![0xEE; room], vec![77; length]);
        let given = calls::step(&mut card, bench, maker, &mut values, word, &mut out, &mut cause);
        assert_eq!(given, -wanted);
        assert!(out.iter().all(|&byte| byte == 0xEE));
        let written = if wanted == 0 { 2 } else { 0 };
        assert_eq!(cause[..written], [9, 0][..written]);
        assert!(cause[written..].iter().all(|&number| number == 77));
        if wanted != 0 {
            assert_eq!((card, values), (self.card.clone(), self.values.clone()));
        }
    }

    fn run(&self, room: usize, length: usize) {
        let Lent { mut card, bench, maker, mut values, word, first } = self.clone();
        let wanted = if first == 0 && length < 2 { 5 } else { first };
        let (mut out, mut counts) = (vec![0xEE; room], vec![77; length]);
        let words = [256, word, 0];
        assert_eq!(calls::run(&mut card, bench, maker, &mut values, &words, &mut out, &mut counts), -wanted);
        assert!(out.iter().all(|&byte| byte == 0xEE));
        let written = if wanted == 0 { 2 } else { 0 };
        assert_eq!(counts[..written], [3, 0][..written]);
        assert!(counts[written..].iter().all(|&count| count == 77));
        if wanted != 0 {
            assert_eq!((card, values), (self.card.clone(), self.values.clone()));
        }
    }

    fn trace(&self, room: usize, length: usize) {
        // Notes for the three words, one number short and one long.
        for (notes, counts) in [(14, length), (15, length), (16, length), (14, length + 1), (15, length + 1)]
        {
            let Lent { mut card, bench, maker, mut values, word, first } = self.clone();
            let wanted = if first == 0 && (notes < 15 || counts < 3) { 5 } else { first };
            let (mut out, mut notes, mut counts) = (vec![0xEE; room], vec![77; notes], vec![77; counts]);
            let words = [256, word, 0];
            let given =
                calls::trace(&mut card, bench, maker, &mut values, &words, &mut out, &mut notes, &mut counts);
            assert_eq!(given, -wanted);
            assert!(out.iter().all(|&byte| byte == 0xEE) && notes.iter().all(|&number| number == 77));
            let written = if wanted == 0 { 3 } else { 0 };
            assert_eq!(counts[..written], [3, 0, 0][..written]);
            assert!(counts[written..].iter().all(|&count| count == 77));
            if wanted != 0 {
                assert_eq!((card, values), (self.card.clone(), self.values.clone()));
            }
        }
    }
}

/// Every set of faults in sheets, values and word, with a card whose faults come `before` or `behind` the sheets.
fn try_refusals(card: &[i32], before: bool, behind: bool) {
    let wrong_sheet = [74, 2, 1, 5, -100, 100, 74];
    for number in 0..2 * 2 * 3 * 2 {
        let (bench_fault, maker_fault) = (number % 2 == 1, number / 2 % 2 == 1);
        let (values_fault, word_fault) = (number / 4 % 3, number / 12 == 1);
        let mut values = values().to_vec();
        match values_fault {
            1 => values[usize::from(b'm')] = 21,
            2 => values.push(0),
            _ => {}
        }
        let tests = [
            (before, 1),
            (bench_fault || maker_fault, 2),
            (behind, 1),
            (values_fault != 0, 3),
            (word_fault, 4),
        ];
        let lent = Lent {
            card: card.to_vec(),
            bench: if bench_fault { &wrong_sheet } else { &BENCH },
            maker: if maker_fault { &wrong_sheet } else { &[] },
            values,
            word: if word_fault { 257 } else { 256 },
            first: tests.iter().find(|test| test.0).map_or(0, |test| test.1),
        };
        for room in [0, 11, 32, 33] {
            (0..4).for_each(|length| {
                lent.step(room, length);
                lent.run(room, length);
                lent.trace(room, length);
            });
        }
    }
}

/// Every refusal, every two and every more of them at once, for the single word, the run and the trace.
#[test]
fn order_of_refusals() {
    let mut open = Open::NONE;
    open.to_close(&words("L7m#00231"));
    let offer = Some(Offer { identifier: b'Z', value: 16 });
    let scan = Scan { count: 5, identifiers: *b"mJMMM" };
    let sound = [CARD, Card { open, offer, scan, revision: 2, ..CARD }].map(|card| row_of(&card).to_vec());
    for (cards, before) in [(&sound[..], false), (&wrong_cards()[..], true)] {
        for card in cards {
            try_refusals(card, before, false);
            let with = |from: usize, numbers: &[i32]| {
                let mut card = card.clone();
                if let Some(place) = card.get_mut(from..from + numbers.len()) {
                    place.copy_from_slice(numbers);
                }
                card
            };
            WRONG_OFFERS.iter().for_each(|numbers| try_refusals(&with(13, numbers), before, true));
            WRONG_SCANS.iter().for_each(|numbers| try_refusals(&with(16, numbers), before, true));
        }
    }
}

#[test]
fn offers() {
    for offer in wrong_offers() {
        let mut card = Card { offer: Some(offer), ..CARD };
        let got = run(&mut card, &BENCH, &[], &mut values(), &[], &mut []);
        assert_eq!(got, Err(Refusal::Card), "{offer:?}");
        // After the sheets, before the values.
        assert_eq!(run(&mut card, &BENCH[1..], &[], &mut values(), &[], &mut []), Err(Refusal::Sheet));
        assert_eq!(run(&mut card, &BENCH, &[], &mut [], &[], &mut []), Err(Refusal::Card));
    }
    for (identifier, value) in [(b'm', 0), (b'm', 1000), (b'Z', 15), (b'J', -100)] {
        let mut card = Card { offer: Some(Offer { identifier, value }), ..CARD };
        assert!(run(&mut card, &BENCH, &[], &mut values(), &[], &mut []).is_ok());
        // It doesn't depend on the values, but on the row that wins.
        let hides = [i32::from(identifier), 1, 0, 1, -9999, 9999];
        let mut held = values();
        held[usize::from(identifier)] = 15;
        assert_eq!(run(&mut card, &hides, &BENCH, &mut held, &[], &mut []), Err(Refusal::Card));
    }
}

#[test]
fn only_the_row_that_wins_bounds_a_value() {
    let bench = [109, 2, 0, 1, 0, 9];
    let maker = [109, 2, 0, 1, 100, 200];
    let mut held = [i32::MAX; 128];
    held[109] = 5;
    assert!(run(&mut CARD.clone(), &bench, &maker, &mut held, &[], &mut []).is_ok());
    assert_eq!(run(&mut CARD.clone(), &maker, &bench, &mut held, &[], &mut []), Err(Refusal::Values));
    assert_eq!(run(&mut CARD.clone(), &bench, &maker, &mut held[..127], &[], &mut []), Err(Refusal::Values));
}
