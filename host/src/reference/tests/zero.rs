//! Request 5: minus zero and zero are two messages; a card of the second revision refuses the first.

use super::{answers, heard, text, values, words, BENCH, CARD};
use crate::gen::{self, Rng, World};
use crate::reference::calls::{self, card_of, row_of};
use crate::reference::card::{run, step, Card, Offer};
use crate::reference::cause::Cause;
use crate::reference::message::{parse, Kind};
use crate::reference::normal::normal_form;
use crate::reference::reply;
use crate::reference::scan::Scan;

const SECOND: Card = Card { revision: 2, ..CARD };

/// What a fresh card answers to a text, and the cause of its last word.
fn answered(card: Card, sent: &str) -> (String, Cause) {
    let answer = answers(&mut card.clone(), &mut values(), &words(sent));
    let (mut card, mut held) = (card, values());
    let steps =
        words(sent).into_iter().map(|word| step(&mut card, &BENCH, &[], &mut held, word, &mut [0; 33]));
    (answer, steps.last().unwrap().unwrap().cause)
}

/// Every five digits: those with a code are heard, and written and listed as they were heard.
#[test]
fn what_is_read_is_written() {
    for digits in 0..100_000 {
        let (number, code) = (digits / 10, (digits % 10) as u32);
        let spelled = format!("L7m#{digits:05}");
        let message = parse(spelled.as_bytes());
        assert_eq!(message.is_some(), code % 5 < 4, "{spelled}");
        let Some(message) = message else { continue };
        let Kind::Set { data, minus_zero } = message.kind else { panic!("{spelled}") };
        assert_eq!(
            (data.number, u32::from(data.decimals)),
            (if code < 5 { number } else { -number }, code % 5)
        );
        assert_eq!(minus_zero, (5..=8).contains(&digits), "{spelled}");
        let mut out = [0; 40];
        let minus_zero = u32::from(minus_zero);
        let length = calls::write(b'L', 7, b'm', b'#', data.number, code % 5, minus_zero, &mut out);
        assert_eq!(text(&out[..length as usize]), format!("{spelled}*"));
        let length = calls::line(9, b'L', 7, b'm', b'#', data.number, code % 5, minus_zero, &mut out);
        assert_eq!(&out[..length as usize], format!("9 L7 m # {digits:05}\n").as_bytes());
    }
}

#[test]
fn what_can_be_asked_for() {
    let mut out = [0; 40];
    for decimals in 0..4 {
        for number in [0, 1, -1, 5, -5, 9_999, -9_999] {
            for minus_zero in [0, 1, 2, 3, 255, 256, 257, 65_536, 1 << 31, u32::MAX] {
                let heard = minus_zero == 0 || (minus_zero == 1 && number == 0);
                let asked = |wanted: i64| if heard { wanted } else { -7 };
                let set = calls::write(b'L', 7, b'm', b'#', number, decimals, minus_zero, &mut out);
                assert_eq!(set, asked(10), "{number} {minus_zero}");
                let short = calls::write(b'L', 7, b'm', b'#', number, decimals, minus_zero, &mut out[..9]);
                assert_eq!(short, asked(-5), "7 before 5");
                let line = calls::line(1, b'L', 7, b'm', b'#', number, decimals, minus_zero, &mut out);
                assert_eq!(line, asked(15), "{number} {minus_zero}");
                // For Type 3 only.
                for (identifier, kind) in
                    [(b'?', b'?'), (b'm', b'?'), (b'm', b'+'), (b'm', b'-'), (b'm', b'I')]
                {
                    let mut call = |room: usize| {
                        calls::write(
                            b'L',
                            7,
                            identifier,
                            kind,
                            number,
                            decimals,
                            minus_zero,
                            &mut out[..room],
                        )
                    };
                    assert_eq!((call(4), call(5)), (-5, 5));
                    let line =
                        calls::line(1, b'L', 7, identifier, kind, number, decimals, minus_zero, &mut out);
                    assert_eq!(line, 11);
                }
            }
        }
    }
}

/// Both zeros at each revision: J (0 in range), m, M (read only), Z (15 to 18, write only), no row, `]`.
#[test]
fn both_revisions() {
    use Cause::{Access, Decimals, Identifier, MinusZero, Range};
    let scan = Scan { count: 4, identifiers: *b"mJMM\0" };
    for (sent, answer, second, causes) in [
        // Bench case i holds for the first revision.
        ("L7J#00006*", "L7J00001I*", "L7J00001N*", [Cause::None, MinusZero]),
        ("L07m#00006*", "L7m00001I*", "L7m00201N*", [Cause::None, MinusZero]),
        ("L7J#00001*", "L7J00001I*", "L7J00001I*", [Cause::None; 2]),
        ("L7m#00001*", "L7m00001I*", "L7m00001I*", [Cause::None; 2]),
        // Out of range comes behind minus zero.
        ("L7Z#00005*", "L7Z00000N*", "L7Z00000N*", [Range, MinusZero]),
        ("L7Z#00000*", "L7Z00000N*", "L7Z00000N*", [Range; 2]),
        // Wrong decimals, access and no such identifier before it.
        ("L7J#00005*", "L7J00001N*", "L7J00001N*", [Decimals; 2]),
        ("L7J#00008*", "L7J00001N*", "L7J00001N*", [Decimals; 2]),
        ("L7Z#00006*", "L7Z00000N*", "L7Z00000N*", [Decimals; 2]),
        ("L7M#00006*", "L7M02311N*", "L7M02311N*", [Access; 2]),
        ("L7M#00005*", "L7M02311N*", "L7M02311N*", [Access; 2]),
        ("L7a#00005*", "L7a00000N*", "L7a00000N*", [Identifier; 2]),
        ("L7]#00005*", "L7]00000N*", "L7]00000N*", [Identifier; 2]),
        // Below zero is below zero.
        ("L7J#00016*", "L7J00056I*", "L7J00056I*", [Cause::None; 2]),
        ("L8J#00006*", "", "", [Cause::OtherCard; 2]),
        ("L7J#00009*", "", "", [Cause::NotWellFormed(8); 2]),
    ] {
        assert_eq!(answered(CARD, sent), (answer.to_string(), causes[0]), "{sent}, first revision");
        assert_eq!(answered(SECOND, sent), (second.to_string(), causes[1]), "{sent}, second revision");
    }
    for (revision, digits) in [(1, "00005"), (2, "00005"), (2, "00008"), (2, "00000")] {
        let card = Card { scan, revision, ..CARD };
        assert_eq!(answered(card, &format!("L7]#{digits}*")), ("L7]00000N*".to_string(), Access));
    }
    assert_eq!(Cause::MinusZero.numbers(), [4, 0]);
}

/// Every count of decimals of the row and of the message, every access, ranges with and without zero.
#[test]
fn the_order_of_the_tests() {
    for number in 0..4 * 4 * 4 * 6 {
        let (access, decimals, said) = (number % 4, number / 4 % 4, number / 16 % 4);
        let (least, greatest) = [(-100, 100), (0, 100), (-100, 0), (0, 0), (5, 100), (-100, -5)][number / 64];
        let row = [109, access as i32, decimals as i32, 5, least, greatest];
        let bench = if access == 0 { &[][..] } else { &row };
        for (revision, code) in [(1, said), (1, said + 5), (2, said), (2, said + 5)] {
            let tests = [
                (access == 0, Cause::Identifier),
                (access == 1, Cause::Access),
                (decimals != said, Cause::Decimals),
                (revision == 2 && code >= 5, Cause::MinusZero),
                (least > 0 || greatest < 0, Cause::Range),
            ];
            let wanted = tests.iter().find(|test| test.0).map_or(Cause::None, |test| test.1);
            let offer = Some(Offer { identifier: b'm', value: least });
            let mut card = Card { revision, offer: offer.filter(|_| access > 1), ..CARD };
            let mut held = [least; 128];
            let sent = words(&format!("L7m#0000{code}"));
            sent.iter().for_each(|&word| {
                step(&mut card, bench, &[], &mut held, word, &mut [0; 33]).unwrap();
            });
            let mut out = [0; 33];
            let stepped = step(&mut card, bench, &[], &mut held, 0xAA, &mut out).unwrap();
            assert_eq!(stepped.cause, wanted, "{row:?} revision {revision} code {code}");
            let sign = |value: i32| if value < 0 { 5 } else { 0 };
            let (reply, left) = match wanted {
                Cause::None => (format!("L7m0000{decimals}I*"), Some(Offer { identifier: b'm', value: 0 })),
                _ if matches!(access, 1 | 2) => {
                    (format!("L7m{:04}{}N*", least.abs(), decimals as i32 + sign(least)), None)
                }
                _ => ("L7m00000N*".to_string(), None),
            };
            assert_eq!(text(&out[..stepped.written]), reply, "{row:?} revision {revision} code {code}");
            // Whatever is refused takes the offer away.
            assert_eq!((card, held), (Card { revision, offer: left, ..CARD }, [least; 128]));
            assert!(reply::read(&out[..stepped.written]).is_ok());
        }
    }
}

#[test]
fn what_becomes_of_an_offer() {
    // Stored as zero.
    let sent = words("L7m#00006*L7mI*");
    let (mut card, mut held, mut wanted) = (CARD, values(), values());
    assert_eq!(answers(&mut card, &mut held, &sent), "L7m00001I*L7m00001A*");
    wanted[usize::from(b'm')] = 0;
    assert_eq!((card, held), (CARD, wanted));
    let (mut card, mut held) = (SECOND, values());
    assert_eq!(answers(&mut card, &mut held, &sent), "L7m00201N*");
    assert_eq!((card, held), (SECOND, values()));
    // The one before it is gone at the second revision, and stays where it is for another card.
    assert_eq!(answered(SECOND, "L7m#00301*L7m#00006*L7mI*").0, "L7m00301I*L7m00201N*");
    assert_eq!(answered(CARD, "L7m#00301*L7m#00006*L7mI*").0, "L7m00301I*L7m00001I*L7m00001A*");
    assert_eq!(answered(SECOND, "L7m#00301*L8m#00006*L7mI*").0, "L7m00301I*L7m00301A*");
    // An offer doesn't depend on the revision.
    for revision in [1, 2] {
        let mut card = Card { revision, offer: Some(Offer { identifier: b'J', value: 0 }), ..CARD };
        assert!(run(&mut card, &BENCH, &[], &mut values(), &[], &mut []).is_ok());
    }
}

#[test]
fn a_card_states_its_revision() {
    for revision in [i32::MIN, -2, -1, 0, 1, 2, 3, 4, 255, 256, 257, 258, 513, 65_537, i32::MAX] {
        let mut row = row_of(&CARD);
        row[22] = revision;
        let sound = matches!(revision, 1 | 2);
        assert_eq!(card_of(&row).is_some_and(|card| card.is_sound_without_sheets()), sound);
        let before = row;
        let mut counts = [0; 2];
        let (mut held, sent) = (values(), words("L7m#00301*L7m"));
        // Before the sheets.
        for bench in [&BENCH[..], &BENCH[1..]] {
            let wanted = match (sound, bench.len()) {
                (false, _) => -1,
                (_, 24) => 0,
                _ => -2,
            };
            let given = calls::run(&mut row, bench, &[], &mut held, &sent, &mut [0; 40], &mut counts);
            assert_eq!(given, wanted, "{revision}");
        }
        // A served call leaves it as it was.
        assert_eq!(row[22], revision);
        assert_eq!(row == before, !sound);
    }
}

fn normal(sent: &[u16]) -> Vec<u16> {
    let mut out = vec![0; sent.len()];
    let length = normal_form(sent, &mut out).unwrap();
    out.truncate(length);
    out
}

#[test]
fn the_normal_form_keeps_the_sign_of_zero() {
    for code in 5..9 {
        let (minus, zero) = (format!("L07m#0000{code}*"), format!("L07m#0000{}*", code - 5));
        assert_eq!(normal(&words(&minus)), words(&minus.replace("L0", "L")));
        assert_eq!(normal(&words(&zero)), words(&zero.replace("L0", "L")));
        assert_ne!(heard(&words(&minus)), heard(&words(&zero)));
    }
}

/// Whole recordings: the first revision answers both zeros alike, and without minus zero both revisions do.
#[test]
fn recordings() {
    let mut minus_zeros = 0;
    for number in 0..2_000 {
        let mut rng = Rng::of_case(5, 5, number);
        let mut world = World::new(&mut rng);
        world.open_with(b"");
        let mut sent = gen::recording(&mut rng, &world, 300, gen::ROUGH);
        gen::zeros(&mut rng, &mut sent);
        let plain = gen::without_minus_zeros(&sent);
        // The same is heard in it, at the same places, but for the sign of zero.
        let mut without = heard(&sent);
        for (_, message) in &mut without {
            if let Kind::Set { minus_zero, .. } = &mut message.kind {
                minus_zeros += u32::from(*minus_zero);
                *minus_zero = false;
            }
        }
        assert_eq!(heard(&plain), without);
        let play = |revision: i32, words: &[u16]| {
            let (mut card, mut held) = (world.card.clone(), world.values.clone());
            card[22] = revision;
            let mut out = vec![0; words.len() * 7 + 33];
            let mut counts = [0; 2];
            let given =
                calls::run(&mut card, &world.bench, &world.maker, &mut held, words, &mut out, &mut counts);
            assert_eq!((given, counts[0]), (0, words.len() as u64));
            out.truncate(counts[1] as usize);
            (out, held, card[13..16].to_vec())
        };
        assert_eq!(play(1, &sent), play(1, &plain));
        assert_eq!(play(1, &plain), play(2, &plain));
        // The normal form is heard as the recording is, the sign of zero too, and plays like it.
        let messages = |words: &[u16]| heard(words).into_iter().map(|heard| heard.1).collect::<Vec<_>>();
        assert_eq!(messages(&normal(&sent)), messages(&sent));
        assert_eq!(gen::without_minus_zeros(&normal(&sent)), normal(&plain));
        assert_eq!(normal(&normal(&sent)), normal(&sent));
        for revision in [1, 2] {
            assert_eq!(play(revision, &normal(&sent)), play(revision, &sent));
        }
    }
    assert!(minus_zeros > 2_000, "{minus_zeros}");
}
