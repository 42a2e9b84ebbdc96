//! The normal form, the writer of messages and the reader of replies.

use super::{heard, line, text, words};
use crate::reference::calls;
use crate::reference::message::{write, Data, Kind, Message};
use crate::reference::normal::normal_form;
use crate::reference::reply::{read, Answer};
use crate::reference::Refusal;

#[test]
fn the_normal_form() {
    let sent = [&[256, 0x4C][..], &words("zL07M?*R70m#00006*L7mI*L0??*L123456789abL7?")].concat();
    let normal = words("L7M?*R70m#00006*L7mI*");
    for room in 0..sent.len() + 3 {
        let mut out = vec![0xEEEE; room];
        let got = normal_form(&sent, &mut out);
        if room < normal.len() {
            assert_eq!(got, Err(Refusal::Room));
            assert!(out.iter().all(|&word| word == 0xEEEE));
        } else {
            assert_eq!(got, Ok(normal.len()));
            assert_eq!(out[..normal.len()], normal);
            assert!(out[normal.len()..].iter().all(|&word| word == 0xEEEE));
        }
    }
    assert_eq!(normal_form(&[], &mut []), Ok(0));
    // 4 before 5, and every word counts.
    let far = [&sent[..], &[257]].concat();
    assert_eq!(normal_form(&far, &mut []), Err(Refusal::Word));
    let mut again = vec![0; normal.len()];
    assert_eq!(normal_form(&normal, &mut again), Ok(normal.len()));
    assert_eq!(again, normal);
}

#[test]
fn the_writer() {
    let message = |letter, address, identifier, kind| Message { letter, address, identifier, kind };
    let set = |number, decimals| Kind::Set { data: Data { number, decimals }, minus_zero: false };
    let minus_zero = |decimals| Kind::Set { data: Data { number: 0, decimals }, minus_zero: true };
    for (message, spelled) in [
        (message(b'L', 7, b'?', Kind::Status), "L7??*"),
        (message(b'R', 70, b'M', Kind::Query), "R70M?*"),
        (message(b'L', 10, b'#', Kind::Up), "L10#+*"),
        (message(b'L', 9, b'-', Kind::Down), "L9--*"),
        (message(b'L', 99, b'm', set(-9999, 3)), "L99m#99998*"),
        (message(b'L', 1, b'm', set(0, 2)), "L1m#00002*"),
        (message(b'L', 1, b'm', minus_zero(2)), "L1m#00007*"),
        (message(b'R', 30, b']', minus_zero(0)), "R30]#00005*"),
        (message(b'L', 1, b'I', Kind::Store), "L1II*"),
    ] {
        for room in 0..14 {
            let mut out = vec![0xEE; room];
            let got = write(&message, &mut out);
            if room < spelled.len() {
                assert_eq!(got, Err(Refusal::Room));
            } else {
                assert_eq!(got, Ok(spelled.len()));
                assert_eq!(text(&out[..spelled.len()]), spelled);
            }
            assert!(out[got.unwrap_or(0)..].iter().all(|&byte| byte == 0xEE));
        }
        let heard = heard(&words(spelled));
        assert_eq!(heard, [(spelled.len() - 1, message)]);
    }
    let call = |letter, address, identifier, kind, number, decimals, minus_zero, room: usize| {
        calls::write(letter, address, identifier, kind, number, decimals, minus_zero, &mut vec![0; room])
    };
    // 7 before 5.
    for room in [0, 20] {
        for (letter, address, identifier, kind, number, decimals) in [
            (0xCC, 7, b'm', b'?', 0, 0),
            (b'M', 7, b'm', b'?', 0, 0),
            (b'L', 0, b'm', b'?', 0, 0),
            (b'L', 100, b'm', b'?', 0, 0),
            (b'L', 263, b'm', b'?', 0, 0),
            (b'L', 7, b'5', b'?', 0, 0),
            (b'L', 7, b'*', b'?', 0, 0),
            (b'L', 7, b' ', b'?', 0, 0),
            (b'L', 7, 127, b'?', 0, 0),
            (b'L', 7, b'?', b'+', 0, 0),
            (b'L', 7, b'?', b'#', 0, 0),
            (b'L', 7, b'?', b'I', 0, 0),
            (b'L', 7, b'm', b'A', 0, 0),
            (b'L', 7, b'm', b'#', 10_000, 0),
            (b'L', 7, b'm', b'#', -10_000, 0),
            (b'L', 7, b'm', b'#', i32::MIN, 0),
            (b'L', 7, b'm', b'#', 0, 4),
            (b'L', 7, b'm', b'#', 0, 256),
        ] {
            for minus_zero in [0, 1] {
                assert_eq!(call(letter, address, identifier, kind, number, decimals, minus_zero, room), -7);
            }
        }
    }
    // Number, decimals and minus zero are looked at for Type 3 only.
    assert_eq!(call(b'L', 7, b'm', b'?', i32::MIN, u32::MAX, u32::MAX, 5), 5);
    assert_eq!(call(b'L', 7, b'?', b'?', i32::MAX, 256, 2, 5), 5);
}

fn answer(letter: u8, address: u8, identifier: u8, outcome: u8, data: &[(i32, u8)]) -> Answer {
    let mut numbers = [Data::ZERO; 5];
    for (number, &(units, decimals)) in numbers.iter_mut().zip(data) {
        *number = Data { number: units, decimals };
    }
    Answer { letter, address, identifier, outcome, count: data.len(), numbers }
}

#[test]
fn the_reader() {
    let five = &[(-9999, 3), (231, 1), (0, 0), (0, 3), (-15, 1)];
    let four = &[(1, 0), (2, 2), (9999, 3), (-1, 3)];
    for (spelled, answer) in [
        ("L7?A*", answer(b'L', 7, b'?', b'A', &[])),
        ("R70M02311A*", answer(b'R', 70, b'M', b'A', &[(231, 1)])),
        ("L7J00156I*", answer(b'L', 7, b'J', b'I', &[(-15, 1)])),
        ("L7Z00000N*", answer(b'L', 7, b'Z', b'N', &[(0, 0)])),
        ("L7Z00003N*", answer(b'L', 7, b'Z', b'N', &[(0, 3)])),
        ("L99#99998A*", answer(b'L', 99, b'#', b'A', &[(-9999, 3)])),
        ("L7]00000N*", answer(b'L', 7, b']', b'N', &[(0, 0)])),
        ("R99]25_99998_02311_00000_00003_00156_A*", answer(b'R', 99, b']', b'A', five)),
        ("L7]20_00010_00022_99993_00018_A*", answer(b'L', 7, b']', b'A', four)),
        ("L7]20_00000_00000_00000_00000_A*", answer(b'L', 7, b']', b'A', &[(0, 0); 4])),
    ] {
        assert_eq!(read(&line(spelled)), Ok(answer), "{spelled}");
        // Nothing before or behind, and every byte in good parity.
        let bytes = line(spelled);
        assert_eq!(read(&[&bytes[..], &bytes[..1]].concat()), Err(Refusal::Reply));
        assert_eq!(read(&[&bytes[..1], &bytes[..]].concat()), Err(Refusal::Reply));
        assert_eq!(read(&[&[0], &bytes[..]].concat()), Err(Refusal::Reply));
        for at in 0..bytes.len() {
            assert_eq!(read(&bytes[..at]), Err(Refusal::Reply));
            let mut bytes = bytes.clone();
            bytes[at] ^= 0x80;
            assert_eq!(read(&bytes), Err(Refusal::Reply));
        }
    }
    for spelled in [
        "L07?A*",
        "L0?A*",
        "L00M02311A*",
        "L07M02311A*",
        "L007M02311A*",
        "L100M02311A*",
        "M7?A*",
        "L7?N*",
        "L7?I*",
        "L7?02311A*",
        "L7MA*",
        "L7M02314A*",
        "L7M02319A*",
        "L7M00005A*",
        "L7M00006N*",
        "L7M00008I*",
        "L7M02311B*",
        "L7M02311A",
        "L7M02311*",
        "L7M023111A*",
        "L7M0231A*",
        "L7 02311A*",
        "L7*02311A*",
        "L7M#02311*",
        "L7M?*",
        "L?A*",
        "L7M0231 A*",
        "LL7?A*",
        "",
        // `]`: five digits only as `00000N`.
        "L7]02311A*",
        "L7]00000A*",
        "L7]00001N*",
        "L7]00005N*",
        "L7]00000I*",
        "L7]A*",
        "L7]N*",
        "L7]25A*",
        "L7]20000A*",
        // A scan's mark and identifier.
        "L7]25_99998_02311_00000_00003_00156_I*",
        "L7]25_99998_02311_00000_00003_00156_N*",
        "L7]25_00000_00000_00000_00000_00000_N*",
        "L7]20_00010_00022_99993_00018_I*",
        "L7M25_99998_02311_00000_00003_00156_A*",
        "L7?25_99998_02311_00000_00003_00156_A*",
        "L7M20_00010_00022_99993_00018_A*",
        // The count of digits.
        "L7]24_99998_02311_00000_00003_00156_A*",
        "L7]26_99998_02311_00000_00003_00156_A*",
        "L7]20_99998_02311_00000_00003_00156_A*",
        "L7]25_00010_00022_99993_00018_A*",
        "L7]05_99998_02311_00000_00003_00156_A*",
        "L7]25_99998_02311_00000_00003_001560_A*",
        "L7]25_99998_02311_00000_00003_0015_A*",
        "L7]24_99998_02311_00000_00003_0015_A*",
        "L7]15_00010_00022_99993_A*",
        "L7]05_00010_A*",
        "L7]00_A*",
        "L7]99998_02311_00000_00003_00156_A*",
        // Every value as a card spells it: no minus zero, codes 0 to 3 and 5 to 8.
        "L7]25_00005_02311_00000_00003_00156_A*",
        "L7]25_99998_02311_00006_00003_00156_A*",
        "L7]25_99998_02311_00000_00003_00008_A*",
        "L7]20_00010_00022_99993_00007_A*",
        "L7]25_99994_02311_00000_00003_00156_A*",
        "L7]25_99998_02311_00000_00003_00159_A*",
        "L7]25_99998_02311_0 000_00003_00156_A*",
        "L07]20_00010_00022_99993_00018_A*",
        "L0]25_99998_02311_00000_00003_00156_A*",
        "L100]20_00010_00022_99993_00018_A*",
    ] {
        assert_eq!(read(&line(spelled)), Err(Refusal::Reply), "{spelled}");
        assert_eq!(calls::read(&line(spelled), &mut []), -6, "6 before 5");
    }
    let mut numbers = [9; 17];
    let mut read = |spelled| {
        assert_eq!(calls::read(&line(spelled), &mut numbers), calls::READ);
        assert_eq!(numbers[15..], [9, 9]);
        numbers[..15].to_vec()
    };
    assert_eq!(read("L7J00156I*"), [76, 7, 74, 73, 1, -15, 1, 0, 0, 0, 0, 0, 0, 0, 0]);
    let five = "L70]25_99998_02311_00000_00003_00156_A*";
    assert_eq!(read(five), [76, 70, 93, 65, 5, -9999, 3, 231, 1, 0, 0, 0, 3, -15, 1]);
    assert_eq!(
        read("L7]20_00010_00022_99993_00018_A*"),
        [76, 7, 93, 65, 4, 1, 0, 2, 2, 9999, 3, -1, 3, 0, 0]
    );
    assert_eq!(read("L7]00000N*"), [76, 7, 93, 78, 1, 0, 0, 0, 0, 0, 0, 0, 0, 0, 0]);
    assert_eq!(read("L7?A*"), [76, 7, 63, 65, 0, 0, 0, 0, 0, 0, 0, 0, 0, 0, 0]);
    for spelled in ["L7?A*", five] {
        for room in [0, 7, 14] {
            let mut short = vec![9; room];
            assert_eq!(calls::read(&line(spelled), &mut short), -5);
            assert_eq!(short, vec![9; room]);
        }
    }
}
