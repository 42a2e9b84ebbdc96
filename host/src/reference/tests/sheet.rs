//! Sound and unsound sheets, the cut to a multiple of the step, and the lookup of a row.

use super::BENCH;
use crate::reference::calls;
use crate::reference::sheet::{lookup, sound_rows, Row};

#[test]
fn sheets() {
    let row = [74, 2, 1, 5, -100, 100];
    let with = |place: usize, number: i32| {
        let mut row = row;
        row[place] = number;
        row
    };
    assert!(sound_rows(&[]).is_some());
    assert!(sound_rows(&row).is_some());
    assert!(sound_rows(&row[..5]).is_none());
    assert!(sound_rows(&[&row[..], &[0]].concat()).is_none());
    for (place, number) in [
        (0, 32),
        (0, 127),
        (0, 128),
        (0, -1),
        (0, 42),
        (0, 48),
        (0, 57),
        (0, 63),
        (0, 74 + 256),
        (0, i32::MIN),
        (0, i32::MAX),
        (1, 0),
        (1, 4),
        (1, -1),
        (2, -1),
        (2, 4),
        (2, 256),
        (3, 0),
        (3, -1),
        (3, -5),
        (3, 10_000),
        (3, i32::MIN),
        (3, i32::MAX),
        (4, -101),
        (4, 105),
        (4, i32::MIN),
        (4, -10_000),
        (5, 101),
        (5, -105),
        (5, i32::MAX),
        (5, 10_000),
    ] {
        assert!(sound_rows(&with(place, number)).is_none(), "{place} {number}");
    }
    for (place, number) in
        [(0, 33), (0, 126), (1, 1), (1, 3), (2, 0), (2, 3), (3, 1), (3, 100), (4, 100), (5, -100)]
    {
        assert!(sound_rows(&with(place, number)).is_some(), "{place} {number}");
    }
    assert!(sound_rows(&[65, 2, 0, 9999, -9999, 9999]).is_some());
    assert!(sound_rows(&[65, 2, 0, 9999, 0, 0]).is_some());
    // Strictly rising, and at most 64 rows.
    assert!(sound_rows(&[row, row].concat()).is_none());
    assert!(sound_rows(&[row, with(0, 73)].concat()).is_none());
    assert!(sound_rows(&[row, with(0, 75)].concat()).is_some());
    let codes: Vec<i32> = (33..=126).filter(|c| !(48..=57).contains(c) && ![42, 63].contains(c)).collect();
    let sheet = |count: usize| codes[..count].iter().flat_map(|&code| with(0, code)).collect::<Vec<_>>();
    assert!(sound_rows(&sheet(64)).is_some());
    assert!(sound_rows(&sheet(65)).is_none());
}

#[test]
fn the_lookup() {
    let maker = [65, 1, 0, 1, 0, 9, 109, 1, 0, 1, 0, 9];
    let part = lookup(&BENCH, &maker, b'm');
    assert_eq!(part.as_ptr(), BENCH[18..].as_ptr(), "the bench sheet's, and the part itself");
    assert_eq!(part, &BENCH[18..24]);
    assert_eq!(lookup(&BENCH, &maker, b'A').as_ptr(), maker.as_ptr());
    for identifier in [b'?', b'7', b'*', b'B', 0, 127, 128, b'm' + 128, 255] {
        assert!(lookup(&BENCH, &maker, identifier).is_empty(), "{identifier}");
    }
    assert!(lookup(&BENCH, &maker[..11], b'm').is_empty(), "a hidden sheet must be sound too");
    assert!(lookup(&BENCH[1..], &maker, b'A').is_empty());
}

#[test]
fn the_cut_goes_down() {
    let row = Row { access: 2, decimals: 0, step: 7, least: -9996, greatest: 9996 };
    for number in -9996..=9996 {
        let cut = row.cut(number);
        assert!(cut % 7 == 0 && cut <= number && number - cut < 7 && row.in_range(cut));
    }
}

#[test]
fn the_lookup_call() {
    for room in 0..9 {
        let mut row = vec![-7; room];
        let got = calls::lookup(&BENCH, &[], b'Z', &mut row);
        if room < 6 {
            assert_eq!(got, -5);
            assert_eq!(row, vec![-7; room]);
        } else {
            assert_eq!(got, 6);
            assert_eq!(row[..6], BENCH[12..18]);
            assert_eq!(row[6..], vec![-7; room - 6]);
        }
    }
    let mut row = [-7; 6];
    assert_eq!(calls::lookup(&BENCH, &[], b'a', &mut row), 0);
    assert_eq!(calls::lookup(&BENCH[1..], &[], b'Z', &mut row), 0);
    assert_eq!(row, [-7; 6]);
}
