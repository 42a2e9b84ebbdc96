//! Everything that can be wrong with what is lent: card, offer, scan, sheets, values and words.

use super::{identifiers, row, rows_of, value, Rng, Row, World, SCAN};

/// Makes a card's row unsound before its offer, its scan and the sheets are looked at.
pub fn break_card(rng: &mut Rng, card: &mut Vec<i32>) {
    let length = card[2] as usize;
    match rng.below(11) {
        // Sixteen and 22 numbers were rows before requests 1 and 5.
        0 => {
            let any = rng.below(23);
            card.truncate(rng.pick(&[any, 16, 22]));
        }
        1 => lengthen_card(rng, card),
        2 => card[0] = rng.pick(&[0, 75, 77, 0xCC, 0xD2, 76 + 256, -76, i32::MIN, i32::MAX]),
        3 => card[1] = rng.pick(&[0, 100, -1, -7, 256, 263, 355, 65_543, i32::MIN, i32::MAX]),
        4 => card[2] = rng.pick(&[-1, 11, 12, 128, 255, 256, 266, i32::MIN, i32::MAX]),
        5 if length > 0 => card[3] = rng.pick(&[0, 42, 75, 0xCC, 76 + 256, -1, i32::MIN]),
        6 if length > 1 => {
            let at = 4 + rng.below(length - 1);
            card[at] = rng.pick(&[42, 128, 0xAA, 255, 256, -1, 42 + 256, i32::MIN, i32::MAX]);
        }
        7 if length < 10 => {
            let at = 3 + length + rng.below(10 - length);
            card[at] = rng.pick(&[1, 76, 42, 256, -1, i32::MIN]);
        }
        // A count that the characters don't bear out.
        8 if length > 1 && card[2 + length] != 0 => card[2] -= 1,
        8 | 9 if length == 0 => card[2] = rng.within(1, 10),
        10 => card[22] = wrong_revision(rng),
        _ => card[0] = 0,
    }
}

/// Makes a row of 23 numbers longer: by 1, 2 or 9 of them, or by one or two copies of itself, back to back.
pub fn lengthen_card(rng: &mut Rng, card: &mut Vec<i32>) {
    match rng.pick(&[24, 25, 32, 46, 69]) {
        length @ (46 | 69) => *card = card.repeat(length / 23),
        length => card.resize_with(length, || {
            let any = rng.wild();
            rng.pick(&[0, 1, 2, any])
        }),
    }
}

/// A number that is no revision.
pub fn wrong_revision(rng: &mut Rng) -> i32 {
    rng.pick(&[0, 3, -1, -2, 4, 255, 256, 257, 258, 65_537, i32::MIN, i32::MAX])
}

/// Makes one of the 23 numbers of the world's card unsound: 0 to 12 and 22 before the sheets are looked at, 13 to 21
/// behind them. For 17 to 21 the card names five identifiers.
pub fn break_number(rng: &mut Rng, world: &mut World, place: usize) {
    if matches!(place, 17..=21) {
        world.scan(rng, 5);
        world.card[16] = 5;
    }
    let now = world.card[place];
    world.card[place] = match place {
        0 => rng.pick(&[0, 75, 77, 0xCC, 0xD2, 76 + 256, -76, i32::MIN, i32::MAX]),
        1 => rng.pick(&[0, 100, -1, -7, 256, 263, 355, 65_543, i32::MIN, i32::MAX]),
        2 => rng.pick(&[-1, 11, 12, 128, 255, 256, 266, i32::MIN, i32::MAX]),
        // Neither a letter nor what stands behind the last character.
        3 => rng.pick(&[42, 75, 0xCC, 76 + 256, -1, i32::MIN, i32::MAX]),
        4..=12 => rng.pick(&[42, 128, 0xAA, 255, 256, -1, 42 + 256, i32::MIN, i32::MAX]),
        13 => rng.pick(&[1 - now, 2, -1, 256, 257, i32::MIN, i32::MAX]),
        14 => rng.pick(&[-1, 42, 63, 127, 256, 300, 256 + now, i32::MIN, i32::MAX]),
        15 => rng.pick(&[-10_000, 10_000, 65_536, i32::MIN, i32::MAX]),
        16 => rng.pick(&[1, 2, 3, 6, 7, 255, -1, -4, 256, 260, 261, i32::MIN, i32::MAX]),
        22 => wrong_revision(rng),
        _ => rng.pick(&[-1, 0, 42, 63, 93, 127, 256, 300, i32::MIN, i32::MAX]),
    };
}

/// Three numbers that are no offer, or one for identifier 0, near those of a sound one.
fn no_offer(rng: &mut Rng, identifier: i32, value: i32) -> [i32; 3] {
    match rng.below(5) {
        0 => {
            let mark = rng.pick(&[2, -1, 256, 257, i32::MIN, i32::MAX]);
            rng.pick(&[[mark, identifier, value], [mark, 0, 0]])
        }
        1 => [0, rng.pick(&[identifier, 1, -1, 256, 300, i32::MIN]), rng.pick(&[0, value])],
        2 => [0, 0, rng.pick(&[1, -1, 5, i32::MIN])],
        // An identifier that isn't a byte.
        3 => [1, rng.pick(&[-1, 256, 300, 256 + identifier, i32::MIN, i32::MAX]), value],
        _ => [1, 0, rng.pick(&[0, value])],
    }
}

/// Gives the card an offer that no Type 3 could leave, under sound sheets.
pub fn break_offer(rng: &mut Rng, world: &mut World) {
    let absent: Vec<u8> =
        (0..=255u8).filter(|&code| world.rows.iter().all(|row| row[0] != i32::from(code))).collect();
    let read_only: Vec<Row> = world.rows.iter().copied().filter(|row| row[1] == 1).collect();
    let written: Vec<Row> = world.rows.iter().copied().filter(|row| row[1] != 1).collect();
    let wrong = match rng.below(8) {
        0 if !read_only.is_empty() => {
            let row = rng.pick(&read_only);
            [1, row[0], value(rng, &row)]
        }
        1 if !written.is_empty() => {
            let row = rng.pick(&written);
            [1, row[0], rng.pick(&[row[5] + row[3], row[5] + 1, i32::MAX])]
        }
        2 if !written.is_empty() => {
            let row = rng.pick(&written);
            [1, row[0], rng.pick(&[row[4] - row[3], row[4] - 1, i32::MIN])]
        }
        3 if written.iter().any(|row| row[3] > 1 && row[4] < row[5]) => {
            let rows: Vec<Row> = written.into_iter().filter(|row| row[3] > 1 && row[4] < row[5]).collect();
            let row = rng.pick(&rows);
            [1, row[0], row[4] + rng.within(1, row[3] - 1)]
        }
        4 => [1, i32::from(rng.pick(&absent)), 0],
        _ => {
            let row = if written.is_empty() { row_of(b'm') } else { rng.pick(&written) };
            let value = value(rng, &row);
            no_offer(rng, row[0], value)
        }
    };
    world.card[13..16].copy_from_slice(&wrong);
}

/// Gives the card a scan that isn't sound, or `]` a row, under sound sheets.
pub fn break_scan(rng: &mut Rng, world: &mut World) {
    match rng.below(8) {
        0 => add_scan_row(rng, &mut world.bench),
        1 => add_scan_row(rng, &mut world.maker),
        2 | 3 => world.card[16] = rng.pick(&[1, 2, 3, 6, 7, 255, -1, -4, 256, 260, 261, i32::MIN, i32::MAX]),
        kind => {
            let absent = |code: &i32| world.rows.iter().all(|row| row[0] != *code);
            let absent: Vec<i32> = (0..=255).filter(absent).collect();
            let unreadable: Vec<Row> = world.rows.iter().copied().filter(|row| row[1] == 3).collect();
            let named = rng.pick(&[4, 5]);
            world.scan(rng, named);
            let place = 17 + rng.below(named);
            let cut = world.card[place].wrapping_add(256);
            world.card[16] = named as i32;
            world.card[place] = match kind {
                4 | 5 if !unreadable.is_empty() => rng.pick(&unreadable)[0],
                // No byte.
                6 => rng.pick(&[-1, 256, 300, cut.max(256), i32::MIN, i32::MAX]),
                _ => rng.pick(&absent),
            };
        }
    }
}

/// Gives `]` a row in a sheet that has none, in place of another where 64 are there.
pub fn add_scan_row(rng: &mut Rng, sheet: &mut Vec<i32>) {
    if sheet.len() == 64 * 6 {
        let at = 6 * rng.below(64);
        sheet.drain(at..at + 6);
    }
    let at = 6 * rows_of(sheet).take_while(|row| row[0] < i32::from(SCAN)).count();
    sheet.splice(at..at, row(rng, SCAN));
}

/// Makes a sheet unsound.
pub fn break_sheet(rng: &mut Rng, sheet: &mut Vec<i32>) {
    if sheet.is_empty() {
        sheet.extend_from_slice(&[65, 2, 1, 5, -100, 100]);
    }
    let rows = sheet.len() / 6;
    let at = rng.below(rows) * 6;
    let row = &mut sheet[at..at + 6];
    match rng.below(14) {
        0 => sheet.truncate(6 * rows - 1 - rng.below(5)),
        1 => sheet.extend((0..1 + rng.below(5)).map(|_| 0)),
        2 => row[0] = rng.pick(&[0, 32, 127, 128, 63, 42, 48, 53, 57, -1, 65 + 256, i32::MIN, i32::MAX]),
        3 => row[1] = rng.pick(&[0, 4, -1, 258, i32::MIN, i32::MAX]),
        4 => row[2] = rng.pick(&[-1, 4, 5, 256, i32::MIN, i32::MAX]),
        5 => row[3] = rng.pick(&[0, -1, 10_000, i32::MIN, i32::MAX]),
        6 => row[4] = rng.pick(&[row[5] + row[3], row[5] + 1, -10_000, i32::MIN, i32::MAX]),
        7 => row[5] = rng.pick(&[row[4] - row[3], row[4] - 1, 10_000, i32::MIN, i32::MAX]),
        8 if row[3] > 1 && row[4] < row[5] => row[4] += rng.within(1, row[3] - 1),
        9 if row[3] > 1 && row[4] < row[5] => row[5] -= rng.within(1, row[3] - 1),
        // The same row twice, and two in the wrong order.
        10 => {
            let twice = sheet[at..at + 6].to_vec();
            sheet.splice(at..at, twice);
        }
        11 if rows > 1 => {
            let at = rng.below(rows - 1) * 6;
            for place in at..at + 6 {
                sheet.swap(place, place + 6);
            }
        }
        // Sixty-five sound rows.
        12 => {
            let codes = identifiers();
            *sheet = codes[..65].iter().flat_map(|&code| row_of(code)).collect();
        }
        _ => row[3] = 0,
    }
}

fn row_of(code: u8) -> Row {
    [i32::from(code), 2, 1, 5, -100, 100]
}

/// Makes values unsound under sound sheets.
pub fn break_values(rng: &mut Rng, world: &mut World) {
    if world.rows.is_empty() || rng.percent(30) {
        let length = rng.pick(&[0, 1, 64, 127, 129, 256]);
        world.values.resize(length, 0);
        return;
    }
    break_value(rng, &world.rows, &mut world.values);
}

/// Makes one of these values break the rules of these rows, of which there is one or more.
pub fn break_value(rng: &mut Rng, rows: &[Row], values: &mut [i32]) {
    let row = rng.pick(rows);
    let value = &mut values[row[0] as usize];
    *value = match rng.below(3) {
        0 => rng.pick(&[row[5] + row[3], row[5] + 1, i32::MAX]),
        1 if row[3] > 1 && row[4] < row[5] => row[4] + rng.within(1, row[3] - 1),
        _ => rng.pick(&[row[4] - row[3], row[4] - 1, i32::MIN]),
    };
}

/// A word that is none.
pub fn wrong_word(rng: &mut Rng) -> u16 {
    rng.pick(&[257, 258, 300, 0x1CC, 0x1AA, 0x2AA, 0xCC00, 0xFFFF])
}
