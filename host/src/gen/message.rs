//! Characters as they travel, the messages sent to a card and the replies it spells.

use super::{identifiers, value, Rng, Row, World, SCAN};

/// A character as it travels.
pub fn on_line(character: u8) -> u8 {
    let seven = character & 0x7F;
    seven | (((seven.count_ones() & 1) as u8) << 7)
}

pub fn words_of(text: &[u8]) -> impl Iterator<Item = u16> + '_ {
    text.iter().map(|&character| u16::from(on_line(character)))
}

/// Any seven-bit character but `*`.
pub(super) fn other(rng: &mut Rng) -> u8 {
    match rng.next() as u8 & 0x7F {
        b'*' => 0,
        character => character,
    }
}

fn identifier(rng: &mut Rng, world: &World) -> u8 {
    match rng.below(20) {
        0 => rng.next() as u8 & 0x7F,
        1 | 2 => rng.pick(&identifiers()),
        3 => rng.pick(b"?#+-ILRAN]!~"),
        _ if world.rows.is_empty() => b'm',
        _ => rng.pick(&world.rows)[0] as u8,
    }
}

/// Five digits for a row: near its edges, most often with its decimals.
fn digits(rng: &mut Rng, row: Option<&Row>, text: &mut Vec<u8>) {
    let (number, decimals) = match row {
        Some(row) => {
            let number = match rng.below(8) {
                0 => row[4] + rng.within(-2, 2),
                1 => row[5] + rng.within(-2, 2),
                2 => row[5] + row[3],
                3 => rng.within(-9_999, 9_999),
                4 => 0,
                5 => value(rng, row),
                _ => rng.within(row[4], row[5]),
            };
            (number, if rng.percent(90) { row[2] } else { rng.within(0, 3) })
        }
        None => (rng.within(-9_999, 9_999), rng.within(0, 3)),
    };
    let number = number.clamp(-9_999, 9_999);
    let minus = number < 0 || (number == 0 && rng.percent(40));
    let code = match rng.below(30) {
        0 => 4,
        1 => 9,
        _ => decimals + if minus { 5 } else { 0 },
    };
    text.extend_from_slice(format!("{:04}{code}", number.abs()).as_bytes());
}

/// Appends letter and address, some of those under 10 with a leading zero.
fn put_head(rng: &mut Rng, letter: u8, address: i32, text: &mut Vec<u8>) {
    text.push(letter);
    if address < 10 && rng.percent(30) {
        text.push(b'0');
    }
    text.extend_from_slice(address.to_string().as_bytes());
}

fn other_letter(letter: u8) -> u8 {
    letter ^ b'L' ^ b'R'
}

/// Appends letter and address, most often the card's.
fn head(rng: &mut Rng, world: &World, text: &mut Vec<u8>) {
    let letter = world.card[0] as u8;
    let letter = match rng.below(20) {
        0 => other_letter(letter),
        1 => rng.pick(b"LR"),
        _ => letter,
    };
    let address = match rng.below(16) {
        0 => rng.within(0, 110),
        1 => world.card[1] % 99 + 1,
        _ => world.card[1],
    };
    put_head(rng, letter, address, text);
}

/// Appends letter and address of another card: the other letter, another address, or both. Half of the other
/// addresses have something of the card's own.
pub fn neighbours_head(rng: &mut Rng, world: &World, text: &mut Vec<u8>) {
    let (letter, own) = (world.card[0] as u8, world.card[1]);
    let (tens, ones) = (own / 10, own % 10);
    let near = [own % 99 + 1, own + 10, tens, ones, ones * 10 + tens, ones * 11];
    let drawn = if rng.percent(50) { rng.pick(&near) } else { rng.within(1, 99) };
    let address = if matches!(drawn, 1..=99) && drawn != own { drawn } else { near[0] };
    let other = other_letter(letter);
    let (letter, address) = rng.pick(&[(other, own), (letter, address), (other, address)]);
    put_head(rng, letter, address, text);
}

/// Appends `#` and five digits for an identifier.
fn setting(rng: &mut Rng, world: &World, code: u8, text: &mut Vec<u8>) {
    text.push(b'#');
    let row = world.rows.iter().find(|row| row[0] == i32::from(code));
    digits(rng, row, text);
}

/// Appends this identifier, or `?` in its place, and a body.
fn body(rng: &mut Rng, world: &World, code: u8, text: &mut Vec<u8>) {
    let kind = rng.below(100);
    if kind < 8 {
        text.extend_from_slice(b"??");
        return;
    }
    text.push(code);
    match kind {
        8..=29 => text.push(b'?'),
        30..=44 => text.push(b'+'),
        45..=59 => text.push(b'-'),
        60..=74 => text.push(b'I'),
        75..=97 => setting(rng, world, code, text),
        _ => text.extend((0..rng.below(8)).map(|_| other(rng))),
    }
}

/// Appends `]` and a body, most often the query.
fn scan_body(rng: &mut Rng, text: &mut Vec<u8>) {
    text.push(SCAN);
    match rng.below(10) {
        0 => text.push(b'+'),
        1 => text.push(b'-'),
        2 => text.push(b'I'),
        3 => {
            text.push(b'#');
            digits(rng, None, text);
        }
        _ => text.push(b'?'),
    }
}

/// Appends a message with its `*`, most often well formed and for the card.
pub fn message(rng: &mut Rng, world: &World, text: &mut Vec<u8>) {
    head(rng, world, text);
    let code = identifier(rng, world);
    body(rng, world, code, text);
    text.push(b'*');
}

/// Appends a message on `]` with its `*`, most often the query.
pub fn scan_message(rng: &mut Rng, world: &World, text: &mut Vec<u8>) {
    head(rng, world, text);
    scan_body(rng, text);
    text.push(b'*');
}

/// Appends a message for another card with its `*`, most often well formed, and a Type 3 or a Type 4 for
/// this identifier.
pub fn neighbours_message(rng: &mut Rng, world: &World, code: u8, text: &mut Vec<u8>) {
    neighbours_head(rng, world, text);
    match rng.below(10) {
        0..=2 => text.extend_from_slice(&[code, b'I']),
        3..=5 => {
            text.push(code);
            setting(rng, world, code, text);
        }
        6 => scan_body(rng, text),
        _ => {
            let code = if rng.percent(50) { code } else { identifier(rng, world) };
            body(rng, world, code, text);
        }
    }
    text.push(b'*');
}

fn reply_head(rng: &mut Rng) -> Vec<u8> {
    let mut text = vec![rng.pick(b"LR")];
    let address = if rng.percent(50) { rng.within(1, 9) } else { rng.within(1, 99) };
    text.extend_from_slice(address.to_string().as_bytes());
    text
}

/// Five digits as a card spells them.
fn reply_digits(rng: &mut Rng) -> String {
    let number = match rng.below(4) {
        0 => rng.within(-3, 3),
        1 => rng.pick(&[-9_999, 9_999, 0]),
        _ => rng.within(-9_999, 9_999),
    };
    let code = rng.within(0, 3) + if number < 0 { 5 } else { 0 };
    format!("{:04}{code}", number.abs())
}

/// A reply as a card spells it, in plain characters; not that of a scan.
pub fn reply(rng: &mut Rng) -> Vec<u8> {
    let mut text = reply_head(rng);
    if rng.percent(10) {
        text.extend_from_slice(b"?A*");
        return text;
    }
    let identifier = rng.pick(&identifiers());
    let digits = reply_digits(rng);
    let outcome = rng.pick(b"AIN");
    text.push(identifier);
    if identifier == SCAN {
        text.extend_from_slice(b"00000N");
    } else {
        text.extend_from_slice(digits.as_bytes());
        text.push(outcome);
    }
    text.push(b'*');
    text
}

/// A scan's reply as a card spells it, in plain characters.
pub fn scan_reply(rng: &mut Rng) -> Vec<u8> {
    let mut text = reply_head(rng);
    let named = rng.pick(&[4, 5]);
    text.extend_from_slice(format!("]{}", 5 * named).as_bytes());
    (0..named).for_each(|_| text.extend_from_slice(reply_digits(rng).as_bytes()));
    text.extend_from_slice(b"A*");
    text
}
