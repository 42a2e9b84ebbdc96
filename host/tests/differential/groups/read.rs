//! Groups of replies for `kav_read`.

use super::{Bench, Checked};
use crate::case::Case;
use kavtziron_host::gen::{self, Rng};
use kavtziron_host::reference::calls;

fn line_of(text: &[u8]) -> Vec<u8> {
    text.iter().map(|&character| gen::on_line(character)).collect()
}

/// A reply as a card spells it, some of them a scan's.
fn any_reply(rng: &mut Rng) -> Vec<u8> {
    line_of(&if rng.percent(30) { gen::scan_reply(rng) } else { gen::reply(rng) })
}

pub(crate) fn read_random(rng: &mut Rng, _: u64, bench: &mut Bench) -> Checked {
    let mut bytes = any_reply(rng);
    for _ in 0..rng.pick(&[0, 1, 1, 1, 2]) {
        if bytes.is_empty() {
            break;
        }
        let at = rng.below(bytes.len());
        match rng.below(7) {
            0 => bytes[at] ^= 1 << rng.below(8),
            1 => {
                bytes.remove(at);
            }
            2 => bytes.insert(at, gen::on_line(rng.next() as u8)),
            3 => bytes.insert(at, gen::on_line(rng.pick(b"0123456789L?A*"))),
            4 => bytes[at] = gen::on_line(rng.pick(b"0123456789LRAIN?*]")),
            5 => bytes[at] = gen::on_line(rng.next() as u8),
            _ => bytes.push(rng.next() as u8),
        }
    }
    let room = rng.pick(&[15, 15, 15, 16, 17, 14, 7, 0]);
    bench.check(Case::Read { bytes, room })?;
    Ok(())
}

pub(crate) fn read_babble(rng: &mut Rng, _: u64, bench: &mut Bench) -> Checked {
    let bytes = match rng.below(4) {
        0 => (0..rng.below(14)).map(|_| rng.next() as u8).collect(),
        1 => (0..rng.below(14)).map(|_| gen::on_line(rng.next() as u8)).collect(),
        2 => {
            let mut text = b"L7]25".to_vec();
            text[4] = rng.pick(b"00555123");
            let count = rng.pick(&[5, 10, 15, 19, 20, 20, 21, 24, 25, 25, 26, 30]);
            text.extend((0..count).map(|_| rng.pick(b"011235678")));
            text.extend_from_slice(&[rng.pick(b"AAAIN"), b'*']);
            line_of(&text)
        }
        _ => {
            let mut text = vec![rng.pick(b"LR")];
            text.extend((0..rng.below(12)).map(|_| rng.pick(b"0011223456789?m#]AIN*")));
            line_of(&text)
        }
    };
    bench.check(Case::Read { bytes, room: 15 })?;
    Ok(())
}

/// Every data digits behind an identifier, and as a value of a scan.
pub(crate) fn read_every(rng: &mut Rng, number: u64, bench: &mut Bench) -> Checked {
    let outcome = rng.pick(b"AIN") as char;
    let bytes = line_of(format!("L{}m{number:05}{outcome}*", 1 + number % 99).as_bytes());
    let code = number % 10;
    let good = code != 4 && code != 9 && !(number < 10 && code > 4);
    let wanted = if good { calls::READ } else { -6 };
    bench.expect(Case::Read { bytes, room: 15 }, wanted)?;
    let text = scan_with(rng, &format!("{number:05}"));
    bench.expect(Case::Read { bytes: line_of(&text), room: 15 }, wanted)
}

/// A scan's reply with these digits for one of its values.
fn scan_with(rng: &mut Rng, digits: &str) -> Vec<u8> {
    let mut text = gen::scan_reply(rng);
    let first = behind_count(&text);
    let at = first + 5 * rng.below((text.len() - 2 - first) / 5);
    text[at..at + 5].copy_from_slice(digits.as_bytes());
    text
}

/// Where the values of a scan's reply begin.
fn behind_count(text: &[u8]) -> usize {
    text.iter().position(|&character| character == gen::SCAN).expect("a scan's reply") + 3
}

/// A scan's reply with rooms around the answer's fifteen, and with one thing wrong.
pub(crate) fn read_scans(rng: &mut Rng, _: u64, bench: &mut Bench) -> Checked {
    let text = gen::scan_reply(rng);
    for room in [0, 7, 13, 14, 15, 16, 20] {
        let wanted = if room < 15 { -5 } else { calls::READ };
        bench.expect(Case::Read { bytes: line_of(&text), room }, wanted)?;
    }
    let (first, end) = (behind_count(&text), text.len() - 2);
    let minus_zero = format!("0000{}", rng.within(5, 8));
    let no_code = format!("{:04}{}", rng.below(10_000), rng.pick(&[4, 9]));
    let mut broken = vec![scan_with(rng, &minus_zero), scan_with(rng, &no_code)];
    let mut with = |at: usize, character: u8| {
        let mut text = text.clone();
        text[at] = character;
        broken.push(text);
    };
    let other = rng.pick(&gen::identifiers());
    with(first - 3, if other == gen::SCAN { b'm' } else { other });
    with(end, rng.pick(b"IN"));
    with(first - 1, if text[first - 1] == b'0' { rng.pick(b"123456789") } else { rng.pick(b"012346789") });
    with(first - 2, rng.pick(b"013456789"));
    with(first + rng.below(end - first), rng.pick(b"?*A:/ "));
    // Another count of values, its digits told or not.
    let values = (end - first) / 5;
    for count in [0, 1, 3, 4, 5, 6] {
        let digits = text[first..end].iter().cycle().take(5 * count);
        for said in [5 * values, 5 * count] {
            if count != values && (said != 5 * count || !matches!(count, 4 | 5)) {
                let head = [&text[..first - 2], format!("{said:02}").as_bytes()].concat();
                broken.push(head.into_iter().chain(digits.clone().copied()).chain(*b"A*").collect());
            }
        }
    }
    for text in broken {
        let room = rng.pick(&[14, 15, 15]);
        bench.expect(Case::Read { bytes: line_of(&text), room }, -6)?;
    }
    Ok(())
}

/// Every single byte in every place of a reply, every address and every room.
pub(crate) fn read_edits(rng: &mut Rng, number: u64, bench: &mut Bench) -> Checked {
    let bytes = line_of(&if number.is_multiple_of(4) { gen::scan_reply(rng) } else { gen::reply(rng) });
    for room in 0..18 {
        let wanted = if room < 15 { -5 } else { calls::READ };
        bench.expect(Case::Read { bytes: bytes.clone(), room }, wanted)?;
        let mut wrong = bytes.clone();
        let at = rng.below(wrong.len());
        wrong[at] ^= 0x80;
        bench.expect(Case::Read { bytes: wrong, room }, -6)?;
    }
    for at in 0..bytes.len() {
        for byte in 0..=255 {
            let mut bytes = bytes.clone();
            bytes[at] = byte;
            bench.check(Case::Read { bytes, room: 15 })?;
        }
        bench.expect(Case::Read { bytes: bytes[..at].to_vec(), room: 15 }, -6)?;
    }
    let five = "]259999802311000000000300156A*";
    for address in 0..120 {
        for zero in ["", "0", "00"] {
            for rest in ["?A*", "?N*", "?I*", "m00231A*", "?00231A*", "mA*", "]00000N*", "]00231A*", five] {
                let bytes = line_of(format!("R{zero}{address}{rest}").as_bytes());
                bench.check(Case::Read { bytes, room: 15 })?;
            }
        }
    }
    Ok(())
}
