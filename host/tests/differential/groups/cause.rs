//! Groups of requests 4 and 5: the cause beside the reply of `kav_step`, known ones and every two at once.

use super::{Bench, Checked};
use crate::case::{Case, Lent};
use crate::drawn::Cause;
use kavtziron_host::gen::{self, Rng, Row, World};

/// The `*` that closes a message.
pub(super) fn star() -> u16 {
    u16::from(gen::on_line(b'*'))
}

/// A `*` closes this message at a card. The cause is known; too little room for it or for the reply is number 5. A
/// silence in place of the `*` drops the message, and it has no cause but that none was closed.
pub(super) fn close(
    rng: &mut Rng,
    mut world: World,
    text: &[u8],
    cause: Cause,
    bench: &mut Bench,
) -> Checked {
    world.open_with(text);
    let lent: Lent = world.into();
    let room = 33 + rng.below(3);
    for length in 0..2 {
        bench.expect(Case::Step { world: lent.clone(), word: star(), room, cause: length }, -5)?;
    }
    bench.expect(Case::Step { world: lent.clone(), word: star(), room: 32, cause: 2 }, -5)?;
    for length in 2..4 {
        bench.expect_cause(Case::Step { world: lent.clone(), word: star(), room, cause: length }, cause)?;
    }
    bench.expect_cause(Case::Step { world: lent, word: 256, room, cause: 2 }, [9, 0])
}

/// The bench cases' rows.
const ROWS: [Row; 4] =
    [[74, 2, 1, 5, -100, 100], [77, 1, 1, 1, -1999, 9999], [90, 3, 0, 1, 15, 18], [109, 2, 1, 5, 0, 1000]];

/// Messages with their cause at a card L7 of the first revision with neither an offer nor a scan.
const KNOWN: [(&str, Cause); 57] = [
    ("L7??", [0, 0]),
    ("L07m?", [0, 0]),
    ("L7m+", [0, 0]),
    ("L7m#00231", [0, 0]),
    ("L7J#00126", [0, 0]),
    ("L7Z#00150", [0, 0]),
    ("L7J#00001", [0, 0]),
    ("L7J#00006", [0, 0]),
    ("L7a?", [1, 0]),
    ("L7a+", [1, 0]),
    ("L7a#99998", [1, 0]),
    ("L7]+", [1, 0]),
    ("L7]#00000", [1, 0]),
    ("L7a#00005", [1, 0]),
    ("L7]#00005", [1, 0]),
    ("L7Z?", [2, 0]),
    ("L7Z-", [2, 0]),
    ("L7M-", [2, 0]),
    ("L7M#99998", [2, 0]),
    ("L7M#00006", [2, 0]),
    ("L7m#00230", [3, 0]),
    ("L7m#99998", [3, 0]),
    ("L7J#00005", [3, 0]),
    ("L7Z#00006", [3, 0]),
    ("L7Z#00000", [5, 0]),
    ("L7Z#00005", [5, 0]),
    ("L7m#10031", [5, 0]),
    ("L7J#01016", [5, 0]),
    ("L7Z#00190", [5, 0]),
    ("L7J-", [6, 0]),
    ("R7??", [7, 0]),
    ("L8mI", [7, 0]),
    ("L70]?", [7, 0]),
    ("L7mI", [8, 0]),
    ("L7aI", [8, 0]),
    ("L7]I", [8, 0]),
    ("L", [10, 1]),
    ("L?", [10, 1]),
    ("LL7??", [10, 1]),
    ("L0??", [10, 2]),
    ("L00M?", [10, 2]),
    ("L7", [10, 2]),
    ("L7 ?", [10, 2]),
    ("L100M?", [10, 3]),
    ("L7M", [10, 3]),
    ("L7?+", [10, 3]),
    ("L8M!", [10, 3]),
    ("L7??x", [10, 4]),
    ("L7m#", [10, 4]),
    ("L7m#1", [10, 5]),
    ("L70m+x", [10, 5]),
    ("L7m#12?", [10, 6]),
    ("L7m#123x4", [10, 7]),
    ("L7m#1234", [10, 8]),
    ("L7m#00304", [10, 8]),
    ("L7m#000001", [10, 9]),
    ("L70m#00009", [10, 9]),
];

/// Cards with and without an offer for `m` and a scan, of both revisions.
pub(crate) const CARDS: u64 = 8;

/// All of the table, and words that close nothing, at each sort of card.
pub(crate) fn causes_known(rng: &mut Rng, number: u64, bench: &mut Bench) -> Checked {
    let (offered, scanned, second) = (number & 1 == 1, number & 2 == 2, number & 4 == 4);
    let mut world = World::with_rows(rng, 0, 0);
    for (row, value) in ROWS.into_iter().zip([-100, 231, 15, 20]) {
        world.set_rows(row[0] as u8, Some(row), None, value);
    }
    world.card[..2].copy_from_slice(&[76, 7]);
    world.card[22] = if second { 2 } else { 1 };
    if offered {
        world.card[13..16].copy_from_slice(&[1, 109, 30]);
    }
    if scanned {
        let named = 4 + rng.below(2);
        world.scan(rng, named);
    }
    for (text, plain) in KNOWN {
        let cause = match text {
            "L7mI" if offered => [0, 0],
            "L7]+" | "L7]#00000" | "L7]#00005" if scanned => [2, 0],
            "L7J#00006" | "L7Z#00005" if second => [4, 0],
            _ => plain,
        };
        close(rng, world.clone(), text.as_bytes(), cause, bench)?;
    }
    close(rng, world.clone(), b"L7]?", if scanned { [0, 0] } else { [1, 0] }, bench)?;
    // First letters, added characters, every drop, and words with none open, `*` among them.
    for (open, word) in
        [("", 0xCC), ("L7m", 0x2B), ("L8m?", 0x2B), ("L", 0xCC), ("L7m+", 256), ("L7m+", 0x2A), ("", 0xAA)]
    {
        world.open_with(open.as_bytes());
        let lent: Lent = world.clone().into();
        bench.expect_cause(Case::Step { world: lent, word, room: 33, cause: 2 }, [9, 0])?;
    }
    world.open_with(b"L07m#00231");
    for word in gen::words_of(b"0L") {
        let lent: Lent = world.clone().into();
        bench.expect_cause(Case::Step { world: lent, word, room: 33, cause: 3 }, [9, 0])?;
    }
    Ok(())
}

/// What is sent to which card, by the facts that decide the cause. Every combination is a case.
struct Together {
    /// Access of the identifier's rows in the bench sheet and in the maker's, 0 for none.
    access: [i32; 2],
    /// `?`, `+`, `-`, `I` or `#`.
    sign: u8,
    wrong_decimals: bool,
    minus_zero: bool,
    out_of_range: bool,
    /// Where the value is in the range of the row that decides: at its least, at its greatest, between.
    place: usize,
    for_card: bool,
    well_formed: bool,
    on_scan: bool,
    /// How many identifiers the card names for its scan.
    named: usize,
    /// No offer, one for this identifier where the rows let it be, one for another.
    offer: usize,
    revision: i32,
}

/// Access twice, bodies, places of the value, three facts, scans, offers, revisions.
pub(crate) const TOGETHER: u64 = 4 * 4 * 12 * 3 * 2 * 2 * 2 * 3 * 3 * 2;

impl Together {
    fn of(number: u64) -> Together {
        // So that the first hundredth has some of everything.
        let mut rest = number % TOGETHER * 7_919 % TOGETHER;
        let mut digit = |count: u64| {
            let digit = rest % count;
            rest /= count;
            digit as usize
        };
        let body = digit(12);
        // Of a Type 3, from 4 on: wrong decimals, out of range, minus zero.
        let fault = |bit: usize| body >= 4 && (body - 4) >> bit & 1 == 1;
        Together {
            access: [digit(4) as i32, digit(4) as i32],
            sign: b"?+-I########"[body],
            wrong_decimals: fault(0),
            out_of_range: fault(1),
            minus_zero: fault(2),
            place: digit(3),
            for_card: digit(2) == 0,
            well_formed: digit(2) == 0,
            on_scan: digit(2) == 1,
            named: [0, 4, 5][digit(3)],
            offer: digit(3),
            revision: 1 + digit(2) as i32,
        }
    }

    /// The access that decides, 0 for no row.
    fn access(&self) -> i32 {
        if self.access[0] > 0 {
            self.access[0]
        } else {
            self.access[1]
        }
    }

    fn at_the_limit(&self) -> bool {
        matches!((self.sign, self.place), (b'-', 0) | (b'+', 1))
    }

    /// Whether the card's offer is for the identifier of the message.
    fn is_offered(&self) -> bool {
        self.offer == 1 && !self.on_scan && self.access() > 1
    }

    /// The code of a well-formed message for the card, in the paper's order.
    fn code(&self) -> i32 {
        let allowed = match self.sign {
            b'I' => return if self.is_offered() { 0 } else { 8 },
            b'?' => 1..=2,
            b'#' => 2..=3,
            _ => 2..=2,
        };
        if self.on_scan {
            return match self.named {
                0 => 1,
                _ if self.sign == b'?' => 0,
                _ => 2,
            };
        }
        let tests = [
            (self.access() == 0, 1),
            (!allowed.contains(&self.access()), 2),
            (self.wrong_decimals, 3),
            (self.minus_zero && self.revision == 2, 4),
            (self.out_of_range, 5),
            (self.at_the_limit(), 6),
        ];
        tests.iter().find(|test| test.0).map_or(0, |test| test.1)
    }

    /// Gives the identifier its rows and its value. A row that is hidden would decide otherwise. Gives the
    /// message's number and decimals.
    fn put_rows(&self, rng: &mut Rng, identifier: u8, world: &mut World) -> (i32, i32) {
        let (step, decimals) = (rng.within(1, 100), rng.within(0, 3));
        let steps = rng.within(2, 6);
        let least = match (self.minus_zero, self.out_of_range) {
            (false, _) => rng.within(-20, 20),
            (true, false) => -rng.within(0, steps),
            (true, true) => rng.pick(&[1, 2, 20, -steps - 1, -steps - 2, -20]),
        } * step;
        let greatest = least + steps * step;
        let value = [least, greatest, least + step][self.place];
        let (below, above) = (rng.within(-9_999, least - 1), rng.within(greatest + 1, 9_999));
        let (number, other) = if self.minus_zero {
            (0, if self.out_of_range { [0, 0] } else { [greatest + 1, 9_999] })
        } else if self.out_of_range {
            let number = rng.pick(&[least - 1, below, greatest + 1, above]);
            (number, [number, number])
        } else {
            (rng.within(least, greatest), [greatest + 1, 9_999])
        };
        let said = if self.wrong_decimals { decimals ^ rng.within(1, 3) } else { decimals };
        let hidden_range = match self.sign {
            b'#' => other,
            _ if self.at_the_limit() => [-9_999, 9_999],
            _ => [value, value],
        };
        let hidden_decimals = if self.wrong_decimals { said } else { decimals ^ 1 };
        let code = i32::from(identifier);
        let winning = |access| [code, access, decimals, step, least, greatest];
        let hidden = |access| [code, access, hidden_decimals, 1, hidden_range[0], hidden_range[1]];
        let (bench, maker) = match self.access {
            [0, 0] => (None, None),
            [0, access] => (None, Some(winning(access))),
            [access, 0] => (Some(winning(access)), None),
            [access, other] => (Some(winning(access)), Some(hidden(other))),
        };
        world.set_rows(identifier, bench, maker, value);
        (number, said)
    }
}

/// Letter and address of a card, with a leading zero or not.
fn own_head(rng: &mut Rng, world: &World) -> Vec<u8> {
    let zero = if world.card[1] < 10 && rng.percent(30) { "0" } else { "" };
    format!("{}{zero}{}", world.card[0] as u8 as char, world.card[1]).into_bytes()
}

/// Makes a message that is well formed into one that isn't. Gives the position.
fn spoil(rng: &mut Rng, text: &mut Vec<u8>, identifier: usize) -> i32 {
    let last = text.len() - 1;
    let at = match rng.below(3) {
        0 => {
            text[identifier] = rng.pick(b" \x7f\0");
            identifier
        }
        1 if text.len() < 10 => {
            text.push(rng.pick(b"0?I#L "));
            last + 1
        }
        1 if text[last].is_ascii_digit() => {
            text[last] = rng.pick(b"49");
            last
        }
        _ => {
            text.pop();
            last
        }
    };
    at as i32
}

/// Every combination of the causes that can hold at once.
pub(crate) fn causes_together(rng: &mut Rng, number: u64, bench: &mut Bench) -> Checked {
    let together = Together::of(number);
    let identifier = rng.pick(b"!#+-ILRAN[^m~");
    // A row that can always be read and written, for scans and offers.
    let other = rng.pick(b"\"abz");
    let mut world = World::with_rows(rng, 2, 2);
    world.set_rows(other, Some([i32::from(other), 2, 0, 1, 0, 9]), None, 5);
    let (number, decimals) = together.put_rows(rng, identifier, &mut world);
    world.card[22] = together.revision;
    world.scan(rng, together.named);
    let offer = match together.offer {
        0 => [0, 0, 0],
        _ if together.is_offered() => [1, i32::from(identifier), world.values[usize::from(identifier)]],
        _ => [1, i32::from(other), rng.within(0, 9)],
    };
    world.card[13..16].copy_from_slice(&offer);

    let mut text = Vec::new();
    if together.for_card {
        text = own_head(rng, &world);
    } else {
        gen::neighbours_head(rng, &world, &mut text);
    }
    let head = text.len();
    text.extend_from_slice(&[if together.on_scan { gen::SCAN } else { identifier }, together.sign]);
    if together.sign == b'#' {
        let minus = number < 0 || together.minus_zero;
        text.extend(format!("{:04}{}", number.abs(), decimals + if minus { 5 } else { 0 }).bytes());
    }
    let cause = if !together.well_formed {
        [10, spoil(rng, &mut text, head)]
    } else if !together.for_card {
        [7, 0]
    } else {
        [together.code(), 0]
    };
    close(rng, world, &text, cause, bench)
}
