//! How often the random groups drew each cause, each position and each answer to a Type 3 of zero. One that
//! they never did is a failure of the tests themselves.

use crate::drawn_bus::DrawnBus;
use crate::drawn_trace::DrawnTrace;
use kavtziron_host::gen::on_line;

/// Code and position.
pub(crate) type Cause = [i32; 2];

/// The codes of requests 4 and 5 in their order. The last alone has a position.
pub(crate) const CODES: [(i32, &str); 11] = [
    (0, "none"),
    (1, "no such identifier"),
    (2, "access"),
    (3, "wrong decimals"),
    (4, "minus zero"),
    (5, "out of range"),
    (6, "at the limit"),
    (7, "not for this card"),
    (8, "Type 4 without its offer"),
    (9, "no message closed"),
    (10, "not well formed"),
];

/// The positions that there are.
const POSITIONS: std::ops::RangeInclusive<i32> = 1..=9;

/// A Type 3 of zero that was answered: which zero, at which revision, and whether with `I` or with `N`.
#[derive(Clone, Copy, PartialEq, Debug)]
pub(crate) struct Zero {
    minus_zero: bool,
    revision: i32,
    accepted: bool,
}

/// All but minus zero accepted at the second revision.
const ZEROS: [Zero; 7] = [
    Zero { minus_zero: true, revision: 1, accepted: true },
    Zero { minus_zero: true, revision: 1, accepted: false },
    Zero { minus_zero: true, revision: 2, accepted: false },
    Zero { minus_zero: false, revision: 1, accepted: true },
    Zero { minus_zero: false, revision: 1, accepted: false },
    Zero { minus_zero: false, revision: 2, accepted: true },
    Zero { minus_zero: false, revision: 2, accepted: false },
];

impl Zero {
    /// What this word closed at a card, where that was a Type 3 of zero and drew a reply.
    pub(crate) fn of(card: &[i32], word: u16, reply: &[u8]) -> Option<Zero> {
        let outcome = reply[reply.len().checked_sub(2)?] & 0x7F;
        let open: Vec<u8> = card[3..3 + card[2] as usize].iter().map(|&character| character as u8).collect();
        match open[..] {
            [.., b'#', b'0', b'0', b'0', b'0', code] if word == u16::from(on_line(b'*')) => {
                Some(Zero { minus_zero: code > b'4', revision: card[22], accepted: outcome == b'I' })
            }
            _ => None,
        }
    }

    fn name(&self) -> String {
        let zero = if self.minus_zero { "minus zero" } else { "zero" };
        format!("{zero}, revision {}, {}", self.revision, if self.accepted { 'I' } else { 'N' })
    }
}

/// Whether a reply, or silence, can have this cause. Code 4 is that of minus zero at the second revision
/// alone, which is never accepted and has no cause behind that.
pub(crate) fn suits([code, position]: Cause, zero: Option<Zero>, reply: &[u8]) -> bool {
    let codes = match reply.len().checked_sub(2).map(|at| reply[at] & 0x7F) {
        None => 7..=10,
        Some(b'N') => 1..=6,
        Some(_) => 0..=0,
    };
    let placed = if code == 10 { POSITIONS.contains(&position) } else { position == 0 };
    let refused = zero.is_some_and(|zero| zero.minus_zero && zero.revision == 2);
    codes.contains(&code) && placed && if refused { (1..=4).contains(&code) } else { code != 4 }
}

#[derive(Clone, Copy, Default)]
pub(crate) struct Drawn {
    codes: [u64; 11],
    positions: [u64; 10],
    zeros: [u64; ZEROS.len()],
    pub(crate) bus: DrawnBus,
    pub(crate) trace: DrawnTrace,
}

pub(crate) fn add<const LENGTH: usize>(sums: &mut [u64; LENGTH], more: &[u64; LENGTH]) {
    sums.iter_mut().zip(more).for_each(|(sum, more)| *sum += more);
}

impl Drawn {
    /// Counts a cause that suits its reply.
    pub(crate) fn count(&mut self, [code, position]: Cause) {
        self.codes[code as usize] += 1;
        self.positions[position as usize] += 1;
    }

    /// Counts an answer to a Type 3 of zero whose cause suits it.
    pub(crate) fn count_zero(&mut self, zero: Zero) {
        let at = ZEROS.iter().position(|&other| other == zero).expect("no cause suits another");
        self.zeros[at] += 1;
    }

    pub(crate) fn add(&mut self, other: &Drawn) {
        add(&mut self.codes, &other.codes);
        add(&mut self.positions, &other.positions);
        add(&mut self.zeros, &other.zeros);
        self.bus.add(&other.bus);
        self.trace.add(&other.trace);
    }

    /// Each cause, position and answer with its count.
    fn lines(&self) -> impl Iterator<Item = (String, u64)> + '_ {
        let codes =
            CODES.iter().map(|&(code, name)| (format!("cause {code}, {name}"), self.codes[code as usize]));
        let positions = POSITIONS.map(|at| (format!("position {at}"), self.positions[at as usize]));
        let zeros = ZEROS.iter().zip(self.zeros).map(|(zero, count)| (zero.name(), count));
        codes.chain(positions).chain(zeros)
    }

    /// Prints how often each was drawn. Gives whether all were.
    pub(crate) fn print(&self) -> bool {
        self.lines().for_each(|(what, count)| println!("  {what:38} {count:>9} drawn"));
        let missing: Vec<String> = self.lines().filter(|line| line.1 == 0).map(|line| line.0).collect();
        if !missing.is_empty() {
            println!("FAILED  never drawn");
            println!("  {}", missing.join("; "));
        }
        missing.is_empty()
    }
}
