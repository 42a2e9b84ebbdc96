//! The scan: the values that one query on `]` asks for.

use super::message::{Data, Spelled};
use super::sheet::{Rows, VALUES};

/// The scan's identifier.
pub const SCAN: u8 = b']';

/// A card names at most this many identifiers.
pub const MOST_NAMED: usize = 5;

/// The identifiers that a card names for its scan, in order.
#[derive(Clone, Copy, Debug, PartialEq, Eq)]
pub struct Scan {
    pub count: u8,
    /// What stands behind the count is never looked at.
    pub identifiers: [u8; MOST_NAMED],
}

/// Whether a scan's reply can have so many values.
#[inline]
pub(super) const fn is_scan_count(values: usize) -> bool {
    matches!(values, 4 | 5)
}

/// The count of digits of so many values, five to each, as the reply spells it.
#[inline]
pub(super) const fn digits_of(values: usize) -> [u8; 2] {
    let digits = 5 * values as u8;
    [b'0' + digits / 10, b'0' + digits % 10]
}

impl Scan {
    /// No identifier named.
    pub const NONE: Scan = Scan { count: 0, identifiers: [0; MOST_NAMED] };

    #[inline]
    fn named(&self) -> &[u8] {
        &self.identifiers[..usize::from(self.count).min(MOST_NAMED)]
    }

    #[inline]
    pub fn is_none(&self) -> bool {
        self.count == 0
    }

    /// Whether none, four or five are named, each with a row that can be read, and `]` has no row of
    /// its own.
    #[inline]
    pub fn is_sound(&self, rows: &Rows) -> bool {
        let can_be_read = |&identifier: &u8| rows.get(identifier).is_some_and(|row| row.can_be_read());
        (self.is_none() || is_scan_count(usize::from(self.count)))
            && self.named().iter().all(can_be_read)
            && rows.get(SCAN).is_none()
    }

    /// The count of digits and each value with its own row's decimals. Every identifier that a sound
    /// scan names has a row.
    #[inline]
    pub(super) fn put<const ROOM: usize>(
        &self,
        spelled: &mut Spelled<ROOM>,
        rows: &Rows,
        values: &[i32; VALUES],
    ) {
        let named = self.named();
        digits_of(named.len()).into_iter().for_each(|digit| spelled.put(digit));
        for &identifier in named {
            if let Some(row) = rows.get(identifier) {
                let number = values[usize::from(identifier & 0x7F)];
                spelled.put_data(Data { number, decimals: row.decimals });
            }
        }
    }
}
