//! Sheets, the lookup and values.

use super::message::{is_identifier, GREATEST};

/// A row's six numbers.
pub const WIDTH: usize = 6;
/// A sheet has at most this many rows.
pub const MOST_ROWS: usize = 64;
/// One value for each character code.
pub const VALUES: usize = 128;

pub const READ_ONLY: i32 = 1;
pub const READ_AND_WRITE: i32 = 2;
pub const WRITE_ONLY: i32 = 3;

/// A row as it is lent.
pub type Lent = [i32; WIDTH];

/// The numbers of a row by name.
#[derive(Clone, Copy, Debug, PartialEq, Eq)]
pub struct Row {
    pub access: i32,
    pub decimals: u8,
    pub step: i32,
    pub least: i32,
    pub greatest: i32,
}

impl From<&Lent> for Row {
    #[inline]
    fn from(&[_, access, decimals, step, least, greatest]: &Lent) -> Row {
        Row { access, decimals: decimals as u8, step, least, greatest }
    }
}

impl Row {
    #[inline]
    pub fn can_be_read(&self) -> bool {
        self.access != WRITE_ONLY
    }

    #[inline]
    pub fn can_be_written(&self) -> bool {
        self.access != READ_ONLY
    }

    #[inline]
    pub fn in_range(&self, number: i32) -> bool {
        self.least <= number && number <= self.greatest
    }

    /// In range and a multiple of the step.
    #[inline]
    pub fn admits(&self, value: i32) -> bool {
        self.in_range(value) && is_multiple(value, self.step)
    }

    /// The nearest multiple of the step not above the number.
    #[inline]
    pub fn cut(&self, number: i32) -> i32 {
        number - number.rem_euclid(self.step)
    }
}

/// Whether a code is an identifier that a sheet can have.
const CAN_HAVE_ROW: [bool; 128] = {
    let mut table = [false; 128];
    let mut code = 0u8;
    while code < 128 {
        table[code as usize] = is_identifier(code) && code != b'?';
        code += 1;
    }
    table
};

#[inline]
fn is_sound_row(&[identifier, access, decimals, step, least, greatest]: &Lent) -> bool {
    usize::try_from(identifier).is_ok_and(|code| CAN_HAVE_ROW.get(code) == Some(&true))
        && matches!(access, READ_ONLY | READ_AND_WRITE | WRITE_ONLY)
        && matches!(decimals, 0..=3)
        && matches!(step, 1..=GREATEST)
        && -GREATEST <= least
        && least <= greatest
        && greatest <= GREATEST
        && is_multiple(least, step)
        && is_multiple(greatest, step)
}

/// For a number of four digits and a step of 1 to 9,999. Every whole number is a multiple of 1, and
/// so many steps are 1 that the division is worth a look.
#[inline]
fn is_multiple(number: i32, step: i32) -> bool {
    step == 1 || number % step == 0
}

/// 0 to 64 whole rows and nothing more, identifiers strictly rising; the rows where that is so.
#[inline]
pub fn sound_rows(sheet: &[i32]) -> Option<&[Lent]> {
    let (rows, rest) = sheet.as_chunks::<WIDTH>();
    if !rest.is_empty() || rows.len() > MOST_ROWS {
        return None;
    }
    let mut before = 0;
    for row in rows {
        if row[0] <= before || !is_sound_row(row) {
            return None;
        }
        before = row[0];
    }
    Some(rows)
}

/// The row as the part of the sheet it stands in; empty with no row or an unsound sheet.
pub fn lookup<'a>(bench: &'a [i32], maker: &'a [i32], identifier: u8) -> &'a [i32] {
    let (Some(bench), Some(maker)) = (sound_rows(bench), sound_rows(maker)) else {
        return &[];
    };
    match find(bench, identifier).or_else(|| find(maker, identifier)) {
        Some(row) => row,
        None => &[],
    }
}

#[inline]
fn find(rows: &[Lent], identifier: u8) -> Option<&Lent> {
    let at = rows.binary_search_by_key(&i32::from(identifier), |row| row[0]).ok()?;
    Some(&rows[at])
}

/// Two sound sheets with a place for each character: which row holds for it, counted through the
/// bench sheet and then the maker's, from 1.
pub struct Rows<'a> {
    bench: &'a [Lent],
    maker: &'a [Lent],
    place: [u8; 128],
}

impl<'a> Rows<'a> {
    /// None where a sheet is unsound.
    #[inline]
    pub fn of(bench: &'a [i32], maker: &'a [i32]) -> Option<Rows<'a>> {
        let (bench, maker) = (sound_rows(bench)?, sound_rows(maker)?);
        let mut place = [0; 128];
        for (at, row) in maker.iter().enumerate() {
            place[row[0] as usize & 0x7F] = (bench.len() + at + 1) as u8;
        }
        for (at, row) in bench.iter().enumerate() {
            place[row[0] as usize & 0x7F] = (at + 1) as u8;
        }
        Some(Rows { bench, maker, place })
    }

    /// The row that holds for an identifier.
    #[inline]
    pub fn get(&self, identifier: u8) -> Option<Row> {
        let place = usize::from(*self.place.get(usize::from(identifier))?);
        let at = place.checked_sub(1)?;
        let row = match at.checked_sub(self.bench.len()) {
            None => &self.bench[at],
            Some(at) => &self.maker[at],
        };
        Some(Row::from(row))
    }

    /// Whether these are 128 values, each with a row in range and a multiple of the step.
    #[inline]
    pub fn admit<'v>(&self, values: &'v mut [i32]) -> Option<&'v mut [i32; VALUES]> {
        let values: &mut [i32; VALUES] = values.try_into().ok()?;
        let rows = self.bench.iter().chain(self.maker).enumerate();
        for (at, row) in rows {
            let code = row[0] as usize & 0x7F;
            let holds = usize::from(self.place[code]) == at + 1;
            if holds && !Row::from(row).admits(values[code]) {
                return None;
            }
        }
        Some(values)
    }
}
