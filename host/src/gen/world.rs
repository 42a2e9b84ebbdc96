//! Sound rows, sheets and values, and a whole card with all that is lent beside it.

use super::message::other;
use super::{message, neighbours_message, scan_message, Rng};

pub type Row = [i32; 6];

/// The scan's identifier. A sheet can have a row for it, but not beside a sound card.
pub const SCAN: u8 = b']';

/// The 82 identifiers that a sheet can have.
pub fn identifiers() -> Vec<u8> {
    (33..=126u8).filter(|code| !code.is_ascii_digit() && *code != b'*' && *code != b'?').collect()
}

pub fn row(rng: &mut Rng, identifier: u8) -> Row {
    let step = match rng.below(4) {
        0 => 1,
        1 => rng.pick(&[2, 5, 10, 25, 100, 1000, 3333, 5000, 9998, 9999]),
        2 => rng.within(1, 20),
        _ => rng.within(1, 9_999),
    };
    let most = 9_999 / step;
    let (mut least, mut greatest) = match rng.below(4) {
        0 => (-most, most),
        1 => (0, rng.within(0, most)),
        2 => {
            let least = rng.within(-most, most);
            (least, (least + rng.within(0, 3)).min(most))
        }
        _ => (rng.within(-most, most), rng.within(-most, most)),
    };
    if least > greatest {
        std::mem::swap(&mut least, &mut greatest);
    }
    let access = rng.pick(&[1, 2, 2, 3]);
    [i32::from(identifier), access, rng.within(0, 3), step, least * step, greatest * step]
}

/// A sound sheet with so many rows, at most 64.
pub fn sheet(rng: &mut Rng, rows: usize) -> Vec<i32> {
    let mut codes = identifiers();
    while codes.len() > rows {
        let out = rng.below(codes.len());
        codes.remove(out);
    }
    codes.into_iter().flat_map(|code| row(rng, code)).collect()
}

fn some_rows(rng: &mut Rng) -> usize {
    match rng.below(8) {
        0 => 0,
        1 => 64,
        2 => rng.below(65),
        _ => 1 + rng.below(6),
    }
}

/// A value that a row admits.
pub fn value(rng: &mut Rng, row: &Row) -> i32 {
    let [_, _, _, step, least, greatest] = *row;
    match rng.below(4) {
        0 => least,
        1 => greatest,
        _ => rng.within(least / step, greatest / step) * step,
    }
}

/// Values that the rows admit, anything in the other places.
pub(super) fn values(rng: &mut Rng, rows: &[Row]) -> Vec<i32> {
    let mut values: Vec<i32> = (0..128).map(|_| rng.wild()).collect();
    for row in rows {
        values[row[0] as usize] = value(rng, row);
    }
    values
}

/// Gives `]`'s row, where there is one, to an identifier that the sheet lacks.
fn free_scan(sheet: &mut Vec<i32>) {
    let mut rows: Vec<Row> = rows_of(sheet).collect();
    let Some(at) = rows.iter().position(|row| row[0] == i32::from(SCAN)) else {
        return;
    };
    let lacks = |&code: &u8| rows.iter().all(|row| row[0] != i32::from(code));
    rows[at][0] = i32::from(identifiers().into_iter().find(lacks).expect("64 rows leave 18"));
    rows.sort_unstable();
    *sheet = rows.concat();
}

/// The rows that hold: the bench sheet's and those of the maker's that they leave.
fn holding(bench: &[i32], maker: &[i32]) -> Vec<Row> {
    let mut rows: Vec<Row> = rows_of(bench).collect();
    for row in rows_of(maker) {
        if rows.iter().all(|other| other[0] != row[0]) {
            rows.push(row);
        }
    }
    rows
}

/// A sound card, sheets and values.
#[derive(Clone, Debug)]
pub struct World {
    pub card: Vec<i32>,
    pub bench: Vec<i32>,
    pub maker: Vec<i32>,
    pub values: Vec<i32>,
    /// The rows that hold.
    pub rows: Vec<Row>,
}

pub fn rows_of(sheet: &[i32]) -> impl Iterator<Item = Row> + '_ {
    sheet.chunks_exact(6).map(|row| [row[0], row[1], row[2], row[3], row[4], row[5]])
}

impl World {
    /// With so many rows in the sheets, no message open, no offer, no scan and the first revision.
    pub fn with_rows(rng: &mut Rng, bench: usize, maker: usize) -> World {
        let (mut bench, mut maker) = (sheet(rng, bench), sheet(rng, maker));
        free_scan(&mut bench);
        free_scan(&mut maker);
        let rows = holding(&bench, &maker);
        let values = values(rng, &rows);
        let mut card = vec![0; 23];
        card[22] = 1;
        card[0] = i32::from(rng.pick(b"LR"));
        card[1] = if rng.percent(50) { rng.within(1, 9) } else { rng.within(1, 99) };
        World { card, bench, maker, values, rows }
    }

    pub fn new(rng: &mut Rng) -> World {
        let (bench, maker) = (some_rows(rng), some_rows(rng));
        let mut world = World::with_rows(rng, bench, maker);
        world.any_revision(rng);
        let named = rng.pick(&[0, 4, 5, 5]);
        world.scan(rng, named);
        if rng.percent(40) {
            world.offer(rng);
        }
        if rng.percent(50) {
            world.open(rng);
        }
        world
    }

    /// Gives the card one of the two revisions.
    pub fn any_revision(&mut self, rng: &mut Rng) {
        self.card[22] = rng.pick(&[1, 2]);
    }

    /// Gives an identifier other than `]` these rows in place of its own, and a value that the row which holds
    /// admits. There is room for them in sheets of fewer than 64 rows.
    pub fn set_rows(&mut self, identifier: u8, bench: Option<Row>, maker: Option<Row>, value: i32) {
        for (sheet, row) in [(&mut self.bench, bench), (&mut self.maker, maker)] {
            let mut rows: Vec<Row> = rows_of(sheet).filter(|row| row[0] != i32::from(identifier)).collect();
            rows.extend(row);
            rows.sort_unstable();
            *sheet = rows.concat();
        }
        self.rows = holding(&self.bench, &self.maker);
        self.values[usize::from(identifier)] = value;
    }

    /// Names so many identifiers that can be read, or none where there is no such row; anything behind.
    pub fn scan(&mut self, rng: &mut Rng, named: usize) {
        let rows: Vec<Row> = self.rows.iter().copied().filter(|row| row[1] != 3).collect();
        let named = if rows.is_empty() { 0 } else { named };
        self.card[16] = named as i32;
        for place in 0..5 {
            self.card[17 + place] = match rng.below(5) {
                0 if place < named && place > 0 => self.card[17],
                _ if place < named => rng.pick(&rows)[0],
                0 => 0,
                1 => i32::from(rng.pick(&identifiers())),
                _ => rng.wild(),
            };
        }
    }

    /// Makes a sound offer, if a row can be written.
    pub fn offer(&mut self, rng: &mut Rng) {
        let rows: Vec<Row> = self.rows.iter().copied().filter(|row| row[1] != 1).collect();
        if !rows.is_empty() {
            let row = rng.pick(&rows);
            self.card[13..16].copy_from_slice(&[1, row[0], value(rng, &row)]);
        }
    }

    /// The identifier offered, or any where there is no offer.
    pub fn offered(&self) -> u8 {
        if self.card[13] == 1 {
            self.card[14] as u8
        } else {
            b'm'
        }
    }

    /// Opens a message: most often one that the next `*` closes well.
    pub fn open(&mut self, rng: &mut Rng) {
        let mut text = Vec::new();
        match rng.below(20) {
            0..=2 => scan_message(rng, self, &mut text),
            3..=5 => neighbours_message(rng, self, self.offered(), &mut text),
            _ => message(rng, self, &mut text),
        }
        if text[0] != b'L' && text[0] != b'R' {
            text[0] = b'L';
        }
        text.retain(|&character| character != b'*');
        match rng.below(8) {
            0 => text.truncate(1 + rng.below(text.len())),
            1 => text.extend((0..10).map(|_| other(rng))),
            2 => {
                text.truncate(1);
                text.extend((0..rng.below(10)).map(|_| other(rng)));
            }
            _ => {}
        }
        text.truncate(10);
        self.open_with(&text);
    }

    /// Opens a message of these characters, at most ten.
    pub fn open_with(&mut self, text: &[u8]) {
        self.card[2] = text.len() as i32;
        for place in 0..10 {
            self.card[3 + place] = text.get(place).map_or(0, |&character| i32::from(character));
        }
    }
}
