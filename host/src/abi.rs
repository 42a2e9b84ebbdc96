//! The ten C functions of the archive, and safe wrappers over slices.
//!
//! A slice passes as a pointer and then a length, in the order of the parameters; numbers pass as
//! themselves. Each wrapper has the parameters and the result of its namesake in
//! [`crate::reference::calls`].

/// Numbers of a card, of an answer, of a note, of an instrument's setup; most numbers of a sheet; values of a card; most bytes
/// of a reply, of a line of the listing.
pub const CARD: usize = 23;
pub const ANSWER: usize = 15;
pub const NOTE: usize = 5;
pub const SETUP: usize = 7;
pub const SHEET: usize = 384;
pub const VALUES: usize = 128;
pub const REPLY: usize = 33;
pub const LINE: usize = 35;

/// Places in a card's row: the count of open characters, the first of them, the scan, the revision.
pub const OPEN: usize = 2;
pub const CHARACTERS: usize = 3;
pub const SCAN: std::ops::Range<usize> = 16..22;
pub const REVISION: usize = 22;

/// Codes of causes: no message closed by this word; the message closed isn't well formed.
pub const NOT_CLOSED: u64 = 9;
pub const NOT_WELL_FORMED: u64 = 10;

/// The functions as they are linked.
pub mod raw {
    extern "C" {
        pub fn kav_step(
            card: *mut i32,
            card_length: usize,
            bench: *const i32,
            bench_length: usize,
            maker: *const i32,
            maker_length: usize,
            values: *mut i32,
            values_length: usize,
            word: u16,
            out: *mut u8,
            out_length: usize,
            cause: *mut i32,
            cause_length: usize,
        ) -> i64;

        pub fn kav_run(
            card: *mut i32,
            card_length: usize,
            bench: *const i32,
            bench_length: usize,
            maker: *const i32,
            maker_length: usize,
            values: *mut i32,
            values_length: usize,
            words: *const u16,
            words_length: usize,
            out: *mut u8,
            out_length: usize,
            counts: *mut u64,
            counts_length: usize,
        ) -> i64;

        pub fn kav_trace(
            card: *mut i32,
            card_length: usize,
            bench: *const i32,
            bench_length: usize,
            maker: *const i32,
            maker_length: usize,
            values: *mut i32,
            values_length: usize,
            words: *const u16,
            words_length: usize,
            out: *mut u8,
            out_length: usize,
            notes: *mut u64,
            notes_length: usize,
            counts: *mut u64,
            counts_length: usize,
        ) -> i64;

        pub fn kav_bus_run(
            cards: *mut i32,
            cards_length: usize,
            bench: *const i32,
            bench_length: usize,
            maker: *const i32,
            maker_length: usize,
            values: *mut i32,
            values_length: usize,
            words: *const u16,
            words_length: usize,
            out: *mut u8,
            out_length: usize,
            counts: *mut u64,
            counts_length: usize,
        ) -> i64;

        pub fn kav_normal_form(
            words: *const u16,
            words_length: usize,
            out: *mut u16,
            out_length: usize,
        ) -> i64;

        pub fn kav_write(
            letter: u8,
            address: u32,
            identifier: u8,
            kind: u8,
            number: i32,
            decimals: u32,
            minus_zero: u32,
            out: *mut u8,
            out_length: usize,
        ) -> i64;

        pub fn kav_read(bytes: *const u8, bytes_length: usize, answer: *mut i32, answer_length: usize)
            -> i64;

        pub fn kav_line(
            at: u64,
            letter: u8,
            address: u32,
            identifier: u8,
            kind: u8,
            number: i32,
            decimals: u32,
            minus_zero: u32,
            out: *mut u8,
            out_length: usize,
        ) -> i64;

        pub fn kav_lookup(
            bench: *const i32,
            bench_length: usize,
            maker: *const i32,
            maker_length: usize,
            identifier: u8,
            row: *mut i32,
            row_length: usize,
        ) -> i64;

        pub fn kav_model(
            model: u32,
            sheet: *mut i32,
            sheet_length: usize,
            values: *mut i32,
            values_length: usize,
            setup: *mut i32,
            setup_length: usize,
        ) -> i64;
    }
}

// In every wrapper: the pointers and lengths are those of slices that are borrowed for the call,
// the mutable ones apart from all others, and the function keeps none of them.

/// One word. Minus the refusal's number, or the count of bytes replied, 0 being silence, with the cause's code
/// in `cause[0]` and its position in `cause[1]`.
#[inline]
pub fn step(
    card: &mut [i32],
    bench: &[i32],
    maker: &[i32],
    values: &mut [i32],
    word: u16,
    out: &mut [u8],
    cause: &mut [i32],
) -> i64 {
    // SAFETY: as above.
    unsafe {
        raw::kav_step(
            card.as_mut_ptr(),
            card.len(),
            bench.as_ptr(),
            bench.len(),
            maker.as_ptr(),
            maker.len(),
            values.as_mut_ptr(),
            values.len(),
            word,
            out.as_mut_ptr(),
            out.len(),
            cause.as_mut_ptr(),
            cause.len(),
        )
    }
}

/// Many words. Minus the number, or 0 with `counts[0]` words taken and `counts[1]` bytes written.
#[inline]
pub fn run(
    card: &mut [i32],
    bench: &[i32],
    maker: &[i32],
    values: &mut [i32],
    words: &[u16],
    out: &mut [u8],
    counts: &mut [u64],
) -> i64 {
    // SAFETY: as above.
    unsafe {
        raw::kav_run(
            card.as_mut_ptr(),
            card.len(),
            bench.as_ptr(),
            bench.len(),
            maker.as_ptr(),
            maker.len(),
            values.as_mut_ptr(),
            values.len(),
            words.as_ptr(),
            words.len(),
            out.as_mut_ptr(),
            out.len(),
            counts.as_mut_ptr(),
            counts.len(),
        )
    }
}

/// Many words, with a note of each message closed. Minus the number, or 0 with `counts[0]` words taken, `counts[1]` bytes
/// written and `counts[2]` messages noted, five numbers each.
#[allow(clippy::too_many_arguments)]
#[inline]
pub fn trace(
    card: &mut [i32],
    bench: &[i32],
    maker: &[i32],
    values: &mut [i32],
    words: &[u16],
    out: &mut [u8],
    notes: &mut [u64],
    counts: &mut [u64],
) -> i64 {
    // SAFETY: as above.
    unsafe {
        raw::kav_trace(
            card.as_mut_ptr(),
            card.len(),
            bench.as_ptr(),
            bench.len(),
            maker.as_ptr(),
            maker.len(),
            values.as_mut_ptr(),
            values.len(),
            words.as_ptr(),
            words.len(),
            out.as_mut_ptr(),
            out.len(),
            notes.as_mut_ptr(),
            notes.len(),
            counts.as_mut_ptr(),
            counts.len(),
        )
    }
}

/// Many words to several cards, their rows back to back, with 128 values for each. Minus the number, or 0 with
/// `counts[0]` words taken and `counts[1]` bytes written.
#[inline]
pub fn bus_run(
    cards: &mut [i32],
    bench: &[i32],
    maker: &[i32],
    values: &mut [i32],
    words: &[u16],
    out: &mut [u8],
    counts: &mut [u64],
) -> i64 {
    // SAFETY: as above.
    unsafe {
        raw::kav_bus_run(
            cards.as_mut_ptr(),
            cards.len(),
            bench.as_ptr(),
            bench.len(),
            maker.as_ptr(),
            maker.len(),
            values.as_mut_ptr(),
            values.len(),
            words.as_ptr(),
            words.len(),
            out.as_mut_ptr(),
            out.len(),
            counts.as_mut_ptr(),
            counts.len(),
        )
    }
}

/// The normal form. Minus the number, or the count of words written.
#[inline]
pub fn normal_form(words: &[u16], out: &mut [u16]) -> i64 {
    // SAFETY: as above.
    unsafe { raw::kav_normal_form(words.as_ptr(), words.len(), out.as_mut_ptr(), out.len()) }
}

/// One message. Minus the number, or the count of bytes written.
#[allow(clippy::too_many_arguments)]
#[inline]
pub fn write(
    letter: u8,
    address: u32,
    identifier: u8,
    kind: u8,
    number: i32,
    decimals: u32,
    minus_zero: u32,
    out: &mut [u8],
) -> i64 {
    // SAFETY: as above.
    unsafe {
        raw::kav_write(
            letter,
            address,
            identifier,
            kind,
            number,
            decimals,
            minus_zero,
            out.as_mut_ptr(),
            out.len(),
        )
    }
}

/// One reply. Minus the number, or what [`crate::reference::calls::READ`] says.
#[inline]
pub fn read(bytes: &[u8], answer: &mut [i32]) -> i64 {
    // SAFETY: as above.
    unsafe { raw::kav_read(bytes.as_ptr(), bytes.len(), answer.as_mut_ptr(), answer.len()) }
}

/// One line of the listing. Minus the number, or the count of bytes written.
#[allow(clippy::too_many_arguments)]
#[inline]
pub fn line(
    at: u64,
    letter: u8,
    address: u32,
    identifier: u8,
    kind: u8,
    number: i32,
    decimals: u32,
    minus_zero: u32,
    out: &mut [u8],
) -> i64 {
    // SAFETY: as above.
    unsafe {
        raw::kav_line(
            at,
            letter,
            address,
            identifier,
            kind,
            number,
            decimals,
            minus_zero,
            out.as_mut_ptr(),
            out.len(),
        )
    }
}

/// One row. 6 with the row copied, 0 where there is none, or minus 5.
#[inline]
pub fn lookup(bench: &[i32], maker: &[i32], identifier: u8, row: &mut [i32]) -> i64 {
    // SAFETY: as above.
    unsafe {
        raw::kav_lookup(
            bench.as_ptr(),
            bench.len(),
            maker.as_ptr(),
            maker.len(),
            identifier,
            row.as_mut_ptr(),
            row.len(),
        )
    }
}

/// An instrument: its sheet, its values at first, and its letter and scan. The count of the sheet's numbers, 0 where there
/// is no such instrument, or minus 5.
#[inline]
pub fn model(model: u32, sheet: &mut [i32], values: &mut [i32], setup: &mut [i32]) -> i64 {
    // SAFETY: as above.
    unsafe {
        raw::kav_model(
            model,
            sheet.as_mut_ptr(),
            sheet.len(),
            values.as_mut_ptr(),
            values.len(),
            setup.as_mut_ptr(),
            setup.len(),
        )
    }
}
