//! Numbers with decimals, and a bench sheet in text: a line for each row.

use super::words::{bytes_of, name_of};
use super::{failure, Failure};
use std::ffi::OsStr;

/// A number as it is written: in units of its last decimal, how many decimals, and whether it is below zero or
/// a zero with a minus. None where it is no number, or has more than nine digits.
pub fn number_of(text: &str) -> Option<(i32, u32, bool)> {
    let (minus, digits) = match text.strip_prefix('-') {
        Some(digits) => (true, digits),
        None => (false, text),
    };
    let (whole, fraction) = digits.split_once('.').unwrap_or((digits, "0"));
    let decimals = if digits.contains('.') { fraction.len() } else { 0 };
    let is_digits = |part: &str| !part.is_empty() && part.bytes().all(|c| c.is_ascii_digit());
    if !is_digits(whole) || !is_digits(fraction) || whole.len() + decimals > 9 {
        return None;
    }
    let units: i32 = format!("{whole}{}", &fraction[..decimals]).parse().ok()?;
    Some((if minus { -units } else { units }, decimals as u32, minus))
}

/// The same in units of a given decimal; none where it has more decimals than that.
pub fn units_of(text: &str, decimals: u32) -> Option<i32> {
    let (number, given, _) = number_of(text)?;
    number.checked_mul(10_i32.checked_pow(decimals.checked_sub(given)?)?)
}

/// A number in units of its last decimal, as people write it.
pub fn shown(number: i32, decimals: u32) -> String {
    let digits = format!("{:0width$}", number.unsigned_abs(), width = decimals as usize + 1);
    let (whole, fraction) = digits.split_at(digits.len() - decimals as usize);
    let sign = if number < 0 { "-" } else { "" };
    let point = if decimals == 0 { "" } else { "." };
    format!("{sign}{whole}{point}{fraction}")
}

/// A row of a bench sheet, the value that its place has at first, and its line.
pub struct Row {
    pub numbers: [i32; 6],
    pub value: i32,
    pub line: usize,
}

const COLUMNS: &str = "identifier, access (r, rw or w), decimals, step, least, greatest and value, as: m rw 1 0.5 0.0 100.0 2.0";

fn row_of(columns: &[&str], line: usize) -> Option<Row> {
    let [identifier, access, decimals, step, least, greatest, value] = columns else { return None };
    let &[identifier] = identifier.as_bytes() else { return None };
    let access = ["r", "rw", "w"].iter().position(|name| name == access)? as i32 + 1;
    let &[digit @ b'0'..=b'9'] = decimals.as_bytes() else { return None };
    let decimals = u32::from(digit - b'0');
    let units = |text: &str| units_of(text, decimals);
    let numbers =
        [i32::from(identifier), access, decimals as i32, units(step)?, units(least)?, units(greatest)?];
    Some(Row { numbers, value: units(value)?, line })
}

/// The rows of a file. Lines that are empty or begin with `//` are passed over.
pub fn rows_of(file: &OsStr) -> Result<Vec<Row>, Failure> {
    let bytes = bytes_of(file)?;
    let mut rows = Vec::new();
    for (index, line) in bytes.split(|byte| *byte == b'\n').enumerate() {
        let line = String::from_utf8_lossy(line);
        let columns: Vec<&str> = line.split_ascii_whitespace().collect();
        if columns.first().is_none_or(|first| first.starts_with("//")) {
            continue;
        }
        match row_of(&columns, index + 1) {
            Some(row) => rows.push(row),
            None => return failure(name_of(file), format!("line {}: expected {COLUMNS}", index + 1)),
        }
    }
    Ok(rows)
}
