//! Numbers of refusals and codes of causes, in the papers' words: all of them, though not every call gives each.

use crate::abi::{NOT_CLOSED, NOT_WELL_FORMED};

/// Minus the number of a refusal, in words.
pub fn in_words(result: i64) -> String {
    let what = match -result {
        1 => "the card is unsound: letter, address, revision or scan",
        2 => "a sheet is unsound",
        3 => "a value is out of its row's range or off its step",
        4 => "a word is above 256",
        5 => "room too short",
        6 => "not one whole reply",
        7 => "not a message",
        8 => "these cards can't share one pair: two are alike, or there are more than 32",
        _ => "an answer that no call gives",
    };
    format!("refused with number {}: {what}", -result)
}

/// A cause's code in words; nothing for an `A` or `I`.
pub fn cause(code: u64) -> &'static str {
    match code {
        0 => "",
        1 => "no such identifier",
        2 => "access forbids it",
        3 => "wrong decimals",
        4 => "minus zero",
        5 => "out of range",
        6 => "at the limit",
        7 => "not for this card",
        8 => "Type 4 without its offer",
        NOT_CLOSED => "no message closed by this word",
        NOT_WELL_FORMED => "not well formed",
        _ => "a cause that no call gives",
    }
}
