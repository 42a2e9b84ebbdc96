//! Document 01 in plain Rust, and of document 02 requests 1, 2, 4, 5 and 6.
//!
//! The typed calls are [`card::step`], [`card::run`], [`trace::trace`], [`bus::run`], [`normal::normal_form`],
//! [`message::write`], [`reply::read`], [`listing::line`] and [`sheet::lookup`]; [`calls`] has the same over numbers
//! and slices of numbers, as the C boundary has them.

pub mod bus;
pub mod calls;
pub mod card;
pub mod cause;
pub mod hearing;
pub mod listing;
pub mod message;
pub mod normal;
pub mod parity;
pub mod reply;
pub mod scan;
pub mod sheet;
#[cfg(test)]
mod tests;
pub mod trace;

/// The numbers given back when a call is refused.
#[derive(Clone, Copy, Debug, PartialEq, Eq, PartialOrd, Ord)]
#[repr(u8)]
pub enum Refusal {
    Card = 1,
    Sheet = 2,
    Values = 3,
    Word = 4,
    Room = 5,
    Reply = 6,
    Message = 7,
    Cards = 8,
}

impl Refusal {
    /// The paper's number.
    pub const fn number(self) -> u8 {
        self as u8
    }
}
