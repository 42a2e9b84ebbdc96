//! Seeded generators of inputs. Nothing here asks the reference what is right: what is built sound is
//! sound by its making.

mod broken;
mod bus;
mod message;
mod recording;
mod rng;
mod world;

pub use broken::{
    add_scan_row, break_card, break_number, break_offer, break_scan, break_sheet, break_value, break_values,
    lengthen_card, wrong_revision, wrong_word,
};
pub use bus::{Bus, Unfit, UNFIT};
pub use message::{
    message, neighbours_head, neighbours_message, on_line, reply, scan_message, scan_reply, words_of,
};
pub use recording::{
    babble, edit, recording, scanning, without_minus_zeros, zeros, Mixture, PAIR, REALISTIC, ROUGH,
};
pub use rng::Rng;
pub use world::{identifiers, row, rows_of, sheet, value, Row, World, SCAN};
