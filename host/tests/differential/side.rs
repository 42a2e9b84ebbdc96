//! Each side by itself: what playing a recording draws and leaves, how a message is spelled, its normal form.

use crate::case::Lent;
use kavtziron_host::abi;
use kavtziron_host::reference::calls;
use kavtziron_host::reference::message::{Data, Kind, Message};

/// `kav_run` and `kav_bus_run` are lent the same.
pub(crate) type Run = fn(&mut [i32], &[i32], &[i32], &mut [i32], &[u16], &mut [u8], &mut [u64]) -> i64;
type Step = fn(&mut [i32], &[i32], &[i32], &mut [i32], u16, &mut [u8], &mut [i32]) -> i64;
type Trace = fn(&mut [i32], &[i32], &[i32], &mut [i32], &[u16], &mut [u8], &mut [u64], &mut [u64]) -> i64;
type Write = fn(u8, u32, u8, u8, i32, u32, u32, &mut [u8]) -> i64;
type NormalForm = fn(&[u16], &mut [u16]) -> i64;

/// One side of the comparison.
pub(crate) struct Side {
    pub(crate) name: &'static str,
    pub(crate) step: Step,
    pub(crate) run: Run,
    pub(crate) trace: Trace,
    pub(crate) bus_run: Run,
    write: Write,
    normal_form: NormalForm,
}

pub(crate) const SIDES: [Side; 2] = [
    Side {
        name: "archive",
        step: abi::step,
        run: abi::run,
        trace: abi::trace,
        bus_run: abi::bus_run,
        write: abi::write,
        normal_form: abi::normal_form,
    },
    Side {
        name: "reference",
        step: calls::step,
        run: calls::run,
        trace: calls::trace,
        bus_run: calls::bus_run,
        write: calls::write,
        normal_form: calls::normal_form,
    },
];

/// What playing a recording leaves, but for the message open afterwards.
#[derive(PartialEq, Debug)]
pub(crate) struct Played {
    pub(crate) replies: Vec<u8>,
    pub(crate) values: Vec<i32>,
    pub(crate) offer: [i32; 3],
}

impl Side {
    /// Plays words with room for every reply.
    pub(crate) fn play(&self, lent: &Lent, words: &[u16]) -> Result<Played, String> {
        let (mut card, mut values) = (lent.card.clone(), lent.values.clone());
        let mut replies = vec![0; words.len() * 7 + 33];
        let mut counts = [0; 2];
        let (bench, maker) = (&lent.bench, &lent.maker);
        let result = (self.run)(&mut card, bench, maker, &mut values, words, &mut replies, &mut counts);
        if (result, counts[0]) != (0, words.len() as u64) {
            return Err(format!("{}: a run gave {result} and took {} words", self.name, counts[0]));
        }
        replies.truncate(counts[1] as usize);
        Ok(Played { replies, values, offer: [card[13], card[14], card[15]] })
    }

    /// The count of what a writer wrote, which may not refuse.
    fn count(&self, result: i64) -> Result<usize, String> {
        usize::try_from(result).map_err(|_| format!("{}: a writer gave {result}", self.name))
    }

    /// Appends a message as the writer spells it.
    pub(crate) fn spell(&self, message: &Message, words: &mut Vec<u16>) -> Result<(), String> {
        let Message { letter, address, identifier, kind } = *message;
        let (data, minus_zero) = match kind {
            Kind::Set { data, minus_zero } => (data, u32::from(minus_zero)),
            _ => (Data::ZERO, 0),
        };
        let (number, address, decimals) = (data.number, u32::from(address), u32::from(data.decimals));
        let mut out = [0; 11];
        let sign = kind.sign();
        let length = (self.write)(letter, address, identifier, sign, number, decimals, minus_zero, &mut out);
        words.extend(out[..self.count(length)?].iter().map(|&byte| u16::from(byte)));
        Ok(())
    }

    pub(crate) fn normal_form(&self, words: &[u16]) -> Result<Vec<u16>, String> {
        let mut out = vec![0; words.len()];
        let length = (self.normal_form)(words, &mut out);
        out.truncate(self.count(length)?);
        Ok(out)
    }
}

/// Tells two recordings apart by what they drew and left.
pub(crate) fn differing(side: &str, what: &str, whole: &Played, played: &Played) -> String {
    let text = |bytes: &[u8]| bytes.iter().map(|byte| char::from(byte & 0x7F)).collect::<String>();
    let (all, replies) = (text(&whole.replies), text(&played.replies));
    let (offer, other) = (whole.offer, played.offer);
    let place = whole.values.iter().zip(&played.values).position(|(a, b)| a != b);
    format!(
        "{side}: the recording draws {all:?}, {what} {replies:?}; \
         offers {offer:?} and {other:?}; first value that differs {place:?}"
    )
}
