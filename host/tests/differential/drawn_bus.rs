//! How often the groups of several cards drew each sort of bench, of run and of fault. One that they drew too seldom is a
//! failure of the tests themselves.

use crate::alone::{each_reply, speaker};
use crate::case::Lent;
use crate::compare::Ran;
use kavtziron_host::reference::calls;
use kavtziron_host::reference::hearing::{for_each_heard, Open};

macro_rules! classes {
    ($($class:ident $name:literal,)*) => {
        /// A sort of bench, of run or of fault.
        #[derive(Clone, Copy, Debug)]
        pub(crate) enum Class { $($class,)* }

        const NAMES: &[&str] = &[$($name,)*];
    };
}

classes! {
    NoCard "served, no card",
    OneCard "served, 1 card",
    TwoCards "served, 2 cards",
    ThreeCards "served, 3 cards",
    MoreCards "served, 4 to 30 cards",
    ThirtyOneCards "served, 31 cards",
    ThirtyTwoCards "served, 32 cards",
    SameAddress "one address with both letters",
    Revisions "both revisions",
    Scans "scans of 0, 4 and 5",
    Opened "a message open at first",
    OffersBefore "offers at several cards at first",
    OffersAfter "offers at several cards at last",
    Replies "replies of several cards",
    FirstReplied "the first of 3 or more replied",
    MiddleReplied "a middle one of 3 or more replied",
    LastReplied "the last of 3 or more replied",
    ScanReplied "a scan replied",
    ForNoCard "a heard message for no card",
    StoppedAtFirst "stopped at the first card's reply",
    StoppedBehind "stopped at another card's reply",
    NoRoom "no room at all, with words",
    InParts "a part that goes on from another",
    CardUnsound "1, a card by itself",
    CardBehind "1, a card behind the 32nd",
    CardsShort "1, one number short",
    CardsLong "1, one number long",
    CardsOther "1, another length",
    Alike "8, alike",
    Twice "8, the same twice",
    AlikeButRevision "8, alike but for the revision",
    AlikeButScan "8, alike but for the scan",
    AlikeButOffer "8, alike but for the offer",
    ThirtyThree "8, 33 cards",
    Forty "8, 34 and more cards",
    Open "8, open at one or at all but one",
    OpenCharacter "8, another character open",
    OpenShorter "8, one character less open",
    OpenNul "8, a NUL more open",
    OpenAtLast "8, the last card's open differs",
    Sheet "2",
    Offer "1, an offer or scan",
    ScanRow "1, a row for ]",
    ScanRowNoCard "a row for ], no card, served",
    ValuesShort "3, one value short",
    ValuesLong "3, one value long",
    CardsValuesShort "3, 128 values short",
    CardsValuesLong "3, 128 values long",
    ValueAtFirst "3, a value of the first card",
    ValueAtMiddle "3, a value of a middle card",
    ValueAtLast "3, a value of the last card",
    Word "4",
    CountsNone "5, no count",
    CountsOne "5, one count",
    CountsThree "three counts, served",
    SingleServed "one card as by kav_run, served",
    SingleRefused "one card as by kav_run, refused",
    EachAlone "each card alone, several replying",
}

const CLASSES: usize = NAMES.len();

pub(crate) use classes;

/// How often each has to be drawn in a whole run of one seed. Of a part that is too small for one nothing is asked.
pub(crate) const LEAST: u64 = 80;

/// The seven places of the refusals: 1, 8, 2, 1, 3, 4, 5.
pub(crate) const FAULTS: usize = 7;

#[derive(Clone, Copy)]
pub(crate) struct DrawnBus {
    classes: [u64; CLASSES],
    /// By the card's place, first, middle or last, each of its 23 numbers unsound.
    numbers: [[u64; 23]; 3],
    /// Two faults at once, the first given.
    pairs: [[u64; FAULTS]; FAULTS],
}

impl Default for DrawnBus {
    fn default() -> DrawnBus {
        DrawnBus { classes: [0; CLASSES], numbers: [[0; 23]; 3], pairs: [[0; FAULTS]; FAULTS] }
    }
}

impl DrawnBus {
    pub(crate) fn count(&mut self, class: Class) {
        self.classes[class as usize] += 1;
    }

    /// A number of the first, a middle or the last card was made unsound.
    pub(crate) fn count_number(&mut self, card: usize, place: usize) {
        self.numbers[card][place] += 1;
    }

    /// These faults were made at once.
    pub(crate) fn count_faults(&mut self, has: impl Fn(usize) -> bool) {
        for first in 0..FAULTS {
            for second in first + 1..FAULTS {
                self.pairs[first][second] += u64::from(has(first) && has(second));
            }
        }
    }

    pub(crate) fn add(&mut self, other: &DrawnBus) {
        let sums = self.classes.iter_mut().chain(self.numbers.as_flattened_mut());
        let more = other.classes.iter().chain(other.numbers.as_flattened());
        sums.chain(self.pairs.as_flattened_mut())
            .zip(more.chain(other.pairs.as_flattened()))
            .for_each(|(sum, more)| *sum += more);
    }

    /// Each with its count; of the numbers of a row and of two faults, those drawn most seldom.
    fn lines(&self) -> impl Iterator<Item = (String, u64)> + '_ {
        let classes = NAMES.iter().zip(self.classes).map(|(name, count)| (name.to_string(), count));
        let places =
            ["the first", "a middle", "the last"].iter().zip(&self.numbers).map(|(card, numbers)| {
                (format!("each number of {card} card, least"), *numbers.iter().min().expect("23"))
            });
        let pairs = (0..FAULTS).flat_map(|first| &self.pairs[first][first + 1..]).min();
        let pairs = pairs.map(|&least| ("each two faults at once, least".to_string(), least));
        classes.chain(places).chain(pairs)
    }

    /// Prints how often each was drawn. Gives whether all were often enough, in so many seeds, times as many cases,
    /// and this part of them.
    pub(crate) fn print(&self, seeds: u64, times: u64, part: u64) -> bool {
        print_often("bus", &self.lines().collect::<Vec<_>>(), LEAST * seeds * times / part)
    }
}

/// Prints how often each was drawn. Gives whether all were this often.
pub(crate) fn print_often(of: &str, lines: &[(String, u64)], least: u64) -> bool {
    lines.iter().for_each(|(what, count)| println!("  {of}: {what:38} {count:>9} drawn"));
    let seldom: Vec<&str> = lines.iter().filter(|line| line.1 < least).map(|line| &line.0[..]).collect();
    if !seldom.is_empty() {
        println!("FAILED  drawn fewer than {least} times, {of}");
        println!("  {}", seldom.join("; "));
    }
    seldom.is_empty()
}

fn offers(cards: &[i32]) -> usize {
    cards.chunks_exact(23).filter(|card| card[13] == 1).count()
}

/// What a run of several cards was like; nothing where it was refused.
pub(crate) fn classes_of(lent: &Lent, words: &[u16], room: usize, ran: &Ran) -> Vec<Class> {
    let mut classes = Vec::new();
    if ran.result != 0 {
        return classes;
    }
    let cards: Vec<&[i32]> = lent.card.chunks_exact(23).collect();
    classes.push(match cards.len() {
        0 => Class::NoCard,
        1 => Class::OneCard,
        2 => Class::TwoCards,
        3 => Class::ThreeCards,
        4..=30 => Class::MoreCards,
        31 => Class::ThirtyOneCards,
        _ => Class::ThirtyTwoCards,
    });
    let mut put = |class: Class, holds: bool| classes.extend(holds.then_some(class));
    let any = |test: &dyn Fn(&[i32]) -> bool| cards.iter().any(|card| test(card));
    let shared = |card: &[i32]| any(&|other| other[1] == card[1] && other[0] != card[0]);
    put(Class::SameAddress, any(&shared));
    put(Class::Revisions, any(&|card| card[22] == 1) && any(&|card| card[22] == 2));
    put(Class::Scans, [0, 4, 5].iter().all(|&named| any(&|card| card[16] == named)));
    put(Class::Opened, any(&|card| card[2] > 0));
    put(Class::OffersBefore, offers(&lent.card) > 1);
    put(Class::OffersAfter, offers(&ran.cards) > 1);
    put(Class::NoRoom, room == 0 && !words.is_empty());

    let place_of = |head: [i32; 2]| cards.iter().position(|card| card[..2] == head);
    let mut replied: Vec<usize> =
        each_reply(&ran.replies).filter_map(|reply| place_of(speaker(reply))).collect();
    replied.sort_unstable();
    replied.dedup();
    let last = cards.len().saturating_sub(1);
    put(Class::Replies, replied.len() > 1);
    put(Class::FirstReplied, last > 1 && replied.contains(&0));
    put(Class::MiddleReplied, replied.iter().any(|&at| 0 < at && at < last));
    put(Class::LastReplied, last > 1 && replied.contains(&last));
    put(Class::ScanReplied, each_reply(&ran.replies).any(|reply| reply.len() > 20));

    let mut open = cards.first().and_then(|card| calls::card_of(card)).map_or(Open::NONE, |card| card.open);
    let mut for_none = false;
    for_each_heard(&mut open, &words[..ran.taken], |_, message| {
        for_none |= place_of([i32::from(message.letter), i32::from(message.address)]).is_none();
    });
    put(Class::ForNoCard, for_none);
    if ran.taken < words.len() {
        let waits = open.heard().and_then(|it| place_of([i32::from(it.letter), i32::from(it.address)]));
        put(Class::StoppedAtFirst, waits == Some(0));
        put(Class::StoppedBehind, waits.is_some_and(|at| at > 0));
    }
    classes
}
