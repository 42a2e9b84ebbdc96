//! How often the groups of traces drew each sort of run, of note, of length and of fault. One that they drew too seldom is a
//! failure of the tests themselves.

use crate::drawn::{add, CODES};
use crate::drawn_bus::{classes, print_often, LEAST};
use crate::trace::Read;
use kavtziron_host::reference::calls::NOTE;

classes! {
    Whole "every word taken",
    Stopped "stopped, some reply written",
    StoppedAtOnce "stopped, no reply written",
    NoRoom "no room at all, with notes",
    NoNote "no note",
    NoWord "no word",
    Opened "a message open at first noted",
    Offered "an offer at first",
    FirstRevision "revision 1",
    SecondRevision "revision 2",
    ScanReplied "a scan's reply noted",
    Enough "notes just long enough",
    More "notes longer",
    CountsThree "three counts",
    CountsFour "four counts",
    InParts "a part that goes on from another",
    OneShort "5, notes one number short",
    Short "5, notes shorter",
    CountsNone "5, no count",
    CountsOne "5, one count",
    CountsTwo "5, two counts",
    BothShort "5, notes and counts",
}

/// The seven places of the refusals: 1, 2, 1, 3, 4, 5 for the notes, 5 for the counts.
pub(crate) const FAULTS: usize = 7;

#[derive(Clone, Copy)]
pub(crate) struct DrawnTrace {
    classes: [u64; NAMES.len()],
    /// Notes by their code, and by how many characters the message had.
    codes: [u64; 11],
    characters: [u64; 11],
    /// Two faults at once, the first given; a fault with itself is that one alone.
    pairs: [[u64; FAULTS]; FAULTS],
}

impl Default for DrawnTrace {
    fn default() -> DrawnTrace {
        DrawnTrace {
            classes: [0; NAMES.len()],
            codes: [0; 11],
            characters: [0; 11],
            pairs: [[0; FAULTS]; FAULTS],
        }
    }
}

impl DrawnTrace {
    /// What a trace was like that gave this result and left these notes and counts; of a refused one the lengths.
    pub(crate) fn of(lent: &Read, room: usize, result: i64, notes: &[u64], counts: &[u64]) -> DrawnTrace {
        let mut drawn = DrawnTrace::default();
        let mut put = |class: Class, holds: bool| drawn.classes[class as usize] += u64::from(holds);
        let enough = NOTE * lent.words.len();
        if result == -5 {
            put(Class::OneShort, notes.len() + 1 == enough);
            put(Class::Short, notes.len() + 1 < enough);
            put(Class::CountsNone, counts.is_empty());
            put(Class::CountsOne, counts.len() == 1);
            put(Class::CountsTwo, counts.len() == 2);
            put(Class::BothShort, notes.len() < enough && counts.len() < 3);
        }
        if result != 0 {
            return drawn;
        }
        let [taken, written, noted] = [counts[0], counts[1], counts[2]];
        let written_notes: &[[u64; NOTE]] = &notes.as_chunks().0[..noted as usize];
        let stopped = taken < lent.words.len() as u64;
        put(Class::Whole, !stopped && noted > 0);
        put(Class::Stopped, stopped && written > 0);
        put(Class::StoppedAtOnce, stopped && written == 0);
        put(Class::NoRoom, room == 0 && noted > 0);
        put(Class::NoNote, noted == 0);
        put(Class::NoWord, lent.words.is_empty());
        // One that opens among the words has no more characters than there are words before its `*`.
        put(Class::Opened, written_notes.iter().any(|note| note[1] > note[0]));
        put(Class::Offered, lent.world.card[13] == 1);
        put(Class::FirstRevision, lent.world.card[22] == 1);
        put(Class::SecondRevision, lent.world.card[22] == 2);
        put(Class::ScanReplied, written_notes.iter().any(|note| note[2] > 11));
        put(Class::Enough, notes.len() == enough);
        put(Class::More, notes.len() > enough);
        put(Class::CountsThree, counts.len() == 3);
        put(Class::CountsFour, counts.len() == 4);
        for note in written_notes {
            drawn.characters[note[1] as usize] += 1;
            drawn.codes[note[3] as usize] += 1;
        }
        drawn
    }

    pub(crate) fn count(&mut self, class: Class) {
        self.classes[class as usize] += 1;
    }

    /// These faults were made at once.
    pub(crate) fn count_faults(&mut self, has: impl Fn(usize) -> bool) {
        let faults: Vec<usize> = (0..FAULTS).filter(|&fault| has(fault)).collect();
        for (at, &first) in faults.iter().enumerate() {
            if faults.len() == 1 {
                self.pairs[first][first] += 1;
            }
            faults[at + 1..].iter().for_each(|&second| self.pairs[first][second] += 1);
        }
    }

    pub(crate) fn add(&mut self, other: &DrawnTrace) {
        add(&mut self.classes, &other.classes);
        add(&mut self.codes, &other.codes);
        add(&mut self.characters, &other.characters);
        self.pairs.iter_mut().zip(&other.pairs).for_each(|(pairs, more)| add(pairs, more));
    }

    /// Each with its count; of faults alone and of two, those drawn most seldom. No word that is noted has code 9.
    fn lines(&self) -> Vec<(String, u64)> {
        let classes = NAMES.iter().zip(self.classes).map(|(name, count)| (name.to_string(), count));
        let codes = CODES.iter().filter(|code| code.0 != 9);
        let codes = codes.map(|&(code, name)| (format!("note, {code}, {name}"), self.codes[code as usize]));
        let characters = (1..=10).map(|count| (format!("note, {count} characters"), self.characters[count]));
        let alone = (0..FAULTS).map(|fault| self.pairs[fault][fault]).min();
        let pairs = (0..FAULTS).flat_map(|first| &self.pairs[first][first + 1..]).min();
        let faults = [("each fault alone, least", alone), ("each two faults at once, least", pairs.copied())];
        let faults = faults.into_iter().map(|(name, least)| (name.to_string(), least.unwrap_or(0)));
        classes.chain(codes).chain(characters).chain(faults).collect()
    }

    /// Prints how often each was drawn. Gives whether all were often enough, in so many seeds, times as many cases, and this
    /// part of them.
    pub(crate) fn print(&self, seeds: u64, times: u64, part: u64) -> bool {
        print_often("trace", &self.lines(), LEAST * seeds * times / part)
    }
}
