//! One case with all that is lent: how it is printed, and how that line is read back.

use kavtziron_host::gen::{Bus, World};
use std::fmt::{Debug, Display, Write as _};

/// One call with all that is lent. The rooms are filled with a pattern; `notes`, `counts` and `cause` are lengths.
/// `Trace` is several calls: the trace, the run of the same words and each of them as a single word.
/// `Ignored` is several calls: a recording, and what the card hears in it that is for itself, with room for
/// every reply. `Zeros` is several too: a recording and the same with each minus zero made zero, at both
/// revisions. In `Bus`, `Single` and `Alone` the world's card is the rows of several back to back, and its values are
/// theirs. `Single` has one card and compares both calls that run words. `Alone` plays the words on the bench and at
/// each card by itself, and with other values of one card.
#[derive(Clone, Debug, PartialEq)]
pub(crate) enum Case {
    Step { world: Lent, word: u16, room: usize, cause: usize },
    Run { world: Lent, words: Vec<u16>, room: usize, counts: usize },
    Trace { world: Lent, words: Vec<u16>, room: usize, notes: usize, counts: usize },
    Ignored { world: Lent, words: Vec<u16> },
    Zeros { world: Lent, words: Vec<u16> },
    Bus { world: Lent, words: Vec<u16>, room: usize, counts: usize },
    Single { world: Lent, words: Vec<u16>, room: usize, counts: usize },
    Alone { world: Lent, words: Vec<u16>, room: usize, at: usize, other: Vec<i32> },
    NormalForm { words: Vec<u16>, room: usize },
    Write { asked: Asked, room: usize },
    Read { bytes: Vec<u8>, room: usize },
    Line { at: u64, asked: Asked, room: usize },
    Lookup { bench: Vec<i32>, maker: Vec<i32>, identifier: u8, room: usize },
}

#[derive(Clone, Debug, PartialEq)]
pub(crate) struct Lent {
    pub(crate) card: Vec<i32>,
    pub(crate) bench: Vec<i32>,
    pub(crate) maker: Vec<i32>,
    pub(crate) values: Vec<i32>,
}

impl From<World> for Lent {
    fn from(world: World) -> Lent {
        Lent { card: world.card, bench: world.bench, maker: world.maker, values: world.values }
    }
}

impl From<Bus> for Lent {
    fn from(bus: Bus) -> Lent {
        Lent { card: bus.cards, bench: bus.world.bench, maker: bus.world.maker, values: bus.values }
    }
}

impl Lent {
    /// The count of whole rows.
    pub(crate) fn cards(&self) -> usize {
        self.card.len() / 23
    }

    /// One card of several with its values.
    pub(crate) fn one(&self, at: usize) -> Lent {
        Lent {
            card: self.card[23 * at..23 * at + 23].to_vec(),
            values: self.values[128 * at..128 * at + 128].to_vec(),
            bench: self.bench.clone(),
            maker: self.maker.clone(),
        }
    }

    /// All but one card of several.
    pub(crate) fn without(&self, at: usize) -> Lent {
        let mut fewer = self.clone();
        fewer.card.drain(23 * at..23 * at + 23);
        fewer.values.drain(128 * at..128 * at + 128);
        fewer
    }
}

#[derive(Clone, Copy, Debug, PartialEq)]
pub(crate) struct Asked {
    pub(crate) letter: u8,
    pub(crate) address: u32,
    pub(crate) identifier: u8,
    pub(crate) kind: u8,
    pub(crate) number: i32,
    pub(crate) decimals: u32,
    pub(crate) minus_zero: u32,
}

fn joined<T: Display>(numbers: &[T]) -> String {
    let mut text = String::new();
    for (at, number) in numbers.iter().enumerate() {
        let _ = write!(text, "{}{number}", if at == 0 { "" } else { "," });
    }
    text
}

impl Display for Lent {
    fn fmt(&self, f: &mut std::fmt::Formatter) -> std::fmt::Result {
        let Lent { card, bench, maker, values } = self;
        write!(
            f,
            "card={} bench={} maker={} values={}",
            joined(card),
            joined(bench),
            joined(maker),
            joined(values)
        )
    }
}

impl Display for Asked {
    fn fmt(&self, f: &mut std::fmt::Formatter) -> std::fmt::Result {
        let Asked { letter, address, identifier, kind, number, decimals, minus_zero } = self;
        write!(f, "letter={letter} address={address} identifier={identifier} kind={kind}")?;
        write!(f, " number={number} decimals={decimals} minus_zero={minus_zero}")
    }
}

impl Display for Case {
    fn fmt(&self, f: &mut std::fmt::Formatter) -> std::fmt::Result {
        match self {
            Case::Step { world, word, room, cause } => {
                write!(f, "step {world} word={word} room={room} cause={cause}")
            }
            Case::Run { world, words, room, counts } => {
                write!(f, "run {world} words={} room={room} counts={counts}", joined(words))
            }
            Case::Trace { world, words, room, notes, counts } => {
                write!(f, "trace {world} words={} room={room} notes={notes} counts={counts}", joined(words))
            }
            Case::Ignored { world, words } => write!(f, "ignored {world} words={}", joined(words)),
            Case::Zeros { world, words } => write!(f, "zeros {world} words={}", joined(words)),
            Case::Bus { world, words, room, counts } => {
                write!(f, "bus {world} words={} room={room} counts={counts}", joined(words))
            }
            Case::Single { world, words, room, counts } => {
                write!(f, "single {world} words={} room={room} counts={counts}", joined(words))
            }
            Case::Alone { world, words, room, at, other } => {
                write!(f, "alone {world} words={} room={room} at={at} ", joined(words))?;
                write!(f, "other={}", joined(other))
            }
            Case::NormalForm { words, room } => {
                write!(f, "normal_form words={} room={room}", joined(words))
            }
            Case::Write { asked, room } => write!(f, "write {asked} room={room}"),
            Case::Read { bytes, room } => write!(f, "read bytes={} room={room}", joined(bytes)),
            Case::Line { at, asked, room } => write!(f, "line at={at} {asked} room={room}"),
            Case::Lookup { bench, maker, identifier, room } => write!(
                f,
                "lookup bench={} maker={} identifier={identifier} room={room}",
                joined(bench),
                joined(maker)
            ),
        }
    }
}

/// Reads back what `Display` wrote.
pub(crate) fn parse(line: &str) -> Case {
    let mut parts = line.split_whitespace();
    let name = parts.next().expect("the call's name");
    let fields: Vec<(&str, &str)> = parts.map(|part| part.split_once('=').expect("name=numbers")).collect();
    let text = |name: &str| {
        fields.iter().find(|field| field.0 == name).unwrap_or_else(|| panic!("{name} is missing")).1
    };
    fn list<T: std::str::FromStr<Err: Debug>>(text: &str) -> Vec<T> {
        text.split(',').filter(|part| !part.is_empty()).map(|part| part.parse().unwrap()).collect()
    }
    fn one<T: std::str::FromStr<Err: Debug>>(text: &str) -> T {
        text.parse().unwrap()
    }
    let world = || Lent {
        card: list(text("card")),
        bench: list(text("bench")),
        maker: list(text("maker")),
        values: list(text("values")),
    };
    let asked = || Asked {
        letter: one(text("letter")),
        address: one(text("address")),
        identifier: one(text("identifier")),
        kind: one(text("kind")),
        number: one(text("number")),
        decimals: one(text("decimals")),
        minus_zero: one(text("minus_zero")),
    };
    let words = || list(text("words"));
    let room = || one(text("room"));
    match name {
        "step" => {
            Case::Step { world: world(), word: one(text("word")), room: room(), cause: one(text("cause")) }
        }
        "run" => Case::Run { world: world(), words: words(), room: room(), counts: one(text("counts")) },
        "trace" => Case::Trace {
            world: world(),
            words: words(),
            room: room(),
            notes: one(text("notes")),
            counts: one(text("counts")),
        },
        "ignored" => Case::Ignored { world: world(), words: words() },
        "zeros" => Case::Zeros { world: world(), words: words() },
        "bus" => Case::Bus { world: world(), words: words(), room: room(), counts: one(text("counts")) },
        "single" => {
            Case::Single { world: world(), words: words(), room: room(), counts: one(text("counts")) }
        }
        "alone" => Case::Alone {
            world: world(),
            words: words(),
            room: room(),
            at: one(text("at")),
            other: list(text("other")),
        },
        "normal_form" => Case::NormalForm { words: words(), room: room() },
        "write" => Case::Write { asked: asked(), room: room() },
        "read" => Case::Read { bytes: list(text("bytes")), room: room() },
        "line" => Case::Line { at: one(text("at")), asked: asked(), room: room() },
        "lookup" => Case::Lookup {
            bench: list(text("bench")),
            maker: list(text("maker")),
            identifier: one(text("identifier")),
            room: room(),
        },
        _ => panic!("no call is named {name}"),
    }
}

impl Case {
    /// The recording of a case that has one.
    pub(crate) fn words(&mut self) -> Option<&mut Vec<u16>> {
        match self {
            Case::Run { words, .. } | Case::NormalForm { words, .. } => Some(words),
            Case::Trace { words, .. } | Case::Ignored { words, .. } | Case::Zeros { words, .. } => {
                Some(words)
            }
            Case::Bus { words, .. } | Case::Single { words, .. } | Case::Alone { words, .. } => Some(words),
            _ => None,
        }
    }

    /// The same without one of its cards, where there are several and each has its values.
    pub(crate) fn without_card(&self, gone: usize) -> Option<Case> {
        let mut case = self.clone();
        match &mut case {
            Case::Bus { world, .. } if gone < world.cards() && world.values.len() == 128 * world.cards() => {
                *world = world.without(gone);
            }
            Case::Alone { world, at, .. } if gone < world.cards() && gone != *at => {
                *world = world.without(gone);
                *at -= usize::from(gone < *at);
            }
            _ => return None,
        }
        Some(case)
    }
}
