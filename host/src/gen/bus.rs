//! Several sound cards on one pair, what is said there, and what makes them no bench.

use super::recording::put_noise;
use super::world::values;
use super::{
    edit, message, neighbours_message, reply, scan_message, scan_reply, words_of, Mixture, Rng, World,
};

/// Sound cards with one pair of sheets and 128 values for each, no two alike, the same message open at all.
#[derive(Clone, Debug)]
pub struct Bus {
    /// The cards' rows back to back, and their values.
    pub cards: Vec<i32>,
    pub values: Vec<i32>,
    /// The sheets for all. Its card is the one in hand, or with no card on the bench one that is elsewhere.
    pub world: World,
}

/// Letters and addresses of so many cards, no two alike. Many share an address with the other letter, or have
/// one that looks like another's.
fn heads(rng: &mut Rng, count: usize) -> Vec<[i32; 2]> {
    let mut heads: Vec<[i32; 2]> = Vec::new();
    while heads.len() < count {
        let letter = i32::from(rng.pick(b"LR"));
        let address = match heads.last() {
            Some(&[_, before]) if rng.percent(50) => {
                let (tens, ones) = (before / 10, before % 10);
                rng.pick(&[before, before % 99 + 1, before + 10, ones, ones * 10 + tens, ones * 11])
            }
            _ if rng.percent(50) => rng.within(1, 9),
            _ => rng.within(1, 99),
        };
        if matches!(address, 1..=99) && !heads.contains(&[letter, address]) {
            heads.push([letter, address]);
        }
    }
    heads
}

impl Bus {
    /// So many cards, at most 198, with sheets, revisions, scans, offers and an open message of all sorts.
    pub fn new(rng: &mut Rng, count: usize) -> Bus {
        let world = World::new(rng);
        Bus::with_sheets(rng, world, count)
    }

    /// The same with a world's sheets.
    pub fn with_sheets(rng: &mut Rng, mut world: World, count: usize) -> Bus {
        let offers = rng.pick(&[10, 50, 90]);
        let mut bus = Bus { cards: Vec::new(), values: Vec::new(), world: world.clone() };
        for head in heads(rng, count) {
            world.card.fill(0);
            world.card[..2].copy_from_slice(&head);
            world.any_revision(rng);
            let named = rng.pick(&[0, 4, 5, 5]);
            world.scan(rng, named);
            if rng.percent(offers) {
                world.offer(rng);
            }
            bus.cards.extend_from_slice(&world.card);
            bus.values.extend(values(rng, &world.rows));
        }
        bus.hold(rng);
        bus.world.open_with(b"");
        if rng.percent(50) {
            bus.world.open(rng);
        }
        bus.open_as_in_hand();
        bus
    }

    /// Plain cards for measurements, the world's first: no message open, no offer, no scan, the first revision.
    pub fn plain(rng: &mut Rng, world: &World, count: usize) -> Bus {
        let mut bus = Bus { cards: Vec::new(), values: world.values.clone(), world: world.clone() };
        for at in 0..count {
            let mut card = [0; 23];
            card[0] = if at % 2 == 0 { world.card[0] } else { world.card[0] ^ 76 ^ 82 };
            card[1] = (world.card[1] - 1 + at as i32) % 99 + 1;
            card[22] = 1;
            bus.cards.extend_from_slice(&card);
        }
        (1..count).for_each(|_| bus.values.extend(values(rng, &world.rows)));
        bus
    }

    /// A recording of exactly so many words that has messages for the first so many cards and for no other, each of
    /// them as good a guess as the next, and four of five settings followed by their Type 4.
    pub fn talk(&self, rng: &mut Rng, cards: usize, length: usize) -> Vec<u16> {
        let (mut words, mut text) = (Vec::with_capacity(length + 64), Vec::new());
        while words.len() < length {
            let card = &self.cards[23 * rng.below(cards)..][..2];
            let head = format!("{}{}", card[0] as u8 as char, card[1]).into_bytes();
            text.clear();
            message(rng, &self.world, &mut text);
            let body: Vec<u8> = text[1..].iter().copied().skip_while(u8::is_ascii_digit).collect();
            words.extend(words_of(&[&head, &body[..]].concat()));
            if body.get(1) == Some(&b'#') && rng.percent(80) {
                words.extend(words_of(&[&head, &body[..1], b"I*"].concat()));
            }
        }
        words.truncate(length);
        words
    }

    pub fn count(&self) -> usize {
        self.cards.len() / 23
    }

    /// The row of a card.
    pub fn card(&mut self, at: usize) -> &mut [i32] {
        &mut self.cards[23 * at..23 * at + 23]
    }

    /// Takes a card in hand.
    pub fn hold_at(&mut self, at: usize) {
        self.world.card = self.card(at).to_vec();
    }

    /// Any card, if there is one.
    pub fn hold(&mut self, rng: &mut Rng) {
        if !self.cards.is_empty() {
            self.hold_at(rng.below(self.count()));
        }
    }

    /// Changes a card in hand and puts it back.
    pub fn change(&mut self, at: usize, change: impl FnOnce(&mut World)) {
        self.hold_at(at);
        change(&mut self.world);
        let row = self.world.card.clone();
        self.card(at).copy_from_slice(&row);
    }

    /// Opens the message of the card in hand at every card.
    pub fn open_as_in_hand(&mut self) {
        let World { card: held, .. } = &self.world;
        self.cards.chunks_exact_mut(23).for_each(|card| card[2..13].copy_from_slice(&held[2..13]));
    }

    /// Letter, address and identifier of each offer.
    fn offered(&self) -> Vec<Vec<u8>> {
        let with_offer = self.cards.chunks_exact(23).filter(|card| card[13] == 1);
        with_offer.map(|card| head_of(card, card[14] as u8)).collect()
    }

    /// A recording of exactly so many words, each 0 to 256: messages for a few of the cards, for any of them and
    /// for none, Type 4s in any order behind offers and settings, replies and noise.
    pub fn recording(&mut self, rng: &mut Rng, length: usize, mixture: Mixture) -> Vec<u16> {
        let few: Vec<usize> = (0..3).map(|_| rng.below(self.count().max(1))).collect();
        let mut settings = self.offered();
        let (mut words, mut text) = (Vec::with_capacity(length + 64), Vec::new());
        while words.len() < length {
            if rng.percent(mixture.noise) {
                put_noise(rng, &mut words);
            }
            if self.count() > 0 {
                let any = rng.below(self.count());
                self.hold_at(if rng.percent(70) { rng.pick(&few) } else { any });
            }
            let world = &self.world;
            text.clear();
            match rng.below(20) {
                0..=4 if !settings.is_empty() => {
                    let at = rng.below(settings.len());
                    text.extend_from_slice(&settings[at]);
                    text.extend_from_slice(b"I*");
                    if rng.percent(80) {
                        settings.swap_remove(at);
                    }
                }
                5 | 6 => {
                    let code = settings.last().map_or(b'm', |head| head[head.len() - 1]);
                    neighbours_message(rng, world, code, &mut text);
                }
                7 => scan_message(rng, world, &mut text),
                8 => text = if rng.percent(50) { reply(rng) } else { scan_reply(rng) },
                9..=11 => {
                    world.setting(rng, &mut text);
                    settings.push(text[..text.len() - 7].to_vec());
                }
                _ => message(rng, world, &mut text),
            }
            let from = words.len();
            words.extend(words_of(&text));
            if rng.percent(mixture.spoiled) {
                edit(rng, &mut words, from);
            }
        }
        words.truncate(length);
        words
    }
}

fn head_of(card: &[i32], identifier: u8) -> Vec<u8> {
    format!("{}{}{}", card[0] as u8 as char, card[1], identifier as char).into_bytes()
}

impl World {
    /// Appends a Type 3 for the card that its row most often accepts.
    fn setting(&self, rng: &mut Rng, text: &mut Vec<u8>) {
        let rows: Vec<_> = self.rows.iter().filter(|row| row[1] != 1).collect();
        let row = if rows.is_empty() { &[109, 2, 1, 5, 0, 1000] } else { rng.pick(&rows) };
        text.extend(head_of(&self.card, row[0] as u8));
        let number = rng.within(row[4], row[5]);
        let code = row[2] + if number < 0 { 5 } else { 0 };
        text.extend_from_slice(format!("#{:04}{code}*", number.abs()).as_bytes());
    }
}

/// What makes sound cards no bench: number 8.
#[derive(Clone, Copy, Debug, PartialEq)]
pub enum Unfit {
    /// Letter and address of another card, with whatever else the card has.
    Alike,
    /// All of another card, or all but this.
    Twice,
    AlikeButRevision,
    AlikeButScan,
    AlikeButOffer,
    /// More than 32.
    ThirtyThree,
    Forty,
    /// A message open at one card alone, or at all but one.
    Open,
    /// The last character open at one card is another, or one isn't there.
    OpenCharacter,
    OpenShorter,
    /// A NUL more is open at one card, so that the ten characters are equal and the count differs.
    OpenNul,
}

pub const UNFIT: [Unfit; 11] = [
    Unfit::Alike,
    Unfit::Twice,
    Unfit::AlikeButRevision,
    Unfit::AlikeButScan,
    Unfit::AlikeButOffer,
    Unfit::ThirtyThree,
    Unfit::Forty,
    Unfit::Open,
    Unfit::OpenCharacter,
    Unfit::OpenShorter,
    Unfit::OpenNul,
];

impl Bus {
    /// Two of the cards, in any order.
    fn two(&self, rng: &mut Rng) -> (usize, usize) {
        let one = rng.below(self.count());
        let behind = 1 + rng.below(self.count() - 1);
        (one, (one + behind) % self.count())
    }

    /// Opens so many characters at all cards, and changes one.
    fn open_otherwise(
        &mut self,
        rng: &mut Rng,
        at: usize,
        characters: usize,
        change: impl FnOnce(&mut [i32]),
    ) {
        let mut text = vec![rng.pick(b"LR")];
        text.extend(b"7m#00231*"[..characters - 1].iter());
        self.world.open_with(&text);
        self.open_as_in_hand();
        change(self.card(at));
    }

    /// Makes a bench of two cards and more unfit in one way; the place is that of the card which differs, where
    /// one does. A bench of fewer than 33 gets more cards where more than 32 are asked for.
    pub fn make_unfit(&mut self, rng: &mut Rng, unfit: Unfit, at: usize) {
        let (one, other) = self.two(rng);
        let world = self.world.clone();
        let copied = self.card(one).to_vec();
        let revision = 3 - copied[22];
        match unfit {
            Unfit::Alike => self.card(other)[..2].copy_from_slice(&copied[..2]),
            Unfit::Twice => self.card(other).copy_from_slice(&copied),
            Unfit::AlikeButRevision => {
                self.card(other).copy_from_slice(&copied);
                self.card(other)[22] = revision;
            }
            Unfit::AlikeButScan => {
                self.card(other).copy_from_slice(&copied);
                let named = if copied[16] == 0 { 5 } else { 0 };
                self.change(other, |world| world.scan(rng, named));
            }
            Unfit::AlikeButOffer => {
                self.card(other).copy_from_slice(&copied);
                self.card(other)[13..16].fill(0);
                if copied[13] == 0 {
                    self.change(other, |world| world.offer(rng));
                }
            }
            Unfit::ThirtyThree => *self = Bus::with_sheets(rng, world, 33),
            Unfit::Forty => {
                let count = rng.pick(&[34, 40, 64]);
                *self = Bus::with_sheets(rng, world, count);
            }
            Unfit::Open => {
                let empty = rng.percent(50);
                self.open_otherwise(rng, at, 1, |_| ());
                let (mut none, mut some) = ([0; 11], [0; 11]);
                some[..2].copy_from_slice(&[1, 76]);
                if empty {
                    std::mem::swap(&mut none, &mut some);
                }
                self.cards.chunks_exact_mut(23).for_each(|card| card[2..13].copy_from_slice(&none));
                self.card(at)[2..13].copy_from_slice(&some);
            }
            Unfit::OpenCharacter => {
                let characters = 1 + rng.below(9);
                let place = 2 + characters;
                self.open_otherwise(rng, at, characters, |card| {
                    card[place] = if characters == 1 { card[place] ^ 76 ^ 82 } else { card[place] ^ 1 };
                });
            }
            Unfit::OpenShorter => {
                let characters = 2 + rng.below(8);
                self.open_otherwise(rng, at, characters, |card| {
                    card[2] -= 1;
                    card[2 + characters] = 0;
                });
            }
            Unfit::OpenNul => {
                let characters = 1 + rng.below(9);
                self.open_otherwise(rng, at, characters, |card| card[2] += 1);
            }
        }
    }
}
