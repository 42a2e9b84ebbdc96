//! Groups of several cards through `kav_bus_run` that are refused, and no card at all. The number is known.

use super::bus::some_words;
use super::{Bench, Checked};
use crate::case::{Case, Lent};
use crate::drawn_bus::Class;
use kavtziron_host::gen::{self, Bus, Rng, Unfit, World, UNFIT};

/// A card's place: the first, a middle or the last.
fn place_of(rng: &mut Rng, count: usize, which: usize) -> usize {
    match which {
        0 => 0,
        1 if count > 2 => 1 + rng.below(count - 2),
        _ => count - 1,
    }
}

fn class_of(unfit: Unfit) -> Class {
    match unfit {
        Unfit::Alike => Class::Alike,
        Unfit::Twice => Class::Twice,
        Unfit::AlikeButRevision => Class::AlikeButRevision,
        Unfit::AlikeButScan => Class::AlikeButScan,
        Unfit::AlikeButOffer => Class::AlikeButOffer,
        Unfit::ThirtyThree => Class::ThirtyThree,
        Unfit::Forty => Class::Forty,
        Unfit::Open => Class::Open,
        Unfit::OpenCharacter => Class::OpenCharacter,
        Unfit::OpenShorter => Class::OpenShorter,
        Unfit::OpenNul => Class::OpenNul,
    }
}

fn is_open(unfit: Unfit) -> bool {
    matches!(unfit, Unfit::Open | Unfit::OpenCharacter | Unfit::OpenShorter | Unfit::OpenNul)
}

/// Makes one of the sheets unsound.
fn break_sheets(rng: &mut Rng, bus: &mut Bus) {
    let World { bench, maker, .. } = &mut bus.world;
    let sheet = if rng.percent(50) { bench } else { maker };
    gen::break_sheet(rng, sheet);
}

/// Makes an offer or a scan unsound, or gives `]` a row.
fn break_offer_or_scan(rng: &mut Rng, bus: &mut Bus, at: usize) {
    let offer = rng.percent(50);
    bus.change(at, |world| if offer { gen::break_offer(rng, world) } else { gen::break_scan(rng, world) });
}

/// Makes the values wrong: one of this card's, or how many there are.
fn break_values(rng: &mut Rng, bus: &mut Bus, at: usize) -> Class {
    let (length, lengths) = (bus.values.len(), bus.world.rows.is_empty() || rng.percent(40));
    if !lengths {
        gen::break_value(rng, &bus.world.rows, &mut bus.values[128 * at..128 * at + 128]);
        return match at {
            0 => Class::ValueAtFirst,
            at if at + 1 == bus.count() => Class::ValueAtLast,
            _ => Class::ValueAtMiddle,
        };
    }
    let any: Vec<i32> = bus.values[..128].to_vec();
    match rng.below(4) {
        0 => {
            bus.values.truncate(length - 1);
            Class::ValuesShort
        }
        1 => {
            bus.values.push(rng.pick(&any));
            Class::ValuesLong
        }
        2 => {
            bus.values.truncate(length - 128);
            Class::CardsValuesShort
        }
        _ => {
            bus.values.extend(any);
            Class::CardsValuesLong
        }
    }
}

/// Makes the cards' rows wrong before the sheets are looked at: a number of this card, or their length.
fn break_cards(rng: &mut Rng, bus: &mut Bus, at: usize) -> Class {
    let length = bus.cards.len();
    match rng.below(8) {
        0 => {
            bus.cards.remove(23 * at + rng.below(23));
            Class::CardsShort
        }
        1 => {
            bus.cards.insert(rng.below(length + 1), rng.pick(&[0, 1, 2, 76]));
            Class::CardsLong
        }
        2 => {
            let other = rng.pick(&[1, 16, 22, length - 16, length - 7, length + 7, length + 22]);
            bus.cards.resize(other, 0);
            Class::CardsOther
        }
        _ => {
            let place = rng.pick(&[0, 1, 2, 3, 4, 8, 12, 22]);
            bus.change(at, |world| gen::break_number(rng, world, place));
            if at > 31 {
                Class::CardBehind
            } else {
                Class::CardUnsound
            }
        }
    }
}

/// Every set of refusals at once, and so each alone and each two: 1 (a card), 8, 2, 1 (an offer or scan), 3, 4, 5.
pub(crate) fn bus_refusals(rng: &mut Rng, number: u64, bench: &mut Bench) -> Checked {
    const NUMBERS: [i64; 7] = [1, 8, 2, 1, 3, 4, 5];
    // So that the first hundredth has each two.
    let has = |fault: usize| (number * 45 % 128) >> fault & 1 == 1;
    let count = rng.pick(&[2, 2, 2, 3, 3, 3, 4, 5, 32]);
    let mut bus = Bus::new(rng, count);
    let length = rng.below(50);
    let mut words = some_words(rng, &mut bus, length);
    let mut classes = [Class::Word; 7];
    if has(1) {
        let unfit = rng.pick(&UNFIT);
        let at = rng.below(count);
        bus.make_unfit(rng, unfit, at);
        classes[1] = class_of(unfit);
    }
    let mut any = |bus: &Bus| {
        let which = rng.below(3);
        place_of(rng, bus.count(), which)
    };
    let places = [any(&bus), any(&bus), any(&bus)];
    if has(3) {
        break_offer_or_scan(rng, &mut bus, places[0]);
        classes[3] = Class::Offer;
    }
    if has(4) {
        classes[4] = break_values(rng, &mut bus, places[1]);
    }
    if has(2) {
        break_sheets(rng, &mut bus);
        classes[2] = Class::Sheet;
    }
    if has(0) {
        classes[0] = break_cards(rng, &mut bus, places[2]);
    }
    if has(5) {
        words.insert(rng.below(words.len() + 1), gen::wrong_word(rng));
    }
    let counts = if has(6) { rng.below(2) } else { 2 + rng.below(3) };
    classes[6] = if counts == 0 { Class::CountsNone } else { Class::CountsOne };
    let first = (0..7).find(|&fault| has(fault));
    let room = rng.below(60);
    let wanted = first.map_or(0, |fault| -NUMBERS[fault]);
    bench.expect(Case::Bus { world: bus.into(), words, room, counts }, wanted)?;
    first.into_iter().for_each(|fault| bench.drawn.bus.count(classes[fault]));
    bench.drawn.bus.count_faults(has);
    Ok(())
}

/// Each of the 23 numbers unsound at the first, a middle and the last card, alone and with other faults: 0 to 12 and 22
/// before all else, 13 to 21 behind 8 and the sheets.
pub(crate) fn bus_numbers(rng: &mut Rng, number: u64, bench: &mut Bench) -> Checked {
    let place = number as usize % 23;
    let early = matches!(place, 0..=12 | 22);
    let count = rng.pick(&[3, 3, 3, 4, 4, 5, 5, 31, 32, 33, 40]);
    let mut bus = Bus::new(rng, count);
    let words = some_words(rng, &mut bus, 20);
    for which in 0..3 {
        let at = place_of(rng, count, which);
        let mut other = bus.clone();
        other.change(at, |world| gen::break_number(rng, world, place));
        let (room, counts) = (rng.below(40), rng.pick(&[1, 2, 2]));
        let wanted = if !early && count > 32 { 8 } else { 1 };
        let case = Case::Bus { world: other.clone().into(), words: words.clone(), room, counts };
        bench.expect(case, -wanted)?;
        bench.drawn.bus.count_number(which, place);
        if early && at > 31 {
            bench.drawn.bus.count(Class::CardBehind);
        }

        let (unfit, sheet) = (rng.percent(40), rng.percent(40));
        if unfit {
            // The faulty card keeps its fault.
            let unfit = (at + 1) % count;
            let open = other.card(unfit)[2..13].to_vec();
            other.card(unfit)[2..13].copy_from_slice(if open[0] == 0 { &ONE_OPEN } else { &[0; 11] });
        }
        if rng.percent(40) {
            let at = rng.below(count);
            break_values(rng, &mut other, at);
        }
        if sheet {
            break_sheets(rng, &mut other);
        }
        let wanted = match () {
            _ if early => 1,
            _ if unfit || count > 32 => 8,
            _ if sheet => 2,
            _ => 1,
        };
        bench.expect(Case::Bus { world: other.into(), words: words.clone(), room, counts }, -wanted)?;
    }
    Ok(())
}

/// Numbers 2 to 12 of a card with `L` open.
const ONE_OPEN: [i32; 11] = [1, 76, 0, 0, 0, 0, 0, 0, 0, 0, 0];

/// Each way in which sound cards are no bench, with faults behind it or none; with a card unsound it is 1. The bench as
/// it was is served.
pub(crate) fn bus_unfit(rng: &mut Rng, number: u64, bench: &mut Bench) -> Checked {
    let unfit = UNFIT[number as usize % UNFIT.len()];
    let count = rng.pick(&[2, 2, 2, 3, 3, 3, 4, 4, 5, 31, 32]);
    let mut bus = Bus::new(rng, count);
    let length = rng.below(30);
    let words = some_words(rng, &mut bus, length);
    let room = rng.below(60);
    bench.expect(Case::Bus { world: bus.clone().into(), words: words.clone(), room, counts: 2 }, 0)?;
    let at = match rng.below(3) {
        0 => rng.below(count),
        _ => count - 1,
    };
    bus.make_unfit(rng, unfit, at);
    bench.expect(Case::Bus { world: bus.clone().into(), words: words.clone(), room, counts: 2 }, -8)?;
    bench.drawn.bus.count(class_of(unfit));
    if is_open(unfit) && at + 1 == count {
        bench.drawn.bus.count(Class::OpenAtLast);
    }
    let mut behind = bus.clone();
    let at = rng.below(behind.count());
    match rng.below(4) {
        0 => break_sheets(rng, &mut behind),
        1 => break_offer_or_scan(rng, &mut behind, at),
        2 => {
            break_values(rng, &mut behind, at);
        }
        _ => gen::add_scan_row(rng, &mut behind.world.maker),
    }
    let counts = rng.below(4);
    bench.expect(Case::Bus { world: behind.into(), words: words.clone(), room, counts }, -8)?;
    let at = rng.below(bus.count());
    bus.change(at, |world| gen::break_number(rng, world, 22));
    bench.expect(Case::Bus { world: bus.into(), words, room, counts }, -1)
}

/// Rows, values and counts one short and one long, and by a whole row or the values of a card.
pub(crate) fn bus_lengths(rng: &mut Rng, number: u64, bench: &mut Bench) -> Checked {
    let count = rng.pick(&[1, 2, 3, 3, 3, 4, 4, 5, 31, 32]);
    let bus = Bus::new(rng, count);
    let lent: Lent = bus.clone().into();
    let (cards, values) = (lent.card.len(), lent.values.len());
    let words: Vec<u16> = gen::words_of(b"L7??*").collect();
    let check = |bench: &mut Bench, world: &Lent, counts: usize, wanted: i64, class: Class| {
        bench.drawn.bus.count(class);
        let case = Case::Bus { world: world.clone(), words: words.clone(), room: 5, counts };
        bench.expect(case, -wanted)
    };
    match number % 7 {
        0 => {
            let lengths = [
                (cards - 1, Class::CardsShort),
                (cards + 1, Class::CardsLong),
                (cards - 22, Class::CardsOther),
                (cards + 22, Class::CardsOther),
                (22, Class::CardsOther),
                (24, Class::CardsOther),
            ];
            for (length, class) in lengths {
                let mut other = lent.clone();
                other.card.resize(length, rng.pick(&[0, 1, 76]));
                check(bench, &other, 2, 1, class)?;
            }
        }
        1 => {
            let lengths = [
                (values - 1, Class::ValuesShort),
                (values + 1, Class::ValuesLong),
                (values - 128, Class::CardsValuesShort),
                (values + 128, Class::CardsValuesLong),
            ];
            for (length, class) in lengths {
                let mut other = lent.clone();
                other.values = lent.values.iter().copied().cycle().take(length).collect();
                check(bench, &other, 2, 3, class)?;
            }
        }
        2 => {
            for (counts, class) in [(0, Class::CountsNone), (1, Class::CountsOne)] {
                check(bench, &lent, counts, 5, class)?;
            }
            check(bench, &lent, 3, 0, Class::CountsThree)?;
        }
        3 => {
            let mut other = bus;
            let World { bench: first, maker, .. } = &mut other.world;
            let sheet = if rng.percent(50) { first } else { maker };
            gen::add_scan_row(rng, sheet);
            check(bench, &other.into(), 2, 1, Class::ScanRow)?;
        }
        4 => {
            let mut words = words.clone();
            words.insert(rng.below(6), gen::wrong_word(rng));
            bench.drawn.bus.count(Class::Word);
            bench.expect(Case::Bus { world: lent, words, room: 5, counts: rng.below(4) }, -4)?;
        }
        // One card's row less or more than there are values for.
        5 if count > 1 => {
            let mut other = lent.clone();
            other.card.truncate(cards - 23);
            check(bench, &other, 2, 3, Class::CardsValuesLong)?;
        }
        _ if bus.world.rows.is_empty() => {}
        _ => {
            let classes = [Class::ValueAtFirst, Class::ValueAtMiddle, Class::ValueAtLast];
            for (which, class) in classes.into_iter().enumerate().filter(|it| count > 2 || it.0 != 1) {
                let at = place_of(rng, count, which);
                let mut other = bus.clone();
                gen::break_value(rng, &bus.world.rows, &mut other.values[128 * at..128 * at + 128]);
                check(bench, &other.into(), 2, 3, class)?;
            }
        }
    }
    Ok(())
}

/// No card: every word is taken and nothing written, whatever the room. What else is lent is still judged.
pub(crate) fn bus_no_card(rng: &mut Rng, number: u64, bench: &mut Bench) -> Checked {
    const NUMBERS: [i64; 5] = [1, 2, 3, 4, 5];
    let has = |fault: usize| !number.is_multiple_of(3) && (number * 13 % 32) >> fault & 1 == 1;
    let mut bus = Bus::new(rng, 0);
    let length = rng.below(60);
    let mut words = some_words(rng, &mut bus, length);
    let scan_row = rng.percent(30);
    if scan_row {
        gen::add_scan_row(rng, &mut bus.world.bench);
    }
    let mut lent: Lent = bus.into();
    if has(0) {
        lent.card.resize(rng.pick(&[1, 2, 16, 22, 24, 45]), 0);
    }
    if has(1) {
        let sheet = if rng.percent(50) { &mut lent.bench } else { &mut lent.maker };
        gen::break_sheet(rng, sheet);
    }
    if has(2) {
        lent.values.resize(rng.pick(&[1, 127, 128, 129, 256]), 0);
    }
    if has(3) {
        words.insert(rng.below(words.len() + 1), gen::wrong_word(rng));
    }
    let counts = if has(4) { rng.below(2) } else { 2 + rng.below(2) };
    let room = rng.pick(&[0, 0, 1, 33, 60]);
    let wanted = (0..5).find(|&fault| has(fault)).map_or(0, |fault| -NUMBERS[fault]);
    if scan_row && wanted == 0 {
        bench.drawn.bus.count(Class::ScanRowNoCard);
    }
    bench.expect(Case::Bus { world: lent, words, room, counts }, wanted)
}
