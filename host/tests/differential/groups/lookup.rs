//! Groups of identifiers for `kav_lookup`.

use super::{Bench, Checked};
use crate::case::Case;
use kavtziron_host::gen::{self, Rng, World};

pub(crate) fn lookup_random(rng: &mut Rng, _: u64, bench: &mut Bench) -> Checked {
    let mut world = World::new(rng);
    if rng.percent(10) {
        gen::add_scan_row(rng, &mut world.maker);
    }
    match rng.below(6) {
        0 => gen::break_sheet(rng, &mut world.bench),
        1 => gen::break_sheet(rng, &mut world.maker),
        2 if !world.maker.is_empty() => {
            let at = rng.below(world.maker.len());
            world.maker[at] = rng.wild();
        }
        _ => {}
    }
    let identifier = match rng.below(3) {
        0 if rng.percent(10) => gen::SCAN,
        0 => rng.next() as u8,
        _ if world.rows.is_empty() => b'?',
        1 => rng.pick(&world.rows)[0] as u8 + 128 * (rng.below(20) == 0) as u8,
        _ => rng.pick(&world.rows)[0] as u8,
    };
    let room = rng.pick(&[6, 6, 6, 7, 8, 12, 5, 0]);
    bench.check(Case::Lookup { bench: world.bench, maker: world.maker, identifier, room })?;
    Ok(())
}

pub(crate) fn lookup_every(rng: &mut Rng, _: u64, bench: &mut Bench) -> Checked {
    let mut world = World::new(rng);
    // The sheets stay sound with a row for `]`.
    match rng.below(4) {
        0 => gen::add_scan_row(rng, &mut world.bench),
        1 => gen::add_scan_row(rng, &mut world.maker),
        _ => {}
    }
    for identifier in 0..=255 {
        let mut rows = gen::rows_of(&world.bench).chain(gen::rows_of(&world.maker));
        let found = rows.any(|row| row[0] == i32::from(identifier));
        let (first, maker) = (world.bench.clone(), world.maker.clone());
        let wanted = if found { 6 } else { 0 };
        bench.expect(Case::Lookup { bench: first, maker, identifier, room: 8 }, wanted)?;
    }
    for room in 0..10 {
        let identifier = rng.pick(&gen::identifiers());
        let (mut first, mut maker) = (world.bench.clone(), world.maker.clone());
        bench.check(Case::Lookup { bench: first.clone(), maker: maker.clone(), identifier, room })?;
        if rng.percent(50) {
            gen::break_sheet(rng, &mut first);
        } else {
            gen::break_sheet(rng, &mut maker);
        }
        let wanted = if room < 6 { -5 } else { 0 };
        bench.expect(Case::Lookup { bench: first, maker, identifier, room }, wanted)?;
    }
    Ok(())
}
