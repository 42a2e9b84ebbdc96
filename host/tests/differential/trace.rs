//! `kav_trace` on both sides, and what holds of it on each side by itself: it is refused as that side's `kav_run` is, leaves
//! what that leaves, and its notes are what that side's `kav_step` says word by word.

use crate::case::Lent;
use crate::compare::{alike, same_result, Agreed, Guarded};
use crate::drawn_trace::DrawnTrace;
use crate::side::{Side, SIDES};
use kavtziron_host::gen::on_line;
use kavtziron_host::reference::calls::NOTE;

/// What is lent to one call, other than what it can write in.
pub(crate) struct Read<'a> {
    pub(crate) world: &'a Lent,
    pub(crate) words: &'a [u16],
}

/// What a call can write in.
#[derive(Clone)]
struct Written {
    card: Guarded<i32>,
    values: Guarded<i32>,
    out: Guarded<u8>,
    notes: Guarded<u64>,
    counts: Guarded<u64>,
}

impl Written {
    fn trace(&mut self, side: &Side, &Read { world, words }: &Read) -> i64 {
        (side.trace)(
            self.card.inside(),
            &world.bench,
            &world.maker,
            self.values.inside(),
            words,
            self.out.inside(),
            self.notes.inside(),
            self.counts.inside(),
        )
    }

    /// The same by the run, which has no notes and two counts.
    fn run(&mut self, side: &Side, &Read { world, words }: &Read) -> i64 {
        let mut two = [0; 2];
        let result = (side.run)(
            self.card.inside(),
            &world.bench,
            &world.maker,
            self.values.inside(),
            words,
            self.out.inside(),
            &mut two,
        );
        if let (0, [taken, written, ..]) = (result, self.counts.inside()) {
            [*taken, *written] = two;
        }
        result
    }

    /// The same by single words: each whose reply fits is taken, and noted where it is a `*` and a message is open.
    fn steps(&mut self, side: &Side, &Read { world, words }: &Read) -> Result<(), String> {
        let [mut taken, mut written, mut noted] = [0; 3];
        for &word in words {
            let (mut card, mut values) = (self.card.clone(), self.values.clone());
            let (mut reply, mut cause) = ([0; 33], [0; 2]);
            let replied = (side.step)(
                card.inside(),
                &world.bench,
                &world.maker,
                values.inside(),
                word,
                &mut reply,
                &mut cause,
            );
            let replied = usize::try_from(replied).map_err(|_| format!("step gave {replied} at {taken}"))?;
            let Some(room) = self.out.inside()[written..].get_mut(..replied) else {
                break;
            };
            room.copy_from_slice(&reply[..replied]);
            let characters = self.card.seen()[2] as usize;
            if word == u16::from(on_line(b'*')) && characters > 0 {
                let [code, position] = cause.map(|number| number as usize);
                let note = [taken, characters, replied, code, position].map(|number| number as u64);
                self.notes.inside()[NOTE * noted..][..NOTE].copy_from_slice(&note);
                noted += 1;
            } else if (replied, cause) != (0, [9, 0]) {
                return Err(format!(
                    "step gave {replied} and cause {cause:?} at {taken}, where nothing closes"
                ));
            }
            (self.card, self.values) = (card, values);
            written += replied;
            taken += 1;
        }
        self.counts.inside()[..3].copy_from_slice(&[taken, written, noted].map(|count| count as u64));
        Ok(())
    }

    fn same_as(&self, other: &Written, names: [&str; 2]) -> Result<(), String> {
        alike("counts", names, [&self.counts, &other.counts])?;
        alike("notes", names, [&self.notes, &other.notes])?;
        alike("card", names, [&self.card, &other.card])?;
        alike("values", names, [&self.values, &other.values])?;
        alike("out", names, [&self.out, &other.out])
    }
}

/// What has to hold on one side of what it left of what was lent before.
fn by_itself(side: &Side, lent: &Read, before: &Written, after: &Written, result: i64) -> Result<(), String> {
    let short = before.notes.seen().len() < NOTE * lent.words.len() || before.counts.seen().len() < 3;
    let mut ran = before.clone();
    let wanted = match ran.run(side, lent) {
        0 if short => -5,
        result => result,
    };
    if result != wanted {
        return Err(format!("trace gave {result}, but by run it has to give {wanted}"));
    }
    if result != 0 {
        return after.same_as(before, ["refused trace", "before"]);
    }
    ran.notes = after.notes.clone();
    ran.counts.inside()[2] = after.counts.seen()[2];
    after.same_as(&ran, ["trace", "run"])?;
    let mut stepped = before.clone();
    stepped.steps(side, lent)?;
    after.same_as(&stepped, ["trace", "steps"])
}

/// Both sides, and each by itself.
pub(crate) fn compare_trace(lent: &Read, room: usize, notes: usize, counts: usize) -> Result<Agreed, String> {
    let before = Written {
        card: Guarded::of(&lent.world.card),
        values: Guarded::of(&lent.world.values),
        out: Guarded::room(room),
        notes: Guarded::room(notes),
        counts: Guarded::room(counts),
    };
    let [mut archive, mut reference] = [before.clone(), before.clone()];
    let results = [archive.trace(&SIDES[0], lent), reference.trace(&SIDES[1], lent)];
    let result = same_result(results[0], results[1])?;
    archive.same_as(&reference, ["archive", "reference"])?;
    for (side, after) in SIDES.iter().zip([&archive, &reference]) {
        by_itself(side, lent, &before, after, result).map_err(|what| format!("{}: {what}", side.name))?;
    }
    let drawn = DrawnTrace::of(lent, room, result, archive.notes.seen(), archive.counts.seen());
    Ok(Agreed { trace: Some(drawn), ..Agreed::on(result) })
}
