//! The groups of cases, what they hand them to, and what several of them draw.

mod bus;
mod bus_refused;
mod cause;
mod lookup;
mod neighbours;
mod normal_form;
mod place;
mod read;
mod run;
mod scan;
mod step;
mod trace;
mod write;
mod zero;

use crate::case::Case;
use crate::compare::{compare, Agreed};
use crate::drawn::{Cause, Drawn};
use bus::{bus_alone, bus_in_parts, bus_long, bus_offers, bus_random, bus_rooms, bus_single, bus_spoiled};
use bus_refused::{bus_lengths, bus_no_card, bus_numbers, bus_refusals, bus_unfit};
use cause::{causes_known, causes_together};
use kavtziron_host::gen::{self, Mixture, Rng, World};
use lookup::{lookup_every, lookup_random};
use neighbours::{neighbours_ignored, neighbours_messages, neighbours_run, neighbours_walk};
use normal_form::{normal_form_long, normal_form_random, normal_form_rooms};
use place::{every_place, long_texts, short_texts};
use read::{read_babble, read_edits, read_every, read_random, read_scans};
use run::{every_data, every_pair, run_in_parts, run_long, run_random, run_rooms, wrong_word_behind};
use scan::{scan_broken, scan_messages};
use step::{every_word, refusals, step_random, step_spoiled, step_walk};
use trace::{
    trace_in_parts, trace_lengths, trace_long, trace_random, trace_refusals, trace_rooms, trace_spoiled,
};
use write::{line_random, line_rooms, minus_zeros_asked, write_random, write_rooms};
use zero::{revisions, zeros_known, zeros_run, zeros_walk};

/// What a group hands its cases to.
pub(crate) struct Bench {
    pub(crate) count: u64,
    pub(crate) drawn: Drawn,
    pub(crate) traced: bool,
}

pub(crate) struct Failure {
    pub(crate) what: String,
    pub(crate) case: Case,
}

impl Bench {
    pub(crate) fn new(traced: bool) -> Bench {
        Bench { count: 0, drawn: Drawn::default(), traced }
    }

    fn check(&mut self, case: Case) -> Result<i64, Box<Failure>> {
        self.compare(&case).map(|agreed| agreed.result)
    }

    /// The result has to be this one as well.
    fn expect(&mut self, case: Case, result: i64) -> Checked {
        let got = self.compare(&case)?.result;
        made_to_give(case, got, result)
    }

    /// The call has to be served, with whatever result.
    fn expect_served(&mut self, case: Case) -> Checked {
        match self.compare(&case)?.result {
            0.. => Ok(()),
            refused => made_to_give(case, refused, 0),
        }
    }

    /// The single word has to be served, with this cause.
    fn expect_cause(&mut self, case: Case, cause: Cause) -> Checked {
        let got = self.compare(&case)?.cause;
        made_to_give(case, got, Some(cause))
    }

    fn compare(&mut self, case: &Case) -> Result<Agreed, Box<Failure>> {
        self.count += 1;
        if self.traced {
            let _ = std::fs::write("target/last-case.txt", format!("{case}\n"));
        }
        let agreed = compare(case).map_err(|what| Box::new(Failure { what, case: case.clone() }))?;
        agreed.cause.into_iter().for_each(|cause| self.drawn.count(cause));
        agreed.zero.into_iter().for_each(|zero| self.drawn.count_zero(zero));
        agreed.classes.iter().for_each(|&class| self.drawn.bus.count(class));
        agreed.trace.iter().for_each(|trace| self.drawn.trace.add(trace));
        Ok(agreed)
    }
}

fn made_to_give<T: PartialEq + std::fmt::Debug>(case: Case, got: T, wanted: T) -> Checked {
    if got == wanted {
        return Ok(());
    }
    let what = format!("both sides gave {got:?}, but the case was made to give {wanted:?}");
    Err(Box::new(Failure { what, case }))
}

type Checked = Result<(), Box<Failure>>;

/// A group of cases: each number makes one or more of them.
pub(crate) struct Group {
    pub(crate) name: &'static str,
    pub(crate) numbers: u64,
    /// Whether KAV_CASES makes more of it, and a second seed other cases.
    pub(crate) random: bool,
    pub(crate) make: fn(&mut Rng, u64, &mut Bench) -> Checked,
}

fn room_near(rng: &mut Rng, limit: usize) -> usize {
    match rng.below(6) {
        0 => rng.below(limit + 1),
        1 => limit.saturating_sub(1),
        2 => limit,
        3 => limit + 1,
        _ => limit + rng.below(24),
    }
}

fn some_words(rng: &mut Rng, world: &World, length: usize) -> Vec<u16> {
    let mut words = match rng.below(7) {
        0 => gen::babble(rng, length),
        1 => gen::recording(rng, world, length, Mixture { scans: 20, ..gen::REALISTIC }),
        2 => {
            let mut words = gen::recording(rng, world, length, Mixture { spoiled: 0, ..gen::REALISTIC });
            gen::edit(rng, &mut words, 0);
            words
        }
        3 => gen::recording(rng, world, length, gen::PAIR),
        _ => gen::recording(rng, world, length, gen::ROUGH),
    };
    if rng.percent(20) {
        gen::zeros(rng, &mut words);
    }
    words
}

/// A length of the cause that is served.
fn cause_length(rng: &mut Rng) -> usize {
    rng.pick(&[2, 2, 3, 4])
}

pub(crate) const GROUPS: &[Group] = &[
    Group { name: "refusals: every set", numbers: 512 * 300, random: true, make: refusals },
    Group { name: "step: random", numbers: 180_000, random: true, make: step_random },
    Group { name: "step: one or two numbers spoiled", numbers: 200_000, random: true, make: step_spoiled },
    Group { name: "step: recordings word by word", numbers: 8_000, random: true, make: step_walk },
    Group { name: "step: every word", numbers: 65_536, random: false, make: every_word },
    Group { name: "cause: known ones", numbers: cause::CARDS, random: false, make: causes_known },
    Group { name: "cause: every two at once", numbers: cause::TOGETHER, random: true, make: causes_together },
    Group { name: "cause: every place", numbers: place::PLACES, random: true, make: every_place },
    Group { name: "cause: every short text", numbers: place::SHORT, random: false, make: short_texts },
    Group { name: "cause: every text behind #", numbers: place::LONG, random: false, make: long_texts },
    Group { name: "run: random", numbers: 120_000, random: true, make: run_random },
    Group { name: "run: every room", numbers: 2_000, random: true, make: run_rooms },
    Group { name: "run: in parts", numbers: 2_000, random: true, make: run_in_parts },
    Group { name: "run: long", numbers: 150, random: true, make: run_long },
    Group { name: "run: wrong word behind the stop", numbers: 5_000, random: true, make: wrong_word_behind },
    Group { name: "step and run: messages on ]", numbers: 4_000, random: true, make: scan_messages },
    Group { name: "step and run: unsound scans", numbers: 5_000, random: true, make: scan_broken },
    Group { name: "step and run: neighbours", numbers: 2_500, random: true, make: neighbours_messages },
    Group { name: "step: neighbours word by word", numbers: 4_000, random: true, make: neighbours_walk },
    Group { name: "run: neighbours", numbers: 15_000, random: true, make: neighbours_run },
    Group { name: "run: neighbours ignored", numbers: 40_000, random: true, make: neighbours_ignored },
    Group { name: "step: both zeros", numbers: zero::ZEROS, random: true, make: zeros_known },
    Group { name: "step: both zeros word by word", numbers: 4_000, random: true, make: zeros_walk },
    Group { name: "run and normal form: both zeros", numbers: 10_000, random: true, make: zeros_run },
    Group { name: "step and run: revisions", numbers: 5_000, random: true, make: revisions },
    Group { name: "run and normal form: every data", numbers: 100_000, random: false, make: every_data },
    Group { name: "run and normal form: every pair", numbers: 1 << 14, random: false, make: every_pair },
    Group { name: "normal form: random", numbers: 150_000, random: true, make: normal_form_random },
    Group { name: "normal form: every room", numbers: 2_000, random: true, make: normal_form_rooms },
    Group { name: "normal form: long", numbers: 200, random: true, make: normal_form_long },
    Group { name: "write: random", numbers: 250_000, random: true, make: write_random },
    Group { name: "write: every room", numbers: 6_000, random: true, make: write_rooms },
    Group { name: "line: random", numbers: 250_000, random: true, make: line_random },
    Group { name: "line: every room", numbers: 3_000, random: true, make: line_rooms },
    Group {
        name: "write and line: minus zero",
        numbers: write::ASKED,
        random: false,
        make: minus_zeros_asked,
    },
    Group { name: "read: random", numbers: 220_000, random: true, make: read_random },
    Group { name: "read: babble", numbers: 120_000, random: true, make: read_babble },
    Group { name: "read: every data", numbers: 100_000, random: false, make: read_every },
    Group { name: "read: scans and near them", numbers: 3_000, random: true, make: read_scans },
    Group { name: "read: every edit, address and room", numbers: 24, random: true, make: read_edits },
    Group { name: "lookup: random", numbers: 150_000, random: true, make: lookup_random },
    Group { name: "lookup: every identifier and room", numbers: 500, random: true, make: lookup_every },
    Group { name: "bus: every set of refusals", numbers: 128 * 60, random: true, make: bus_refusals },
    Group { name: "bus: each number of a row", numbers: 23 * 180, random: true, make: bus_numbers },
    Group { name: "bus: unfit cards", numbers: 11 * 240, random: true, make: bus_unfit },
    Group { name: "bus: lengths", numbers: 2_800, random: true, make: bus_lengths },
    Group { name: "bus: no card", numbers: 4_000, random: true, make: bus_no_card },
    Group { name: "bus: random", numbers: 17_000, random: true, make: bus_random },
    Group { name: "bus: one or two numbers spoiled", numbers: 8_000, random: true, make: bus_spoiled },
    Group { name: "bus: offers at several cards", numbers: 1_500, random: true, make: bus_offers },
    Group { name: "bus: every room", numbers: 600, random: true, make: bus_rooms },
    Group { name: "bus: in parts", numbers: 1_000, random: true, make: bus_in_parts },
    Group { name: "bus: long", numbers: 30, random: true, make: bus_long },
    Group { name: "bus: one card as by run", numbers: 10_000, random: true, make: bus_single },
    Group { name: "bus: each card alone", numbers: 4_000, random: true, make: bus_alone },
    Group { name: "trace: every set of refusals", numbers: 128 * 200, random: true, make: trace_refusals },
    Group { name: "trace: random", numbers: 40_000, random: true, make: trace_random },
    Group { name: "trace: one or two numbers spoiled", numbers: 30_000, random: true, make: trace_spoiled },
    Group { name: "trace: every length", numbers: 800, random: true, make: trace_lengths },
    Group { name: "trace: every room", numbers: 1_500, random: true, make: trace_rooms },
    Group { name: "trace: in parts", numbers: 3_000, random: true, make: trace_in_parts },
    Group { name: "trace: long", numbers: 100, random: true, make: trace_long },
];
