//! Running the groups, with what the environment and the command line ask for, and telling of a
//! case that failed.

use crate::case::{parse, Case};
use crate::compare::{compare, Agreed};
use crate::drawn::Drawn;
use crate::groups::{Bench, Failure, GROUPS};
use kavtziron_host::gen::Rng;
use std::process::ExitCode;
use std::sync::atomic::{AtomicBool, AtomicU64, Ordering};
use std::sync::Mutex;
use std::time::{Instant, SystemTime, UNIX_EPOCH};

const FIXED_SEED: u64 = 0x6B61_767A_6972_6F6E;

struct Found {
    group: &'static str,
    number: u64,
    failure: Box<Failure>,
}

/// Runs a group over its numbers on all processors. Gives the count of cases; what was drawn at random is
/// counted too.
fn run_group(at: usize, seed: u64, numbers: u64, traced: bool, drawn: &Mutex<Drawn>) -> (u64, Option<Found>) {
    const BLOCK: u64 = 64;
    let group = &GROUPS[at];
    let next = AtomicU64::new(0);
    let stop = AtomicBool::new(false);
    let count = AtomicU64::new(0);
    let found: Mutex<Option<Found>> = Mutex::new(None);
    let threads = if traced { 1 } else { std::thread::available_parallelism().map_or(1, |n| n.get()) };
    std::thread::scope(|scope| {
        for _ in 0..threads {
            scope.spawn(|| {
                let mut bench = Bench::new(traced);
                'blocks: while !stop.load(Ordering::Relaxed) {
                    let from = next.fetch_add(BLOCK, Ordering::Relaxed);
                    if from >= numbers {
                        break;
                    }
                    for number in from..(from + BLOCK).min(numbers) {
                        let mut rng = Rng::of_case(seed, at as u64, number);
                        if let Err(failure) = (group.make)(&mut rng, number, &mut bench) {
                            stop.store(true, Ordering::Relaxed);
                            let mut found = found.lock().unwrap();
                            if found.as_ref().is_none_or(|other| other.number > number) {
                                *found = Some(Found { group: group.name, number, failure });
                            }
                            break 'blocks;
                        }
                    }
                }
                count.fetch_add(bench.count, Ordering::Relaxed);
                // What is known beforehand is always drawn.
                if group.random {
                    drawn.lock().unwrap().add(&bench.drawn);
                }
            });
        }
    });
    (count.into_inner(), found.into_inner().unwrap())
}

/// A smaller case that fails too, if the cards, words or bytes can be made fewer.
fn smaller(mut failure: Failure) -> Failure {
    let try_case = |case: Case| compare(&case).err().map(|what| Failure { what, case });
    let mut card = 0;
    while let Some(next) = failure.case.without_card(card) {
        match try_case(next) {
            Some(small) => failure = small,
            None => card += 1,
        }
    }
    let mut length = failure.case.words().map_or(0, |words| words.len());
    while length > 0 {
        let mut from = 0;
        loop {
            let mut next = failure.case.clone();
            let Some(words) = next.words().filter(|words| from + length <= words.len()) else {
                break;
            };
            words.drain(from..from + length);
            match try_case(next) {
                Some(small) => failure = small,
                None => from += length,
            }
        }
        length /= 2;
    }
    failure
}

fn report(seed: u64, found: Found) {
    let Found { group, number, failure } = found;
    println!("FAILED  {group}, number {number}, seed {seed}");
    println!("  {}", failure.what);
    let small = smaller(Failure { what: failure.what.clone(), case: failure.case.clone() });
    let whole = failure.case.to_string();
    let _ = std::fs::create_dir_all("target");
    let _ = std::fs::write("target/failing-case.txt", format!("{}\n", small.case));
    if small.case != failure.case {
        println!("  made smaller: {}", small.what);
    }
    println!("  replay: KAV_REPLAY='{}'", small.case);
    println!("  or: KAV_REPLAY=@target/failing-case.txt (found at {} characters)", whole.len());
}

fn number_of(name: &str) -> Option<u64> {
    let text = std::env::var(name).ok()?;
    Some(match text.strip_prefix("0x") {
        Some(digits) => u64::from_str_radix(digits, 16).expect("a number"),
        None => text.parse().expect("a number"),
    })
}

fn replay(text: &str) -> ExitCode {
    let text = match text.strip_prefix('@') {
        Some(path) => std::fs::read_to_string(path).expect("the case's file"),
        None => text.to_string(),
    };
    let case = parse(&text);
    assert_eq!(parse(&case.to_string()), case);
    match compare(&case) {
        Ok(Agreed { result, cause, .. }) => {
            println!(
                "both sides agree: {result}{}",
                cause.map_or(String::new(), |it| format!(", cause {it:?}"))
            );
            ExitCode::SUCCESS
        }
        Err(what) => {
            println!("they differ: {what}");
            ExitCode::FAILURE
        }
    }
}

/// What the groups are run with.
struct Turn {
    seed: u64,
    times: u64,
    part: u64,
    fixed: bool,
    traced: bool,
}

/// All groups with one seed, or of each the first of so many parts. Gives the count, or what was found.
fn all(turn: &Turn, drawn: &Mutex<Drawn>) -> Result<u64, Found> {
    let Turn { seed, times, part, fixed, traced } = *turn;
    let mut total = 0;
    for (at, group) in GROUPS.iter().enumerate() {
        if !fixed && !group.random {
            continue;
        }
        let start = Instant::now();
        let numbers = if group.random { group.numbers * times } else { group.numbers }.div_ceil(part);
        let (count, found) = run_group(at, seed, numbers, traced, drawn);
        total += count;
        if let Some(found) = found {
            return Err(found);
        }
        println!("  {:38} {count:>9} cases {:>7.2} s", group.name, start.elapsed().as_secs_f64());
    }
    Ok(total)
}

pub(crate) fn main() -> ExitCode {
    if let Ok(text) = std::env::var("KAV_REPLAY") {
        return replay(&text);
    }
    if std::env::args().any(|arg| arg == "--list") {
        return ExitCode::SUCCESS;
    }
    let traced = std::env::var_os("KAV_TRACE").is_some();
    let times = number_of("KAV_CASES").unwrap_or(1);
    let part = number_of("KAV_PART").unwrap_or(1).max(1);
    let fresh = || SystemTime::now().duration_since(UNIX_EPOCH).map_or(1, |time| time.as_nanos() as u64);
    let seeds = number_of("KAV_SEED").map_or_else(|| vec![FIXED_SEED, fresh()], |seed| vec![seed]);
    let start = Instant::now();
    let mut total = 0;
    let drawn = Mutex::new(Drawn::default());
    for (turn, &seed) in seeds.iter().enumerate() {
        println!("seed {seed} (KAV_SEED={seed} repeats it)");
        match all(&Turn { seed, times, part, fixed: turn == 0, traced }, &drawn) {
            Ok(count) => total += count,
            Err(found) => {
                report(seed, found);
                return ExitCode::FAILURE;
            }
        }
    }
    let drawn = drawn.into_inner().unwrap();
    let all = drawn.print();
    let seeds = seeds.len() as u64;
    let often = [drawn.bus.print(seeds, times, part), drawn.trace.print(seeds, times, part)];
    if !all || often.contains(&false) {
        return ExitCode::FAILURE;
    }
    println!("differential: {total} cases agree, {:.1} s", start.elapsed().as_secs_f64());
    ExitCode::SUCCESS
}
