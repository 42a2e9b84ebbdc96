//! The digit writer in use beside the one that it replaced, by division, both proved and compiled by the same toolchain, over every number from
//! -9,999 to 9,999 with 0 to 3 decimals, in one process, in turns. `../digits.sh` runs it and counts instructions too.
//!
//! ```text
//! digits                       # compares both with the rule, then times them
//! digits --compare             # compares alone
//! digits --once kav_digits     # every input once with this writer, for callgrind
//! ```

#[cfg(not(kav_measured))]
fn main() {
    eprintln!(
        "digits: no archive (../target/staticlib/libmeasure.a: `tools/build.sh measure`), nothing to measure"
    );
    std::process::exit(1);
}

#[cfg(kav_measured)]
fn main() {
    measured::main();
}

#[cfg(kav_measured)]
mod measured {
    use kavtziron_host::gen::Rng;
    use std::hint::black_box;
    use std::time::Instant;

    extern "C" {
        fn kav_digits(number: i32, decimals: u8, out: &mut [u8; 5]);
        fn kav_digits_by_division(number: i32, decimals: u8, out: &mut [u8; 5]);
    }

    #[derive(Clone, Copy)]
    enum Writer {
        InUse,
        ByDivision,
    }

    const WRITERS: [(&str, Writer); 2] =
        [("kav_digits", Writer::InUse), ("kav_digits_by_division", Writer::ByDivision)];

    const ROUNDS: usize = 201;

    /// Every number in its turn. The functions take any number, and write five bytes where they are told.
    fn pass(writer: Writer, inputs: &[(i32, u8)], out: &mut [u8; 5]) {
        match writer {
            Writer::InUse => {
                for &(number, decimals) in inputs {
                    unsafe { kav_digits(number, decimals, black_box(&mut *out)) };
                }
            }
            Writer::ByDivision => {
                for &(number, decimals) in inputs {
                    unsafe { kav_digits_by_division(number, decimals, black_box(&mut *out)) };
                }
            }
        }
    }

    fn written(writer: Writer, number: i32, decimals: u8) -> [u8; 5] {
        let mut out = [0; 5];
        pass(writer, &[(number, decimals)], &mut out);
        out
    }

    /// The paper's five digits; of more than four digits, or more than one of code, the last.
    fn spelled(number: i32, decimals: u8) -> [u8; 5] {
        let code = u32::from(decimals) + if number < 0 { 5 } else { 0 };
        let text = format!("{:04}{}", number.unsigned_abs() % 10_000, code % 10);
        text.into_bytes().try_into().expect("five digits")
    }

    /// Every number that a message can have, with every count of decimals: 79,996.
    fn inputs() -> Vec<(i32, u8)> {
        (0..=3).flat_map(|decimals| (-9_999..=9_999).map(move |number| (number, decimals))).collect()
    }

    fn compare(number: i32, decimals: u8) {
        for (name, writer) in WRITERS {
            let (found, expected) = (written(writer, number, decimals), spelled(number, decimals));
            assert_eq!(found, expected, "{name} writes {number} with {decimals} decimals otherwise");
        }
    }

    /// All that is measured, and beyond it every count of decimals with numbers from end to end.
    fn compare_all(inputs: &[(i32, u8)]) -> usize {
        inputs.iter().for_each(|&(number, decimals)| compare(number, decimals));
        let powers = (0..31).map(|bit| 1 << bit).chain((0..10).map(|power| 10_i32.pow(power)));
        let mut numbers: Vec<i32> = powers.flat_map(|n: i32| [n - 1, n, n + 1]).collect();
        let mut rng = Rng::new(1);
        numbers.extend((0..1_000).map(|_| rng.next() as i32));
        numbers.extend([i32::MAX - 1, i32::MAX, i32::MIN]);
        numbers.extend(numbers.clone().iter().map(|n| n.wrapping_neg()));
        for &number in &numbers {
            (0..=255).for_each(|decimals| compare(number, decimals));
        }
        inputs.len() + numbers.len() * 256
    }

    fn median(mut times: Vec<f64>) -> f64 {
        times.sort_by(f64::total_cmp);
        times[times.len() / 2]
    }

    /// Median nanoseconds for a number of each writer, in turns.
    fn time(inputs: &[(i32, u8)]) -> [f64; 2] {
        let mut times = [Vec::new(), Vec::new()];
        for round in 0..ROUNDS {
            for turn in 0..2 {
                let which = (round + turn) % 2;
                let start = Instant::now();
                pass(WRITERS[which].1, black_box(inputs), &mut [0; 5]);
                times[which].push(start.elapsed().as_secs_f64() * 1e9 / inputs.len() as f64);
            }
        }
        times.map(median)
    }

    fn row(order: &str, [new, old]: [f64; 2]) {
        println!("{order:34} {new:>9.2} {old:>12.2} {:>7.2}", new / old);
    }

    pub fn main() {
        let args: Vec<String> = std::env::args().skip(1).collect();
        let mut inputs = inputs();
        match args.iter().map(String::as_str).collect::<Vec<_>>()[..] {
            [] => (),
            ["--compare"] => return println!("{} inputs compared", compare_all(&inputs)),
            ["--once", name] => {
                let writer = WRITERS.iter().find(|writer| writer.0 == name).expect("the name of a writer").1;
                return pass(writer, &inputs, &mut [0; 5]);
            }
            _ => panic!("no argument, --compare or --once WRITER"),
        }
        println!("{} inputs compared, {} of them measured", compare_all(&inputs), inputs.len());
        println!("{:34} {:>9} {:>12} {:>7}", "for each number", "in use", "by division", "ratio");
        row("nanoseconds, numbers rising", time(&inputs));
        let mut rng = Rng::new(2);
        for last in (1..inputs.len()).rev() {
            inputs.swap(last, rng.below(last + 1));
        }
        row("nanoseconds, numbers shuffled", time(&inputs));
    }
}
