//! The proved archive beside the plain Rust, on the same input in the same process, in turns.
//!
//! ```text
//! cargo run --release --bin bench                     # the tables
//! cargo run --release --bin bench -- --rounds 31
//! cargo run --release --bin bench -- --quick          # 10^4 words alone, to see that it runs
//! bench --once run proved 100000 64                   # one call, for callgrind
//! bench --once "bus 32" proved 100000 64 0             # the same with no word lent: the checks alone
//! bench --record 1000000 recording.bin                # a recording for the listing, two bytes a word
//! ```

#[cfg(not(kav_linked))]
fn main() {
    println!("bench: no archive (../target/staticlib/libabi.a or KAV_ARCHIVE), nothing to measure");
}

#[cfg(kav_linked)]
fn main() {
    linked::main();
}

#[cfg(kav_linked)]
mod linked {
    use kavtziron_host::gen::{self, Bus, Rng, World};
    use kavtziron_host::{abi, reference::calls};
    use std::fs::File;
    use std::hint::black_box;
    use std::path::{Path, PathBuf};
    use std::process::{Command, Stdio};
    use std::time::Instant;

    const SEED: u64 = 20_240_229;
    const LENGTHS: [usize; 3] = [10_000, 100_000, 1_000_000];
    const SHEETS: [usize; 2] = [64, 4];

    /// Everything that a measurement lends, made once. The cards have the first revision, which answers both
    /// zeros alike, so that words and replies are those from before there were two.
    struct Input {
        world: World,
        words: Vec<u16>,
        /// A card that names five identifiers, and a recording whose every fourth message queries them.
        scanned: (World, Vec<u16>),
        /// Thirty-two cards, and recordings of messages for the first alone and for all of them.
        bus: Bus,
        first: Vec<u16>,
        spread: Vec<u16>,
        /// Messages to write, so that as many bytes come out as there are words.
        asked: Vec<(u8, u32, u8, u8, i32, u32)>,
        /// Replies to read, of as many bytes together.
        replies: Vec<Vec<u8>>,
        /// Identifiers to look up, a tenth as many as there are words.
        identifiers: Vec<u8>,
        out: Vec<u8>,
        normal: Vec<u16>,
    }

    impl Input {
        fn new(length: usize, rows: usize) -> Input {
            let mut rng = Rng::new(SEED ^ (length as u64) << 8 ^ rows as u64);
            let world = World::with_rows(&mut rng, rows, rows);
            let words = without_scans(gen::recording(&mut rng, &world, length, gen::REALISTIC));
            let codes = gen::identifiers();
            let mut bytes = 0;
            let mut asked = Vec::new();
            while bytes < length {
                let kind = rng.pick(b"?+-##I");
                let address = rng.within(1, 99) as u32;
                let number = rng.within(-9_999, 9_999);
                asked.push((rng.pick(b"LR"), address, rng.pick(&codes), kind, number, rng.below(4) as u32));
                bytes += if kind == b'#' { 11 } else { 6 };
            }
            let mut bytes = 0;
            let mut replies = Vec::new();
            while bytes < length {
                let reply: Vec<u8> = gen::reply(&mut rng).into_iter().map(gen::on_line).collect();
                bytes += reply.len();
                replies.push(reply);
            }
            let identifiers = (0..length / 10).map(|_| rng.pick(&codes)).collect();
            let (out, normal) = (vec![0; length * 7 + 33], vec![0; length]);
            let scanned = scanned(&mut rng, length, rows);
            let bus = Bus::plain(&mut rng, &world, 32);
            let [first, spread] = [1, 32].map(|cards| without_scans(bus.talk(&mut rng, cards, length)));
            Input { world, words, scanned, bus, first, spread, asked, replies, identifiers, out, normal }
        }

        /// Only so many words of each recording are lent.
        fn lend(&mut self, count: usize) {
            let Input { words, scanned: (_, scans), first, spread, .. } = self;
            [words, scans, first, spread].into_iter().for_each(|words| words.truncate(count));
        }
    }

    /// Every `]` becomes another identifier, so that the figures can be set beside those of a card without a scan.
    fn without_scans(mut words: Vec<u16>) -> Vec<u16> {
        let [scan, another] = [gen::SCAN, b'^'].map(|code| u16::from(gen::on_line(code)));
        words.iter_mut().filter(|word| **word == scan).for_each(|word| *word = another);
        words
    }

    fn scanned(rng: &mut Rng, length: usize, rows: usize) -> (World, Vec<u16>) {
        let mut world = World::with_rows(rng, rows, rows);
        world.scan(rng, 5);
        assert_eq!(world.card[16], 5, "no row can be read");
        let words = gen::scanning(rng, &world, length);
        (world, words)
    }

    #[derive(Clone, Copy, PartialEq)]
    enum Side {
        Proved,
        Reference,
    }

    /// One measured call over the whole input. The result is compared between the sides.
    type Measured = fn(Side, &mut Input) -> u64;

    fn play(side: Side, world: &World, words: &[u16], out: &mut [u8]) -> u64 {
        let World { card, bench, maker, values, .. } = world;
        let (mut card, mut values) = (card.clone(), values.clone());
        let mut counts = [0; 2];
        let call = if side == Side::Proved { abi::run } else { calls::run };
        let result = call(&mut card, bench, maker, &mut values, words, out, &mut counts);
        assert_eq!((result, counts[0]), (0, words.len() as u64));
        counts[1]
    }

    fn run(side: Side, input: &mut Input) -> u64 {
        play(side, &input.world, &input.words, &mut input.out)
    }

    fn scan(side: Side, input: &mut Input) -> u64 {
        play(side, &input.scanned.0, &input.scanned.1, &mut input.out)
    }

    /// The first card of the bench by itself, by the call for one card.
    fn bus_run(side: Side, input: &mut Input) -> u64 {
        play(side, &input.world, &input.first, &mut input.out)
    }

    fn play_bus(side: Side, bus: &Bus, count: usize, words: &[u16], out: &mut [u8]) -> u64 {
        let (mut cards, mut values) = (bus.cards[..23 * count].to_vec(), bus.values[..128 * count].to_vec());
        let mut counts = [0; 2];
        let call = if side == Side::Proved { abi::bus_run } else { calls::bus_run };
        let World { bench, maker, .. } = &bus.world;
        let result = call(&mut cards, bench, maker, &mut values, words, out, &mut counts);
        assert_eq!((result, counts[0]), (0, words.len() as u64));
        counts[1]
    }

    fn bus_1(side: Side, input: &mut Input) -> u64 {
        play_bus(side, &input.bus, 1, &input.first, &mut input.out)
    }

    fn bus_32(side: Side, input: &mut Input) -> u64 {
        play_bus(side, &input.bus, 32, &input.first, &mut input.out)
    }

    fn bus_spread(side: Side, input: &mut Input) -> u64 {
        play_bus(side, &input.bus, 32, &input.spread, &mut input.out)
    }

    fn step(side: Side, input: &mut Input) -> u64 {
        let World { card, bench, maker, values, .. } = &input.world;
        let (mut card, mut values) = (card.clone(), values.clone());
        let call = if side == Side::Proved { abi::step } else { calls::step };
        let (mut out, mut cause) = ([0; 33], [0; 2]);
        let mut sum = 0;
        for &word in &input.words {
            sum += call(&mut card, bench, maker, &mut values, word, &mut out, &mut cause);
            // The causes are compared too.
            sum += i64::from(16 * cause[0] + cause[1]) << 32;
        }
        sum as u64
    }

    fn normal_form(side: Side, input: &mut Input) -> u64 {
        let call = if side == Side::Proved { abi::normal_form } else { calls::normal_form };
        call(&input.words, &mut input.normal) as u64
    }

    fn write(side: Side, input: &mut Input) -> u64 {
        let call = if side == Side::Proved { abi::write } else { calls::write };
        let mut out = [0; 11];
        let mut sum = 0;
        for &(letter, address, identifier, kind, number, decimals) in &input.asked {
            sum += call(letter, address, identifier, kind, number, decimals, 0, black_box(&mut out));
        }
        sum as u64
    }

    fn read(side: Side, input: &mut Input) -> u64 {
        let call = if side == Side::Proved { abi::read } else { calls::read };
        let mut answer = [0; 15];
        let mut sum = 0u64;
        for reply in &input.replies {
            sum = sum.wrapping_add(call(reply, black_box(&mut answer)) as u64 + answer[5] as u64);
        }
        sum
    }

    fn line(side: Side, input: &mut Input) -> u64 {
        let call = if side == Side::Proved { abi::line } else { calls::line };
        let mut out = [0; 40];
        let mut sum = 0;
        for (at, &(letter, address, identifier, kind, number, decimals)) in input.asked.iter().enumerate() {
            let at = at as u64 * 9;
            sum += call(at, letter, address, identifier, kind, number, decimals, 0, black_box(&mut out));
        }
        sum as u64
    }

    fn lookup(side: Side, input: &mut Input) -> u64 {
        let call = if side == Side::Proved { abi::lookup } else { calls::lookup };
        let mut row = [0; 6];
        let mut sum = 0;
        for &identifier in &input.identifiers {
            sum += call(&input.world.bench, &input.world.maker, identifier, black_box(&mut row));
        }
        sum as u64
    }

    const CALLS: [(&str, Measured); 12] = [
        ("run", run),
        ("normal form", normal_form),
        ("step", step),
        ("write", write),
        ("read", read),
        ("line", line),
        ("lookup", lookup),
        ("scan", scan),
        ("bus run", bus_run),
        ("bus 1", bus_1),
        ("bus 32", bus_32),
        ("bus spread", bus_spread),
    ];

    fn median(mut times: Vec<f64>) -> f64 {
        times.sort_by(f64::total_cmp);
        times[times.len() / 2]
    }

    /// Median seconds of both sides, in turns, the first round thrown away.
    fn measure(call: Measured, input: &mut Input, rounds: usize) -> (f64, f64) {
        assert_eq!(call(Side::Proved, input), call(Side::Reference, input), "the sides differ");
        let (mut proved, mut reference) = (Vec::new(), Vec::new());
        for round in 0..rounds {
            let order = if round % 2 == 0 {
                [Side::Proved, Side::Reference]
            } else {
                [Side::Reference, Side::Proved]
            };
            for side in order {
                let start = Instant::now();
                black_box(call(side, black_box(input)));
                let time = start.elapsed().as_secs_f64();
                if side == Side::Proved { &mut proved } else { &mut reference }.push(time);
            }
        }
        (median(proved), median(reference))
    }

    fn row(name: &str, words: usize, rows: &str, proved: f64, reference: f64) {
        let per_word = |time: f64| time * 1e9 / words as f64;
        println!(
            "{name:12} {words:>9} {rows:>5} {:>11.2} {:>11.2} {:>8.2}",
            per_word(proved),
            per_word(reference),
            proved / reference
        );
    }

    fn heading(what: &str) {
        println!("{what}");
        println!(
            "{:12} {:>9} {:>5} {:>11} {:>11} {:>8}",
            "call", "words", "rows", "proved", "reference", "ratio"
        );
    }

    fn tables(rounds: usize, lengths: &[usize]) {
        heading("nanoseconds per word, median; ratio = proved / reference");
        for (name, call) in CALLS {
            for &length in lengths {
                for rows in SHEETS {
                    let bus = name.starts_with("bus");
                    let with_sheets = bus || matches!(name, "run" | "step" | "lookup" | "scan");
                    if !with_sheets && rows != SHEETS[0] {
                        continue;
                    }
                    let mut input = Input::new(length, rows);
                    let rounds = match length {
                        1_000_000 if bus || matches!(name, "step" | "lookup") => 3,
                        1_000_000 => rounds.min(11),
                        100_000 => rounds,
                        _ => rounds * 5,
                    };
                    let (proved, reference) = measure(call, &mut input, rounds);
                    let shown = if with_sheets { rows.to_string() } else { "-".into() };
                    row(name, length, &shown, proved, reference);
                }
            }
        }
    }

    fn record(words: &[u16], path: &Path) {
        let bytes: Vec<u8> = words.iter().flat_map(|word| word.to_le_bytes()).collect();
        std::fs::write(path, bytes).expect("a place for the recording");
    }

    /// A program over a file, its output to nowhere or to be compared.
    fn listing(program: &Path, file: &Path) -> f64 {
        let start = Instant::now();
        let status = Command::new(program)
            .stdin(File::open(file).expect("the recording"))
            .stdout(Stdio::null())
            .status()
            .unwrap_or_else(|error| panic!("{}: {error}", program.display()));
        assert!(status.success());
        start.elapsed().as_secs_f64()
    }

    fn output_of(program: &Path, file: &Path) -> Vec<u8> {
        let input = File::open(file).expect("the recording");
        Command::new(program).stdin(input).output().expect("the program runs").stdout
    }

    /// Program against program, by wall time over the same file.
    fn listings(rounds: usize, lengths: &[usize]) {
        let proved = std::env::var_os("KAV_LIST")
            .map_or_else(|| Path::new(env!("CARGO_MANIFEST_DIR")).join("../target/bin/list"), PathBuf::from);
        let reference = std::env::current_exe().unwrap().with_file_name("list_reference");
        if !proved.is_file() || !reference.is_file() {
            println!();
            println!("listing: left out; needs {} (KAV_LIST) and {}", proved.display(), reference.display());
            println!("         (`tools/build.sh list`, `cargo build --release --bins`)");
            return;
        }
        println!();
        heading("the listing, program against program: wall time with start, output to /dev/null");
        for &length in lengths {
            let file = std::env::temp_dir().join(format!("kav-{}-{length}.bin", std::process::id()));
            record(&Input::new(length, 64).words, &file);
            assert!(output_of(&proved, &file) == output_of(&reference, &file), "the listings differ");
            let (mut first, mut second) = (Vec::new(), Vec::new());
            for _ in 0..rounds {
                first.push(listing(&proved, &file));
                second.push(listing(&reference, &file));
            }
            row("list", length, "-", median(first), median(second));
            let _ = std::fs::remove_file(file);
        }
    }

    /// One call and nothing else of weight, to count its instructions.
    fn once(args: &[String]) {
        let [name, side, length, rows, lent @ ..] = args else {
            panic!("--once CALL proved|reference WORDS ROWS [WORDS LENT]");
        };
        let call = CALLS.iter().find(|call| call.0 == name).expect("the name of a call").1;
        let side = match side.as_str() {
            "proved" => Side::Proved,
            "reference" => Side::Reference,
            _ => panic!("proved or reference"),
        };
        let mut input = Input::new(length.parse().unwrap(), rows.parse().unwrap());
        lent.iter().for_each(|count| input.lend(count.parse().unwrap()));
        println!("{}", call(side, &mut input));
    }

    pub fn main() {
        let args: Vec<String> = std::env::args().skip(1).collect();
        match args.first().map(String::as_str) {
            Some("--once") => once(&args[1..]),
            Some("--record") => {
                record(&Input::new(args[1].parse().unwrap(), 64).words, Path::new(&args[2]));
            }
            Some("--rounds") => {
                let rounds = args[1].parse().unwrap();
                tables(rounds, &LENGTHS);
                listings(rounds, &LENGTHS);
            }
            Some("--quick") => {
                tables(3, &LENGTHS[..1]);
                listings(3, &LENGTHS[..1]);
            }
            None => {
                tables(15, &LENGTHS);
                listings(15, &LENGTHS);
            }
            Some(other) => panic!("no option {other}"),
        }
    }
}
