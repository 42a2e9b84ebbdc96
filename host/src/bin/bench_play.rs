//! How long `kav play` takes beside one bare `kav_run` over the same words, and how much memory beside its input.
//!
//! ```text
//! cargo build --release --features archive --bins && target/release/bench_play              # recordings of its own
//! target/release/bench_play RECORDING.words                                                 # this one
//! ```
//!
//! The card is a DCP 100 as `kav play` takes it by default. "play" is all but reading and writing, in this process; "command" is
//! the program `kav` beside this one, its start, the reading of a file and the output to /dev/null.

#[cfg(not(kav_linked))]
fn main() {
    println!("bench_play: no archive (../target/staticlib/libabi.a or KAV_ARCHIVE), nothing to measure");
}

#[cfg(kav_linked)]
fn main() {
    linked::main();
}

#[cfg(kav_linked)]
mod linked {
    use kavtziron_host::abi;
    use kavtziron_host::gen::{self, Rng, World};
    use kavtziron_host::kav::{self, Alphabet, Bench, Failure, Lines, Settings};
    use std::fs;
    use std::hint::black_box;
    use std::path::{Path, PathBuf};
    use std::process::{Command, Stdio};
    use std::time::{Duration, Instant};

    const SEED: u64 = 20_261_117;
    const ROUNDS: usize = 15;

    /// Takes the lines as the output does, and throws them away.
    struct Sink(Vec<u8>);

    impl Lines for Sink {
        fn lines(&mut self, text: &[u8]) -> Result<bool, Failure> {
            self.0.clear();
            self.0.extend_from_slice(text);
            Ok(true)
        }
    }

    fn median(mut times: Vec<f64>) -> f64 {
        times.sort_by(f64::total_cmp);
        times[times.len() / 2]
    }

    fn timed(mut work: impl FnMut()) -> f64 {
        let start = Instant::now();
        work();
        start.elapsed().as_secs_f64()
    }

    /// What a master might have said to this card.
    fn recording(bench: &Bench, length: usize) -> Vec<u16> {
        let Bench { cards: card, bench_sheet: bench, maker_sheet: maker, values, .. } = bench.clone();
        let rows = gen::rows_of(&maker).collect();
        let world = World { card, bench, maker, values, rows };
        gen::recording(&mut Rng::new(SEED), &world, length, gen::REALISTIC)
    }

    fn save(words: &[u16]) -> PathBuf {
        let path = std::env::temp_dir().join(format!("kav-bench-{}.words", std::process::id()));
        let bytes: Vec<u8> = words.iter().flat_map(|word| word.to_le_bytes()).collect();
        fs::write(&path, bytes).expect("a temporary file");
        path
    }

    fn command(file: &Path) -> Command {
        let program = std::env::current_exe().expect("this program's name").with_file_name("kav");
        let mut command = Command::new(program);
        command.arg("play").arg(file).stdout(Stdio::null());
        command
    }

    /// The most memory that the command had, in KiB, as far as it could be seen while it ran.
    fn peak(file: &Path) -> u64 {
        let mut child = command(file).spawn().expect("kav beside this program");
        let status = format!("/proc/{}/status", child.id());
        let mut peak = 0;
        while child.try_wait().expect("its status").is_none() {
            let text = fs::read_to_string(&status).unwrap_or_default();
            let line = text.lines().find_map(|line| line.strip_prefix("VmHWM:"));
            let seen = line.and_then(|line| line.trim().trim_end_matches(" kB").parse().ok());
            peak = peak.max(seen.unwrap_or(0));
            std::thread::sleep(Duration::from_micros(200));
        }
        peak
    }

    fn measure(alphabet: &Alphabet, bench: &Bench, words: &[u16], file: &Path) {
        let mut out = vec![0; words.len() * 7 + 33];
        let (mut bare, mut play, mut whole) = (Vec::new(), Vec::new(), Vec::new());
        for _ in 0..ROUNDS {
            bare.push(timed(|| {
                let Bench { mut cards, bench_sheet, maker_sheet, mut values, .. } = bench.clone();
                let mut counts = [0; 2];
                abi::run(
                    &mut cards,
                    &bench_sheet,
                    &maker_sheet,
                    &mut values,
                    black_box(words),
                    &mut out,
                    &mut counts,
                );
                assert_eq!(counts[0] as usize, words.len());
            }));
            play.push(timed(|| {
                let mut sink = Sink(Vec::new());
                kav::play(alphabet, bench.clone(), black_box(words), &mut sink).expect("a sound bench");
                black_box(sink.0);
            }));
            whole.push(timed(|| assert!(command(file).status().expect("kav beside this program").success())));
        }
        let [bare, play, whole] = [bare, play, whole].map(median);
        let [a, b, c] = [bare, play, whole].map(|seconds| seconds * 1e3);
        let (d, e) = (play / bare, whole / bare);
        let beside = peak(file).saturating_sub(words.len() as u64 * 2 / 1024);
        println!("{:>10} {a:>9.2} {b:>9.2} {d:>6.2} {c:>9.2} {e:>6.2} {beside:>12}", words.len());
    }

    pub fn main() {
        let bench = Bench::new(&Settings::default(), None).expect("a DCP 100");
        let alphabet = Alphabet::ask();
        println!("     words    run ms   play ms  ratio  whole ms  ratio   KiB beside");
        if let Some(file) = std::env::args_os().nth(1) {
            let bytes = fs::read(&file).expect("a recording");
            let words: Vec<u16> =
                bytes.chunks_exact(2).map(|pair| u16::from_le_bytes([pair[0], pair[1]])).collect();
            measure(&alphabet, &bench, &words, Path::new(&file));
            return;
        }
        for length in [100_000, 1_000_000, 4_000_000] {
            let words = recording(&bench, length);
            let file = save(&words);
            measure(&alphabet, &bench, &words, &file);
            fs::remove_file(&file).expect("the temporary file");
        }
    }
}
