//! The proved program `list` beside the reference's listing, over whole inputs: short and long,
//! spoiled, with wrong words and lone bytes, through a file and through a pipe that gives few bytes at
//! a time. `KAV_LIST` names the program; otherwise `../target/bin/list`, if it is there.

use kavtziron_host::gen::{self, Rng, World};
use kavtziron_host::reference::listing::{list, BUFFER};
use std::io::Write;
use std::path::{Path, PathBuf};
use std::process::{Command, Stdio};

const SEED: u64 = 41;

fn program() -> Option<PathBuf> {
    if let Some(path) = std::env::var_os("KAV_LIST") {
        return Some(PathBuf::from(path));
    }
    let path = Path::new(env!("CARGO_MANIFEST_DIR")).join("../target/bin/list");
    path.is_file().then_some(path)
}

fn expected(input: &[u8]) -> Vec<u8> {
    let mut output = Vec::new();
    list(input, &mut output).unwrap();
    output
}

/// What a program writes when it gets the input in pieces.
fn listed(program: &Path, input: &[u8], piece: usize) -> Vec<u8> {
    let mut child = Command::new(program)
        .stdin(Stdio::piped())
        .stdout(Stdio::piped())
        .spawn()
        .unwrap_or_else(|error| panic!("{}: {error}", program.display()));
    let mut pipe = child.stdin.take().unwrap();
    let input = input.to_vec();
    let feeder = std::thread::spawn(move || {
        for part in input.chunks(piece.max(1)) {
            // A program that has seen a wrong word may have gone.
            if pipe.write_all(part).and_then(|()| pipe.flush()).is_err() {
                break;
            }
        }
    });
    let output = child.wait_with_output().unwrap();
    feeder.join().unwrap();
    assert!(output.status.success(), "{:?}", output.status);
    output.stdout
}

fn check_all(program: &Path) {
    let mut rng = Rng::new(SEED);
    for number in 0..300 {
        let world = World::new(&mut rng);
        let length = match number % 6 {
            0 => number / 6,
            1 => BUFFER - 3 + rng.below(7),
            2 => 2 * BUFFER - 3 + rng.below(7),
            3 => rng.below(40),
            4 => rng.below(3 * BUFFER),
            _ => rng.below(500),
        };
        let mut words = if rng.percent(20) {
            gen::babble(&mut rng, length)
        } else {
            gen::recording(&mut rng, &world, length, gen::ROUGH)
        };
        if rng.percent(30) {
            gen::zeros(&mut rng, &mut words);
        }
        for _ in 0..rng.pick(&[0, 0, 0, 1, 2]) {
            if !words.is_empty() {
                let at = rng.below(words.len());
                words[at] = gen::wrong_word(&mut rng);
            }
        }
        let mut bytes: Vec<u8> = words.iter().flat_map(|word| word.to_le_bytes()).collect();
        if rng.percent(20) {
            bytes.push(rng.next() as u8);
        }
        let piece = rng.pick(&[bytes.len(), 8_192, 4_096, 1_000, 4_095, 101]);
        let (got, wanted) = (listed(program, &bytes, piece), expected(&bytes));
        if got != wanted {
            let path = Path::new(env!("CARGO_MANIFEST_DIR")).join("target/failing-input.bin");
            std::fs::write(&path, &bytes).unwrap();
            panic!("number {number}, seed {SEED}: the listings of {} differ", path.display());
        }
    }
}

#[test]
fn the_proved_program() {
    match program() {
        Some(program) => check_all(&program),
        None => {
            let text = b"listing: no program (../target/bin/list or KAV_LIST), NOTHING COMPARED\n";
            std::io::stderr().write_all(text).unwrap();
        }
    }
}

#[test]
fn the_reference_program() {
    check_all(Path::new(env!("CARGO_BIN_EXE_list_reference")));
}
