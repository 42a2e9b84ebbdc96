//! `kav_model` beside the tables of docs/models.md, which have the manuals' lines: the sheet, the initial values and the scan of each
//! instrument, in every room, and nothing written where it is refused.

#[cfg(kav_linked)]
mod linked {
    use kavtziron_host::abi;
    use std::fs;

    struct Instrument {
        letter: u8,
        sheet: Vec<i32>,
        values: Vec<i32>,
        scan: Vec<u8>,
    }

    /// The text between two headings.
    fn section<'a>(text: &'a str, heading: &str) -> &'a str {
        let start = text.find(heading).unwrap_or_else(|| panic!("no heading {heading}")) + heading.len();
        let rest = &text[start..];
        &rest[..rest.find("\n## ").unwrap_or(rest.len())]
    }

    fn cells(line: &str) -> Vec<&str> {
        line.trim_matches('|').split(" | ").map(str::trim).collect()
    }

    /// Identifier, code, parameter, two places in the manual, access, decimals, step, least, greatest, initial value.
    fn instrument(text: &str, heading: &str, scan: &str) -> Instrument {
        let letter = heading.as_bytes()[heading.len() - 2];
        let (mut sheet, mut values) = (Vec::new(), vec![0; 128]);
        for line in section(text, heading).lines().filter(|line| line.starts_with("| `")) {
            let cells = cells(line);
            let number =
                |at: usize| cells[at].split(' ').next().and_then(|n| n.parse::<i32>().ok()).expect(line);
            sheet.extend([1, 5, 6, 7, 8, 9].map(number));
            values[number(1) as usize] = number(10);
        }
        let line = section(text, "## Identifiers for the scan of request 1\n");
        let line = line.lines().find(|line| line.starts_with(scan)).expect(scan);
        let scan = cells(line)[1]
            .split('`')
            .filter(|name| name.len() == 1 && *name != " ")
            .map(|name| name.as_bytes()[0]);
        Instrument { letter, sheet, values, scan: scan.collect() }
    }

    fn instruments() -> [Instrument; 3] {
        let text = fs::read_to_string("../docs/models.md").expect("docs/models.md");
        [
            instrument(&text, "## DCP 100 controller, letter `L`", "| DCP 100 controller, two outputs |"),
            instrument(&text, "## DCP 100 programmer, letter `R`", "| DCP 100 programmer |"),
            instrument(&text, "## UDI 1500, letter `L`", "| UDI 1500 |"),
        ]
    }

    const GUARD: i32 = 0x5A5A_5A5A;

    /// A slice of guards with so many numbers at its front.
    fn laid(numbers: &[i32], length: usize) -> Vec<i32> {
        let mut slice = vec![GUARD; length];
        slice[..numbers.len()].copy_from_slice(numbers);
        slice
    }

    /// The call in a room of these lengths, beside what it should leave.
    fn try_room(model: u32, instrument: Option<&Instrument>, lengths: [usize; 3]) {
        let mut lent = lengths.map(|length| vec![GUARD; length]);
        let [sheet, values, setup] = &mut lent;
        let result = abi::model(model, sheet, values, setup);
        let untouched = lengths.map(|length| vec![GUARD; length]);
        let (wanted, left) = match instrument {
            None => (0, untouched),
            Some(it) => {
                let mut setup = vec![i32::from(it.letter), it.scan.len() as i32];
                setup.extend(it.scan.iter().map(|code| i32::from(*code)));
                setup.resize(7, 0);
                let parts = [&it.sheet, &it.values, &setup];
                if parts.iter().zip(lengths).all(|(part, length)| part.len() <= length) {
                    let [a, b, c] = parts;
                    let [i, j, k] = lengths;
                    (it.sheet.len() as i64, [laid(a, i), laid(b, j), laid(c, k)])
                } else {
                    (-5, untouched)
                }
            }
        };
        assert_eq!((result, lent), (wanted, left), "model {model} in a room of {lengths:?}");
    }

    #[test]
    fn tables() {
        let instruments = instruments();
        assert_eq!(
            instruments.each_ref().map(|it| it.sheet.len()),
            [168, 132, 114],
            "rows of docs/models.md"
        );
        assert_eq!(instruments.each_ref().map(|it| it.scan.len()), [5, 0, 5], "scans of docs/models.md");
        for model in (0..8).chain([255, 256, 257, 1 << 16 | 1, u32::MAX]) {
            let instrument = (model as usize).checked_sub(1).and_then(|at| instruments.get(at));
            for sheet in [0, 1, 113, 114, 115, 131, 132, 133, 167, 168, 169, 384] {
                for values in [0, 127, 128, 129, 4096] {
                    for setup in [0, 6, 7, 8] {
                        try_room(model, instrument, [sheet, values, setup]);
                    }
                }
            }
        }
    }

    /// What it gives is served: each row that can be read is queried, and the scan.
    #[test]
    fn served() {
        for (at, it) in instruments().iter().enumerate() {
            let (mut sheet, mut values, mut setup) = (vec![0; 384], vec![0; 128], vec![0; 7]);
            let length = abi::model(at as u32 + 1, &mut sheet, &mut values, &mut setup);
            sheet.truncate(length as usize);
            let mut card = [0; 23];
            (card[0], card[1], card[22]) = (setup[0], 7, 1);
            card[16..22].copy_from_slice(&setup[1..]);
            let rows = it.sheet.chunks_exact(6);
            for row in rows {
                let (identifier, access, decimals, value) =
                    (row[0] as u8, row[1], row[2], it.values[row[0] as usize]);
                let mut words = [0; 11];
                let count = abi::write(it.letter, 7, identifier, b'?', 0, 0, 0, &mut words);
                let words: Vec<u16> = words[..count as usize].iter().map(|byte| u16::from(*byte)).collect();
                let (mut out, mut counts, mut answer) = ([0; 33], [0; 2], [0; 15]);
                let result = abi::run(&mut card, &[], &sheet, &mut values, &words, &mut out, &mut counts);
                assert_eq!(result, 0, "instrument {}", at + 1);
                assert_eq!(abi::read(&out[..counts[1] as usize], &mut answer), 15);
                let wanted = match access {
                    3 => [i32::from(identifier), i32::from(b'N'), 1, 0, 0],
                    _ => [i32::from(identifier), i32::from(b'A'), 1, value, decimals],
                };
                assert_eq!(answer[2..7], wanted, "instrument {}", at + 1);
            }
        }
    }
}

#[cfg(not(kav_linked))]
#[test]
fn nothing() {
    println!("NOTHING was tried: no archive");
}
