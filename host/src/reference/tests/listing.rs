//! The line of a message, and the listing byte for byte, across buffers and where a read fails.

use super::words;
use crate::reference::message::parse;
use crate::reference::{calls, listing, Refusal};

#[test]
fn the_line() {
    let message = |text: &str| parse(text.as_bytes()).unwrap();
    for (at, heard, line) in [
        (6, "L07M?", "6 L7 M ? -\n"),
        (16, "L7m#00231", "16 L7 m # 00231\n"),
        (0, "R99??", "0 R99 ? ? -\n"),
        (u64::MAX, "L10m#99998", "18446744073709551615 L10 m # 99998\n"),
        (10, "L1m#00002", "10 L1 m # 00002\n"),
        (10, "L1m#00007", "10 L1 m # 00007\n"),
        (1, "L1#+", "1 L1 # + -\n"),
        (1, "L1+-", "1 L1 + - -\n"),
        (1, "L1II", "1 L1 I I -\n"),
    ] {
        for room in 0..40 {
            let mut out = vec![0xEE; room];
            let got = listing::line(at, &message(heard), &mut out);
            if room < line.len() {
                assert_eq!(got, Err(Refusal::Room));
            } else {
                assert_eq!(got, Ok(line.len()));
                assert_eq!(&out[..line.len()], line.as_bytes());
            }
            assert!(out[got.unwrap_or(0)..].iter().all(|&byte| byte == 0xEE));
        }
    }
    assert_eq!(calls::line(0, b'L', 0, b'm', b'?', 0, 0, 0, &mut []), -7, "7 before 5");
    assert_eq!(calls::line(0, b'L', 1, b'm', b'?', 0, 0, 0, &mut []), -5);
    assert_eq!(calls::line(0, b'L', 1, b'm', b'?', i32::MIN, u32::MAX, u32::MAX, &mut [0; 11]), 11);
}

fn listed(input: &[u8]) -> String {
    let mut output = Vec::new();
    listing::list(input, &mut output).unwrap();
    // The same from a pipe that gives one byte at a time.
    let mut slow = Vec::new();
    listing::list(OneByOne(input), &mut slow).unwrap();
    assert_eq!(output, slow);
    String::from_utf8(output).unwrap()
}

struct OneByOne<'a>(&'a [u8]);

impl std::io::Read for OneByOne<'_> {
    fn read(&mut self, buffer: &mut [u8]) -> std::io::Result<usize> {
        let one = 1.min(buffer.len());
        std::io::Read::read(&mut self.0, &mut buffer[..one])
    }
}

fn bytes_of(words: &[u16]) -> Vec<u8> {
    words.iter().flat_map(|word| word.to_le_bytes()).collect()
}

#[test]
fn the_listing() {
    let sent = words("xL07M?*L7m#00231*");
    let whole = "AT CARD ID KIND DATA\n6 L7 M ? -\n16 L7 m # 00231\nEND 2\n";
    assert_eq!(listed(&bytes_of(&sent)), whole);
    let open = &whole[..whole.len() - "END 2\n".len()];
    assert_eq!(listed(&[&bytes_of(&sent)[..], &[0xCC]].concat()), format!("{open}ODD\n"));
    assert_eq!(listed(&[&bytes_of(&sent)[..], &[1, 1]].concat()), format!("{open}BAD 17\n"));
    // BAD wins over ODD, and what lies behind it isn't heard.
    let far = [&bytes_of(&sent)[..], &[0xFF, 0xFF], &bytes_of(&sent), &[0]].concat();
    assert_eq!(listed(&far), format!("{open}BAD 17\n"));
    assert_eq!(listed(&[]), "AT CARD ID KIND DATA\nEND 0\n");
    assert_eq!(listed(&[7]), "AT CARD ID KIND DATA\nODD\n");
    assert_eq!(listed(&bytes_of(&[257])), "AT CARD ID KIND DATA\nBAD 0\n");
    assert_eq!(listed(&bytes_of(&[256])), "AT CARD ID KIND DATA\nEND 0\n");
}

#[test]
fn a_listing_across_buffers() {
    for before in listing::BUFFER - 8..listing::BUFFER + 3 {
        let sent = [vec![256; before], words("L7M?*")].concat();
        let line = format!("AT CARD ID KIND DATA\n{} L7 M ? -\n", before + 4);
        assert_eq!(listed(&bytes_of(&sent)), format!("{line}END 1\n"));
        assert_eq!(listed(&[&bytes_of(&sent)[..], &[0]].concat()), format!("{line}ODD\n"));
        assert_eq!(listed(&bytes_of(&[&sent[..], &[300]].concat())), format!("{line}BAD {}\n", before + 5));
    }
    let full = vec![0; listing::BUFFER * 4];
    assert_eq!(listed(&full), "AT CARD ID KIND DATA\nEND 0\n");
}

#[test]
fn a_read_that_fails_has_no_last_line() {
    struct Fails(bool);
    impl std::io::Read for Fails {
        fn read(&mut self, buffer: &mut [u8]) -> std::io::Result<usize> {
            if std::mem::replace(&mut self.0, true) {
                return Err(std::io::Error::other("no more"));
            }
            let bytes = bytes_of(&words("L7??*"));
            buffer[..bytes.len()].copy_from_slice(&bytes);
            Ok(bytes.len())
        }
    }
    let mut output = Vec::new();
    assert!(listing::list(Fails(false), &mut output).is_err());
    assert_eq!(output, listing::HEADING);
}
