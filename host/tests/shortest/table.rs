//! Document 01's table of types and its rules on opening and closing once more, and the messages that some characters
//! can spell. It is written from the paper for this test, so that neither side is asked what it should have heard.

/// The parts of a message, as the writer is asked for them.
#[derive(Clone, Copy, Debug, PartialEq, Eq, Hash)]
pub(crate) struct Message {
    pub(crate) letter: u8,
    pub(crate) address: u32,
    pub(crate) identifier: u8,
    pub(crate) sign: u8,
    pub(crate) number: i32,
    pub(crate) decimals: u32,
    pub(crate) minus_zero: u32,
}

impl Message {
    fn new(letter: u8, address: u32, identifier: u8, sign: u8) -> Message {
        Message { letter, address, identifier, sign, number: 0, decimals: 0, minus_zero: 0 }
    }

    /// "0 to 3 is that many decimals, positive; 5 to 8 is code minus 5 decimals, negative."
    fn with_data(self, digits: u32, code: u32) -> Message {
        let below = code >= 5;
        let number = if below { -(digits as i32) } else { digits as i32 };
        Message { number, decimals: code % 5, minus_zero: u32::from(below && digits == 0), ..self }
    }
}

/// What characters are, by the paper's table of types.
pub(crate) enum Read {
    /// No well-formed message begins so.
    Wrong,
    /// A message begins so and has more characters.
    Part,
    /// A message that `*` closes.
    Whole(Message),
}

/// Reads characters with no `*` behind them.
pub(crate) fn read(characters: &[u8]) -> Read {
    let Some((&letter, rest)) = characters.split_first() else { return Read::Part };
    let (digits, rest) = rest.split_at(rest.iter().take_while(|c| c.is_ascii_digit()).count());
    // "1 to 99 as one or two digits, `7` or `07`; not 0". Characters that end with the letter, or with one digit
    // behind it, can have another digit next.
    let is_address = value(digits) > 0 || rest.is_empty() && digits.len() < 2;
    if !matches!(letter, b'L' | b'R') || digits.len() > 2 || !is_address {
        return Read::Wrong;
    }
    let Some((&identifier, body)) = rest.split_first() else { return Read::Part };
    let message = |sign| Message::new(letter, value(digits), identifier, sign);
    match (identifier, body) {
        // "Identifiers are codes 33 to 126, no digit, no `*`": the digits have been taken.
        (..33 | 127.. | b'*', _) => Read::Wrong,
        (_, []) => Read::Part,
        (b'?', [b'?']) => Read::Whole(message(b'?')),
        (b'?', _) => Read::Wrong,
        (_, &[sign @ (b'?' | b'+' | b'-' | b'I')]) => Read::Whole(message(sign)),
        (_, [b'#', data @ ..]) => read_data(message(b'#'), data),
        _ => Read::Wrong,
    }
}

/// "The five digits are a number of four digits and a code [..]. Code 4 or 9 is not well formed."
fn read_data(message: Message, data: &[u8]) -> Read {
    match data {
        _ if data.len() > 5 || !data.iter().all(u8::is_ascii_digit) => Read::Wrong,
        [_, _, _, _, b'4' | b'9'] => Read::Wrong,
        [_, _, _, _, _] => Read::Whole(message.with_data(value(&data[..4]), value(&data[4..]))),
        _ => Read::Part,
    }
}

fn value(digits: &[u8]) -> u32 {
    digits.iter().fold(0, |number, digit| number * 10 + u32::from(digit - b'0'))
}

/// "A message holds at most 10 characters before `*`".
const MOST: usize = 10;

/// The characters of an open message, none where there is none.
#[derive(Clone, Copy, Default)]
pub(crate) struct Open {
    characters: [u8; MOST],
    length: usize,
}

impl Open {
    /// Takes a word, and gives the message that it closes, where that is well formed.
    pub(crate) fn take(&mut self, word: u16) -> Option<Message> {
        let byte = u8::try_from(word).ok().filter(|byte| byte.count_ones() % 2 == 0);
        match (self.length, byte.map(|byte| byte & 0x7F)) {
            // "With no message open, a word other than `L` or `R` in good parity is dropped."
            (0, Some(letter @ (b'L' | b'R'))) => self.add(letter),
            (0, _) => {}
            // "a byte in bad parity, or 256, drops the message"
            (_, None) => self.length = 0,
            (_, Some(b'*')) => return self.close(),
            // "an eleventh drops the message and is itself used up"
            (MOST, _) => self.length = 0,
            (_, Some(character)) => self.add(character),
        }
        None
    }

    fn add(&mut self, character: u8) {
        self.characters[self.length] = character;
        self.length += 1;
    }

    fn close(&mut self) -> Option<Message> {
        let length = std::mem::take(&mut self.length);
        match read(&self.characters[..length]) {
            Read::Whole(message) => Some(message),
            Read::Part | Read::Wrong => None,
        }
    }
}

/// Each alphabet has these characters and one set of [`DIGITS`]: both letters, all signs, a plain identifier, and a
/// blank, which is no identifier. The `*` stands behind every string and in none.
pub(crate) const CHARACTERS: &[u8] = b"LR?+-#IM ";
/// The identifiers among them, but for `?`: letters and signs are identifiers too.
const IDENTIFIERS: &[u8] = b"LR+-#IM";
/// Each set has 0, for leading zeros and addresses such as 10. Together they have every code, so minus zero with each
/// count of decimals; 4 and 9 are no codes. All ten digits in one set would give over 100 million messages.
pub(crate) const DIGITS: [&[u8]; 5] = [b"015", b"026", b"037", b"048", b"09"];

/// Every message that is spelled with these digits.
pub(crate) fn messages(digits: &[u8]) -> Vec<Message> {
    let spelled = |number: &u32| number.to_string().bytes().all(|digit| digits.contains(&digit));
    let mut data = Vec::new();
    for code in [0, 1, 2, 3, 5, 6, 7, 8].into_iter().filter(spelled) {
        data.extend((0..=9_999).filter(spelled).map(|number| (number, code)));
    }
    let mut messages = Vec::new();
    for (letter, address) in (1..=99).filter(spelled).flat_map(|address| [(b'L', address), (b'R', address)]) {
        messages.push(Message::new(letter, address, b'?', b'?'));
        for &identifier in IDENTIFIERS {
            let message = |sign| Message::new(letter, address, identifier, sign);
            messages.extend(b"?+-I".map(message));
            messages.extend(data.iter().map(|&(number, code)| message(b'#').with_data(number, code)));
        }
    }
    messages
}

/// How many messages and how many strings there are with so many digits, 0 among them, and so many codes.
pub(crate) fn counts(digits: usize, codes: usize) -> (usize, usize) {
    // Addresses under 10, which have two spellings, and from 10.
    let (short, long) = (digits - 1, (digits - 1) * digits);
    let spellings = 2 * (2 * short + long);
    let bodies = 1 + IDENTIFIERS.len() * (4 + digits.pow(4) * codes);
    // The beginnings: nothing, a letter, one digit, two; then an identifier, `#`, one to four digits; a whole message.
    let heads = 1 + 2 + 2 * digits + 2 * (short + long);
    let parts = 1 + IDENTIFIERS.len() * (1 + (0..=4).map(|count| digits.pow(count)).sum::<usize>());
    let beginnings = heads + spellings * (parts + bodies);
    // Every character comes next to each of them.
    (2 * (short + long) * bodies, 1 + beginnings * (CHARACTERS.len() + digits))
}
