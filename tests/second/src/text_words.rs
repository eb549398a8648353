//! The words of a text: refusal 17.

use values::Refusal;

const MOST_LENGTH: usize = 4096;
const MOST_VARIABLE: u16 = 15;
const MOST_DELAY: u16 = 255;

/// What stands in the grammar for any name, and for any number.
pub const NAME: &str = "NAME";
pub const NUMBER: &str = "NUMBER";

const RUNS: [&str; 10] = [
    "ok", "tick", "if", "then", "else", "end", "while", "do", "repeat", "until",
];

/// A sign stands before those that it begins with.
const SIGNS: [&str; 15] = [
    ":=", "||", "|", "@", ";", "{", "}", "(", ")", "!", "+", "-", "=", "<", "&",
];

pub struct Word {
    /// Its first byte in the text.
    pub place: usize,
    /// Its spelling, or what stands for its spelling in the grammar.
    pub sign: &'static str,
    /// The number that it is or that is in it.
    pub number: Option<u16>,
}

/// All words of a text, or the first thing that is none.
pub fn words(text: &[u8]) -> Result<Vec<Word>, Refusal> {
    if text.len() > MOST_LENGTH {
        return Err(Refusal::new(17, MOST_LENGTH));
    }
    let mut words: Vec<Word> = Vec::new();
    let mut place = 0;
    while place < text.len() {
        let rest = &text[place..];
        if matches!(rest[0], b' ' | b'\n') {
            place += 1;
            continue;
        }
        let most = most_number(words.last());
        let ((sign, number), length) = word(rest, most).ok_or(Refusal::new(17, place))?;
        words.push(Word {
            place,
            sign,
            number,
        });
        place += length;
    }
    Ok(words)
}

/// The highest number that may stand after a word.
fn most_number(last: Option<&Word>) -> u16 {
    match last.map(|word| word.sign) {
        Some("@" | "tick") => MOST_DELAY,
        _ => u16::MAX,
    }
}

type Meaning = (&'static str, Option<u16>);

/// The word that a text begins with, and its length.
fn word(text: &[u8], most: u16) -> Option<(Meaning, usize)> {
    let is_other = |byte: &u8| !byte.is_ascii_alphanumeric();
    let length = text.iter().position(is_other).unwrap_or(text.len());
    if length > 0 {
        return Some((run(&text[..length], most)?, length));
    }
    let sign = SIGNS
        .iter()
        .find(|sign| text.starts_with(sign.as_bytes()))?;
    Some(((sign, None), sign.len()))
}

/// The meaning of a run of letters and digits.
fn run(run: &[u8], most: u16) -> Option<Meaning> {
    match run {
        [b'0'..=b'9', ..] => Some((NUMBER, Some(number(run, most)?))),
        [b'x', digits @ ..] => Some((NAME, Some(number(digits, MOST_VARIABLE)?))),
        _ => {
            let known = RUNS.iter().find(|known| known.as_bytes() == run)?;
            Some((known, None))
        }
    }
}

/// A number without leading zeros, up to `most`.
fn number(digits: &[u8], most: u16) -> Option<u16> {
    let number: u16 = std::str::from_utf8(digits).ok()?.parse().ok()?;
    // Rust's own reading lets zeros pass before the number.
    let plain = digits == b"0" || !digits.starts_with(b"0");
    (plain && number <= most).then_some(number)
}
