//! The words of a long text, in the tool's own language.

/// What stands in the grammar for any name, and for any number.
pub const NAME: &str = "NAME";
pub const NUMBER: &str = "NUMBER";

const RUNS: [&str; 18] = [
    "ok",
    "tick",
    "if",
    "then",
    "else",
    "end",
    "while",
    "do",
    "repeat",
    "until",
    "loop",
    "exit",
    "call",
    "not",
    "constant",
    "word",
    "array",
    "procedure",
];

/// A sign stands before those that it begins with.
const SIGNS: [&str; 22] = [
    ":=", "||", "|", "!=", "!", "<=", "<", ">=", ">", "=", "@", ";", ",", "{", "}", "(", ")", "[",
    "]", "+", "-", "&",
];

#[derive(Clone, Debug)]
pub struct Word {
    /// Its first byte in the text.
    pub place: usize,
    /// Its spelling, or what stands for its spelling in the grammar.
    pub sign: &'static str,
    pub text: String,
    /// The number that it is.
    pub number: Option<u16>,
}

/// All words of a text, or the place of the first thing that is none.
pub fn words(text: &str) -> Result<Vec<Word>, usize> {
    let mut words = Vec::new();
    let mut place = 0;
    while let Some(first) = text[place..].chars().next() {
        let rest = &text[place..];
        let run = |fits: fn(char) -> bool| rest.find(|letter| !fits(letter)).unwrap_or(rest.len());
        if " \n\t\r".contains(first) {
            place += 1;
            continue;
        }
        if first == '#' {
            place += run(|letter| letter != '\n');
            continue;
        }
        let length = match run(|letter| letter.is_ascii_alphanumeric() || letter == '_') {
            0 => SIGNS
                .iter()
                .find(|sign| rest.starts_with(*sign))
                .map(|sign| sign.len()),
            length => Some(length),
        };
        let text = &rest[..length.ok_or(place)?];
        let (sign, number) = meaning(text).ok_or(place)?;
        words.push(Word {
            place,
            sign,
            text: text.to_string(),
            number,
        });
        place += text.len();
    }
    Ok(words)
}

fn meaning(text: &str) -> Option<(&'static str, Option<u16>)> {
    let known = RUNS.iter().chain(&SIGNS).find(|known| **known == text);
    if let Some(known) = known {
        return Some((known, None));
    }
    if text.starts_with(|first: char| first.is_ascii_digit()) {
        return Some((NUMBER, Some(number(text)?)));
    }
    let small = |letter: char| !letter.is_ascii_uppercase();
    text.chars().all(small).then_some((NAME, None))
}

/// A number without leading zeros, or one of hexadecimal digits.
fn number(digits: &str) -> Option<u16> {
    match digits.strip_prefix("0x") {
        Some(digits) => u16::from_str_radix(digits, 16).ok(),
        None if digits != "0" && digits.starts_with('0') => None,
        None => digits.parse().ok(),
    }
}
