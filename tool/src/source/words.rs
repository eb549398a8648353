//! The words of a text, one after another, with their places, and its comments.

use super::broken::{Broken, Read};
use super::habits;
use crate::types::Span;

#[derive(Clone, Copy, Debug)]
pub struct Word<'a> {
    pub text: &'a [u8],
    pub span: Span,
}

/// The words that name nothing: of statements, of expressions and of declarations.
pub const KEYWORDS: [&str; 18] = [
    "ok",
    "tick",
    "if",
    "then",
    "else",
    "while",
    "do",
    "repeat",
    "until",
    "end",
    "loop",
    "exit",
    "call",
    "not",
    "constant",
    "word",
    "array",
    "procedure",
];

/// The signs; one stands before those that it begins with.
pub const SIGNS: [&str; 22] = [
    ":=", "@", ";", "||", "{", "}", "(", ")", "[", "]", ",", "!=", "!", "+", "-", "=", "<=", "<",
    ">=", ">", "&", "|",
];

impl<'a> Word<'a> {
    /// A name as it stands in the text; keywords and numbers are none.
    pub fn name(self) -> Option<&'a str> {
        let text = std::str::from_utf8(self.text).ok()?;
        let first = text.chars().next()?;
        let names = first.is_ascii_lowercase() || first == '_';
        (names && !KEYWORDS.contains(&text)).then_some(text)
    }

    /// The number that the word is.
    pub fn number(self) -> Option<u16> {
        number(self.text)
    }

    pub fn shown(self) -> String {
        String::from_utf8_lossy(self.text).into_owned()
    }
}

/// A decimal number without leading zeros, or a hexadecimal one after 0x.
fn number(digits: &[u8]) -> Option<u16> {
    let text = std::str::from_utf8(digits).ok()?;
    match text.strip_prefix("0x") {
        Some(digits) => u16::from_str_radix(digits, 16).ok(),
        None if !digits.first()?.is_ascii_digit() => None,
        None if digits.len() > 1 && digits[0] == b'0' => None,
        None => text.parse().ok(),
    }
}

/// All words of a text and the places of its comments, or the first thing that is
/// none.
pub fn words(text: &[u8]) -> Read<(Vec<Word<'_>>, Vec<Span>)> {
    let (mut words, mut comments) = (Vec::new(), Vec::new());
    let mut at = 0;
    while at < text.len() {
        let rest = &text[at..];
        if matches!(rest[0], b' ' | b'\n' | b'\t' | b'\r') {
            at += 1;
            continue;
        }
        let (start, end) = (at, at + length(rest));
        let span = Span { start, end };
        at = end;
        if rest[0] == b'#' {
            comments.push(span);
            continue;
        }
        let word = Word {
            text: &text[start..end],
            span,
        };
        if !is_known(word) {
            let (rule, remedy) = habits::outside(word.text, &text[end..]);
            return Err(Broken::word(span, rule, remedy));
        }
        words.push(word);
    }
    Ok((words, comments))
}

/// The length of the word, or of the comment, that a text begins with.
fn length(rest: &[u8]) -> usize {
    let run = |fits: fn(u8) -> bool| rest.iter().take_while(|byte| fits(**byte)).count();
    match rest {
        [b'#', ..] => run(|byte| byte != b'\n'),
        [first, ..] if !first.is_ascii() => run(|byte| !byte.is_ascii()),
        [first, ..] if is_letter(*first) => run(is_letter),
        _ => {
            let sign = SIGNS.iter().find(|sign| rest.starts_with(sign.as_bytes()));
            sign.map_or(1, |sign| sign.len())
        }
    }
}

fn is_letter(byte: u8) -> bool {
    byte.is_ascii_alphanumeric() || byte == b'_'
}

fn is_known(word: Word) -> bool {
    let small = |byte: &u8| is_letter(*byte) && !byte.is_ascii_uppercase();
    match word.text[0] {
        b'0'..=b'9' => word.number().is_some(),
        first if is_letter(first) => word.text.iter().all(small),
        _ => SIGNS.iter().any(|sign| sign.as_bytes() == word.text),
    }
}

/// The word at a place, or the place alone.
pub fn word_at(text: &[u8], place: usize) -> Span {
    let start = place.min(text.len());
    let rest = &text[start..];
    let end = match rest.first() {
        None | Some(b'#') => (start + 1).min(text.len()),
        Some(_) => start + length(rest),
    };
    Span { start, end }
}
