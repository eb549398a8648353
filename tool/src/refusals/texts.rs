//! Refusals 17 and 18, of texts.

use super::{asking, Mark, Report};
use crate::input::Given;
use crate::layout::TEXT;
use crate::types::{Beside, Span};
use crate::{product, source};

/// Refusal 17: a word outside the language, or a text that is too long.
pub fn of_word(mut report: Report, text: &[u8]) -> Report {
    let place = report.refusal.place;
    let word = source::word_at(text, place);
    report.marks = vec![Mark::new(text, word, "")];
    // The place of a text that is too long is the most that one may have.
    let (rule, remedy) = match text.len() > place && place == TEXT {
        true => {
            report.found = Some(format!("{} bytes", text.len()));
            let remedy = "make it shorter, or take it as a long one";
            ("a short text has at most 4,096 bytes", remedy.into())
        }
        false => outside(&text[word.start..word.end], &text[word.end..]),
    };
    report.rule = rule.to_string();
    report.remedy = remedy;
    report
}

const BYTE_ORDER_MARK: &[u8] = "\u{feff}".as_bytes();

/// What is told of a word outside the language, with what stands behind it: much
/// that people type by habit has another form here, or none.
fn outside(word: &[u8], rest: &[u8]) -> (&'static str, String) {
    let (rule, remedy) = match word {
        b"\r" if rest.starts_with(b"\n") => (
            "this line ends with a carriage return and a line feed",
            "save the text with line feeds alone",
        ),
        b"\r" | b"\t" => (
            "this is a tab or a carriage return",
            "separate words by spaces and line feeds",
        ),
        BYTE_ORDER_MARK => (
            "the text begins with a byte order mark",
            "save it as plain text, without the mark",
        ),
        b"#" => (
            "short texts have no comments",
            "leave it out, or take the text as a long one",
        ),
        b">" if rest.starts_with(b"=") => (
            "there is no sign for 'at least'",
            "write (a < b) = 0 for a >= b",
        ),
        b">" => (
            "there is no sign for 'greater'",
            "write it the other way round, b < a for a > b",
        ),
        b"loop" | b"exit" | b"call" | b"procedure" => (
            "short texts have no words for loop, exit and procedures",
            "take the text as a long one, which has them",
        ),
        [b'[' | b']'] | [b'a', b'0'..=b'9', ..] => (
            "short texts have no words for arrays",
            "take the text as a long one, which has them",
        ),
        [b'x', ..] => ("this is no variable", "use x0 to x15"),
        [b'0'..=b'9', ..] => (
            "this is no number, or too big a one",
            "write it in decimal without leading zeros, at most 65535, \
             right after @ and tick at most 255",
        ),
        _ if word.iter().any(u8::is_ascii_uppercase) => return capitals(word),
        _ => ("this is no word of the language", WORDS),
    };
    (rule, remedy.to_string())
}

const WORDS: &str = "use ok tick if then else while do repeat until end, x0 to x15, numbers \
    and := @ ; || { } ( ) ! + - = < & |";

/// A word with capital letters: the same in small ones, if the product knows that.
fn capitals(word: &[u8]) -> (&'static str, String) {
    let small = word.to_ascii_lowercase();
    let met = product::read_text(Beside::NOTHING, &small).err();
    let remedy = match met.is_some_and(|met| met.number == 17) {
        true => WORDS.to_string(),
        false => format!("write {}", String::from_utf8_lossy(&small)),
    };
    ("texts have no capital letters", remedy)
}

/// Refusal 18: a word with which the text can't go on.
pub fn of_grammar(mut report: Report, given: &Given) -> Report {
    let text = &given.bytes;
    let place = report.refusal.place;
    let mut word = source::word_at(text, place);
    if place >= text.len() {
        report.rule = "the text ends too early".to_string();
        word = end_of_words(text);
    }
    let fitting = asking::words_that_fit(given.beside(), &text[..place]);
    if !fitting.is_empty() {
        report.remedy = format!("what can stand here: {}", fitting.join("  "));
    }
    report.marks = vec![Mark::new(text, word, "")];
    report
}

/// The place after the last word.
pub fn end_of_words(text: &[u8]) -> Span {
    let last = text.iter().rposition(|byte| !byte.is_ascii_whitespace());
    let end = last.map_or(0, |last| last + 1);
    Span { start: end, end }
}
