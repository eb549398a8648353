//! Why the tool's own reader takes no text: by the numbers of the product's refusals
//! of the same kind, 17 and 18.

use super::texts::end_of_words;
use super::{plain, Mark, Report};
use crate::input::Given;
use crate::source::{self, Broken, KEYWORDS, SIGNS};
use crate::types::{Refusal, Span};

/// The report of a text that neither the product nor the tool reads.
pub fn of_long(given: &Given, broken: &Broken) -> Report {
    let text = &given.bytes;
    let place = broken.span.start;
    let mut report = plain(&given.name, Refusal::new(broken.number, place));
    report.rule = broken.rule.clone();
    let fitting = || words_that_fit(&text[..place]);
    report.remedy = match &broken.remedy {
        Some(remedy) => remedy.clone(),
        None if begins_statement(text, broken.span) && fitting().contains(&";") => {
            "put ; before this statement".to_string()
        }
        None => format!("what can stand here: {}", fitting().join("  ")),
    };
    let span = match place >= text.len() {
        true => end_of_words(text),
        false => broken.span,
    };
    report.marks = vec![Mark::new(text, span, "")];
    if let Some((span, caption)) = &broken.other {
        report.marks.push(Mark::new(text, *span, caption));
    }
    report
}

/// Whether the word at a place may begin a statement.
fn begins_statement(text: &[u8], span: Span) -> bool {
    let begins = [
        "ok", "tick", "if", "while", "repeat", "loop", "exit", "call", "{",
    ];
    let word = String::from_utf8_lossy(&text[span.start..span.end]);
    let named = word.starts_with(|letter: char| letter.is_ascii_lowercase());
    begins.contains(&&*word) || named && !KEYWORDS.contains(&&*word)
}

/// The words with which the beginning of a text can go on.
fn words_that_fit(begun: &[u8]) -> Vec<&'static str> {
    // On a line of its own, for a comment may end the beginning.
    let at = begun.len() + 1;
    let fits = |word: &str| {
        let text = [begun, b"\n", word.as_bytes()].concat();
        source::read(&text)
            .err()
            .is_none_or(|broken| broken.span.start > at)
    };
    let names = source::names_in(begun);
    // What may stand in a text beside its words and signs, with an example of each.
    let mut named = vec![
        (names.word(0), "a word"),
        (format!("{} [", names.array(0)), "an array"),
        ("0".to_string(), "a number"),
        ("new_name".to_string(), "a new name"),
    ];
    if let Some(procedure) = names.procedures.first() {
        named.push((procedure.clone(), "a procedure"));
    }
    let mut all: Vec<&str> = KEYWORDS.into_iter().filter(|word| fits(word)).collect();
    let named = named.iter().filter(|(word, _)| fits(word));
    all.extend(named.map(|(_, name)| *name));
    all.extend(SIGNS.into_iter().filter(|word| fits(word)));
    if source::read(begun).is_ok() {
        all.push("the end of the text");
    }
    all
}
