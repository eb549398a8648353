//! A program's text to its bytes: refusals 17 and 18.
//!
//! The way is words (`text_words`), a reading by the grammar (`text_grammar`,
//! `reading`), and here the nodes of that reading.

use crate::kinds::{row, Sort};
use crate::reading::{Link, Reading};
use crate::text_grammar::grammar;
use crate::text_words::{words, Word, NAME};
use values::Refusal;

/// The bytes of the program that a text is. The program itself is unchecked
/// and may have far more nodes than an accepted one.
pub fn program(text: &[u8]) -> Result<Vec<u8>, Refusal> {
    let words = words(text)?;
    let place = |broken: usize| words.get(broken).map_or(text.len(), |word| word.place);
    let signs: Vec<&'static str> = words.iter().map(|word| word.sign).collect();
    let reading = Reading::of(grammar(), &signs);
    let reading = reading.map_err(|broken| Refusal::new(18, place(broken)))?;
    Ok(bytes(&reading, &words))
}

/// The nodes of a reading, each before its children. A text nests far deeper
/// than a program may, so the phrases that are due stand in a list.
fn bytes(reading: &Reading, words: &[Word]) -> Vec<u8> {
    let mut bytes = Vec::new();
    let mut due = vec![reading.whole()];
    while let Some(link) = due.pop() {
        let phrase = reading.phrase(link);
        if let Some(kind) = phrase.rule.kind {
            let own: Vec<&Word> = phrase.words.iter().map(|word| &words[*word]).collect();
            bytes.extend(node(kind, &own));
        }
        due.extend(in_node_order(reading, phrase.parts).into_iter().rev());
    }
    bytes
}

/// A node; a name tells its n, and so does a number where there is no delay.
fn node(kind: u8, words: &[&Word]) -> [u8; 4] {
    let row = row(kind).expect("the grammar names known kinds");
    let (mut delay, mut n) = (0, 0);
    for word in words {
        match word.number {
            Some(number) if row.uses_delay && word.sign != NAME => delay = number as u8,
            Some(number) => n = number,
            None => {}
        }
    }
    let [low, high] = n.to_le_bytes();
    [kind, delay, low, high]
}

/// The parts of a phrase as children: in every kind an expression comes
/// first, wherever its text stands.
fn in_node_order(reading: &Reading, mut parts: Vec<Link>) -> Vec<Link> {
    parts.sort_by_key(|&part| grammar().sort(reading.rule(part).left) == Sort::Statement);
    parts
}
