//! An answer of a run, a word and a count, for a reader and for scripts.

use crate::json::Json;
use crate::names::Names;
use crate::store::{self, Store, OF_ARRAYS};
use crate::types::{Answer, Words};

/// Ended or open, the instant, and the words and elements that changed.
pub fn text(names: &Names, start: &Store, answer: &Answer, last: &Store, all: bool) -> String {
    let outcome = outcome(answer);
    format!("{outcome} at {}\n", answer.instant) + &changes(names, start, last, all)
}

/// The same of a run that has a state, with how busy it is.
pub fn text_of_state(
    names: &Names,
    start: &Store,
    answer: &Answer,
    last: &Store,
    busy: &str,
    all: bool,
) -> String {
    let outcome = outcome(answer);
    format!("{outcome} at {}, {busy}\n", answer.instant) + &changes(names, start, last, all)
}

/// What is said of the words of a functional circuit whose run is open.
pub const FREE: &str = "  until the end these are words in the making, not the program's\n";

/// The words and elements that changed; of those that didn't, all words, and all
/// elements that aren't 0, if asked for.
fn changes(names: &Names, start: &Store, last: &Store, all: bool) -> String {
    let told = |place: &usize| {
        let asked = all && (last[*place] != 0 || !OF_ARRAYS.contains(place));
        asked || start[*place] != last[*place]
    };
    let told: Vec<usize> = (0..store::LENGTH).filter(told).collect();
    let change = |place: usize| [start[place], last[place]];
    let mut rows = Vec::new();
    for run in told.chunk_by(|one, next| is_run(*one, *next) && change(*one) == change(*next)) {
        // Many elements that changed alike are told as one.
        let length = if run.len() >= ALIKE { run.len() } else { 1 };
        for row in run.chunks(length) {
            let name = match row {
                [first, .., last] => format!("{} to {}", names.at(*first), names.at(*last)),
                _ => names.at(row[0]),
            };
            rows.push((name, change(row[0])));
        }
    }
    // Names are as long as they are; words by their numbers stand as ever.
    let width = match names.is_empty() {
        true => 3,
        false => rows.iter().map(|(name, _)| name.len()).max().unwrap_or(0),
    };
    let mut text = String::new();
    for (name, change) in rows {
        let [before, after] = change.map(word);
        text += &format!("  {name:width$}  {before} -> {after}\n");
    }
    if !all && start == last {
        text += "  no word has changed\n";
    }
    text
}

/// So many elements in a row that changed alike are told as one.
const ALIKE: usize = 4;

/// Whether two places are those of an element and the next.
fn is_run(one: usize, next: usize) -> bool {
    let array = |place: usize| store::element(place).map(|(array, _)| array);
    next == one + 1 && array(one).is_some() && array(one) == array(next)
}

/// A word; where its top bit is set, as a number below zero too.
pub fn word(word: u16) -> String {
    match word as i16 {
        below @ ..=-1 => format!("{word} ({below})"),
        _ => word.to_string(),
    }
}

/// A number of things.
pub fn counted(count: usize, thing: &str) -> String {
    let plural = if count == 1 { "" } else { "s" };
    format!("{count} {thing}{plural}")
}

/// The fields of an answer as JSON.
pub fn fields(names: &Names, answer: &Answer, last: &Store) -> Vec<(&'static str, Json)> {
    let mut fields = vec![
        ("outcome", Json::text(outcome(answer))),
        ("instant", Json::number(answer.instant)),
        ("words", words(&answer.words)),
        ("elements", elements(last)),
    ];
    if !names.is_empty() {
        fields.push(("names", self::names(names)));
    }
    fields
}

/// The names of words and arrays, in the order of their numbers.
fn names(names: &Names) -> Json {
    let list = |names: &[String]| Json::list(names, Json::text);
    Json::Object(vec![
        ("words", list(&names.words)),
        ("arrays", list(&names.arrays)),
    ])
}

/// The elements that aren't 0.
pub fn elements(store: &Store) -> Json {
    let element = |place: usize| {
        let (array, index) = store::element(place)?;
        (store[place] != 0).then(|| {
            Json::Object(vec![
                ("array", Json::number(array)),
                ("index", Json::number(index)),
                ("word", Json::number(store[place])),
            ])
        })
    };
    Json::List(OF_ARRAYS.filter_map(element).collect())
}

pub fn words(words: &Words) -> Json {
    Json::list(words, |word| Json::number(*word))
}

fn outcome(answer: &Answer) -> &'static str {
    if answer.ended {
        "ended"
    } else {
        "open"
    }
}
