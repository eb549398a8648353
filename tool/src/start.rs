//! The words that a run starts with, as they are typed: `x0=3`, `clock[5]=300`, or a
//! whole array, `clock=300,280,..`, behind the file or in a file of their own.

use crate::args::Args;
use crate::files;
use crate::lines;
use crate::names::Names;
use crate::source::nearest;
use crate::store::{Store, ARRAYS, ELEMENTS, LENGTH, VARIABLES};
use crate::types::Fault;
use std::collections::BTreeMap;

/// The words and elements that a command line gives, and the file of --start; those
/// not given are 0.
pub fn store(args: &Args, words: &[String], names: &Names) -> Result<Store, Fault> {
    let mut start = [0; LENGTH];
    if let Some(name) = args.value("start") {
        let text = lines::read(name)?;
        let mut given = Given::default();
        for (number, line) in (1..).zip(text.lines()) {
            for word in lines::words(line) {
                given.put(word, names).map_err(|why| {
                    let file = files::shown(name);
                    Fault::usage(format!("{file}, line {number}: {why}"))
                })?;
            }
        }
        given.lay_over(&mut start);
    }
    let mut given = Given::default();
    for word in words {
        given.put(word, names).map_err(|why| args.fault(why))?;
    }
    given.lay_over(&mut start);
    Ok(start)
}

/// Start words from one place: whole arrays, and over them single words.
#[derive(Default)]
pub struct Given {
    arrays: BTreeMap<usize, u16>,
    words: BTreeMap<usize, u16>,
}

impl Given {
    /// Takes up one start word, or tells what is wrong with it.
    pub fn put(&mut self, word: &str, names: &Names) -> Result<(), String> {
        let Some((name, value)) = word.split_once('=') else {
            return Err(no_word(word, names));
        };
        if let Some(array) = array(name, names) {
            let first = VARIABLES + ELEMENTS * array;
            let values = list(value).ok_or_else(|| no_list(word))?;
            if self.arrays.contains_key(&first) {
                return Err(format!("{name} has two lists of start words"));
            }
            self.arrays.extend((first..).zip(values));
            return Ok(());
        }
        let place = names
            .place(name)
            .ok_or_else(|| no_name(word, name, names))?;
        let value = number(value).ok_or_else(|| no_word(word, names))?;
        match self.words.insert(place, value) {
            Some(_) => Err(format!("{} has two start words", names.at(place))),
            None => Ok(()),
        }
    }

    /// All of them, by their places.
    pub fn all(&self) -> Vec<(usize, u16)> {
        let mut all = self.arrays.clone();
        all.extend(&self.words);
        all.into_iter().collect()
    }

    fn lay_over(&self, start: &mut Store) {
        for (place, value) in self.all() {
            start[place] = value;
        }
    }
}

/// The number of a whole array.
fn array(name: &str, names: &Names) -> Option<usize> {
    let numbered =
        |array: &usize| names.array(*array as u16) == name || format!("a{array}") == name;
    (0..ARRAYS).find(numbered)
}

/// The words of an array from its first element on; behind `..` the last goes on.
fn list(values: &str) -> Option<Vec<u16>> {
    let (values, on) = match values.strip_suffix(",..") {
        Some(values) => (values, true),
        None => (values, false),
    };
    let mut words: Vec<u16> = values.split(',').map(number).collect::<Option<_>>()?;
    if on {
        words.resize(ELEMENTS.max(words.len()), *words.last()?);
    }
    (words.len() <= ELEMENTS).then_some(words)
}

/// A word, in decimal or hexadecimal; one below zero is kept as 65,536 more.
pub fn number(value: &str) -> Option<u16> {
    let (below, digits) = match value.strip_prefix('-') {
        Some(digits) => (true, digits),
        None => (false, value),
    };
    let number: i32 = match digits.strip_prefix("0x") {
        Some(digits) => i32::from_str_radix(digits, 16).ok()?,
        None => digits.parse().ok()?,
    };
    let number = if below { -number } else { number };
    let fits =
        (-32_768..=65_535).contains(&number) && digits.starts_with(|c: char| c.is_ascii_digit());
    fits.then_some(number as u16)
}

fn no_word(word: &str, names: &Names) -> String {
    let form = "one is x0=3 or a2[5]=7, with x0 to x15 or a0[0] to a3[63], and -32768 to 65535, \
        or a2=7,8,9 for a whole array";
    match names.is_empty() {
        true => format!("'{word}' is no start word; {form}"),
        false => format!(
            "'{word}' is no start word; {form}; or with {}",
            names.forms()
        ),
    }
}

fn no_list(word: &str) -> String {
    format!(
        "'{word}' doesn't fit an array: it takes up to 64 words from -32768 to 65535, with commas \
         between them, and ',..' behind the last that goes on to the end"
    )
}

/// A name that no word has, with one that may be meant.
fn no_name(word: &str, name: &str, names: &Names) -> String {
    let near = |base: &str, known: &[String]| {
        nearest(base, known.iter().map(String::as_str)).map(String::from)
    };
    let meant = match name.split_once('[') {
        Some((base, index)) => near(base, &names.arrays).map(|base| format!("{base}[{index}")),
        None => near(name, &[&names.words[..], &names.arrays].concat()),
    };
    match meant.filter(|meant| names.place(meant).is_some() || array(meant, names).is_some()) {
        Some(meant) => format!("no word is called '{name}'; did you mean {meant}?"),
        None => no_word(word, names),
    }
}
