//! The names that a long text gives to words, arrays and procedures. What has
//! none is called by its number: `x3`, `a2`.

use crate::store::{self, ARRAYS, ELEMENTS, VARIABLES};

/// Names in the order of their numbers.
#[derive(Clone, Debug, Default, PartialEq, Eq)]
pub struct Names {
    pub words: Vec<String>,
    pub arrays: Vec<String>,
    pub procedures: Vec<String>,
}

impl Names {
    pub fn word(&self, number: u16) -> String {
        named(&self.words, number).unwrap_or_else(|| format!("x{number}"))
    }

    pub fn array(&self, number: u16) -> String {
        named(&self.arrays, number).unwrap_or_else(|| format!("a{number}"))
    }

    pub fn procedure(&self, number: u16) -> String {
        named(&self.procedures, number).unwrap_or_else(|| number.to_string())
    }

    /// How the word at a place of the store is called: `left`, or `clock[5]`.
    pub fn at(&self, place: usize) -> String {
        match store::element(place) {
            None => self.word(place as u16),
            Some((array, index)) => format!("{}[{index}]", self.array(array as u16)),
        }
    }

    /// The place of a name; that by number is always one.
    pub fn place(&self, name: &str) -> Option<usize> {
        let own = (0..store::LENGTH).find(|place| self.at(*place) == name);
        own.or_else(|| store::place(name))
    }

    /// The names of words and arrays as they stand behind a state: a line for each.
    pub fn text(&self) -> String {
        let lines = |numbered: &'static str, names: &[String]| -> String {
            let numbers = (0..).zip(names);
            numbers
                .map(|(number, name): (u16, _)| format!("{numbered}{number} {name}\n"))
                .collect()
        };
        lines("x", &self.words) + &lines("a", &self.arrays)
    }

    /// The names behind a state.
    pub fn of_text(text: &str) -> Names {
        let mut names = Names::default();
        for line in text.lines() {
            match line.split_once(' ') {
                Some((number, name)) if number.starts_with('x') => names.words.push(name.into()),
                Some((_, name)) => names.arrays.push(name.into()),
                None => {}
            }
        }
        names.words.truncate(VARIABLES);
        names.arrays.truncate(ARRAYS);
        names
    }

    /// Whether no word and no array has a name.
    pub fn is_empty(&self) -> bool {
        self.words.is_empty() && self.arrays.is_empty()
    }

    /// The names that start words and wires may have, for a reader.
    pub fn forms(&self) -> String {
        let mut forms = self.words.clone();
        let last = ELEMENTS - 1;
        let element = |name: &String| format!("{name}[0] to {name}[{last}]");
        forms.extend(self.arrays.iter().map(element));
        forms.join(", ")
    }
}

fn named(names: &[String], number: u16) -> Option<String> {
    names.get(usize::from(number)).cloned()
}
