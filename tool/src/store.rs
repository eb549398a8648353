//! The words that a run starts from and ends with: those of the variables and,
//! behind them, array by array, those of the elements.

use crate::types::Words;
use std::ops::Range;

pub const VARIABLES: usize = 16;
pub const ARRAYS: usize = 4;
/// The elements of an array.
pub const ELEMENTS: usize = 64;
pub const LENGTH: usize = VARIABLES + ARRAYS * ELEMENTS;

pub type Store = [u16; LENGTH];

/// The places of all elements.
pub const OF_ARRAYS: Range<usize> = VARIABLES..LENGTH;

/// The words of the variables, with elements that are all 0.
pub fn of_words(words: &Words) -> Store {
    let mut store = [0; LENGTH];
    store[..VARIABLES].copy_from_slice(words);
    store
}

/// The words of the variables.
pub fn words(store: &Store) -> Words {
    std::array::from_fn(|variable| store[variable])
}

/// An element's array and index.
pub fn element(place: usize) -> Option<(usize, usize)> {
    let behind = place.checked_sub(VARIABLES)?;
    Some((behind / ELEMENTS, behind % ELEMENTS))
}

/// How a word is called: `x3`, or `a2[5]` for an element.
pub fn name(place: usize) -> String {
    match element(place) {
        None => format!("x{place}"),
        Some((array, index)) => format!("a{array}[{index}]"),
    }
}

/// The place of a name.
pub fn place(name: &str) -> Option<usize> {
    (0..LENGTH).find(|place| self::name(*place) == name)
}
