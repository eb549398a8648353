//! The words that a program works on: sixteen variables and four arrays.

use crate::word::numbers;
use values::Words;

pub const ARRAYS: usize = 4;
const ELEMENTS: usize = 64;

/// The bytes that the words of the variables take, those of the arrays, and both.
pub const WORDS_LENGTH: usize = 32;
pub const ARRAYS_LENGTH: usize = 2 * ARRAYS * ELEMENTS;
pub const CONTENTS_LENGTH: usize = WORDS_LENGTH + ARRAYS_LENGTH;

/// The words of each array.
#[derive(Clone, Copy, Debug, PartialEq, Eq)]
pub struct Arrays(pub [[u16; ELEMENTS]; ARRAYS]);

impl Arrays {
    /// The arrays in these bytes, one after another.
    pub fn of_bytes(bytes: &[u8]) -> Arrays {
        let array = |array: usize| numbers(&bytes[2 * ELEMENTS * array..]);
        Arrays(std::array::from_fn(array))
    }

    pub fn bytes(&self) -> Vec<u8> {
        let words = self.0.iter().flatten();
        words.flat_map(|word| word.to_le_bytes()).collect()
    }

    /// The word at an index, of which the low six bits count.
    pub fn element(&self, array: usize, index: u16) -> u16 {
        self.0[array][usize::from(index) % ELEMENTS]
    }

    /// Puts a word at an index; whether that is a change.
    pub fn put(&mut self, array: usize, index: u16, word: u16) -> bool {
        let element = &mut self.0[array][usize::from(index) % ELEMENTS];
        std::mem::replace(element, word) != word
    }
}

/// All words at one moment.
#[derive(Clone, Copy, Debug, PartialEq, Eq)]
pub struct Contents {
    pub words: Words,
    pub arrays: Arrays,
}

impl Contents {
    /// The words in the first 544 of these bytes, those of the variables first.
    pub fn of_bytes(bytes: &[u8]) -> Contents {
        Contents {
            words: numbers(bytes),
            arrays: Arrays::of_bytes(&bytes[WORDS_LENGTH..]),
        }
    }

    pub fn bytes(&self) -> Vec<u8> {
        [
            self.words.map(u16::to_le_bytes).concat(),
            self.arrays.bytes(),
        ]
        .concat()
    }
}
