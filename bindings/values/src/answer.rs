//! What a call answers.

use crate::Words;
use std::fmt::{Display, Formatter, Result};

/// A refusal: its number in the paper's list, and its place, counted from 0.
#[derive(Clone, Copy, Debug, PartialEq, Eq)]
pub struct Refusal {
    pub number: u8,
    pub place: usize,
}

impl Refusal {
    pub const fn new(number: u8, place: usize) -> Refusal {
        Refusal { number, place }
    }
}

/// As the programs print it, without the line's end.
impl Display for Refusal {
    fn fmt(&self, text: &mut Formatter) -> Result {
        write!(text, "refused {} {}", self.number, self.place)
    }
}

/// What a netlist's header tells of it.
#[derive(Clone, Copy, Debug, PartialEq, Eq)]
pub struct Shape {
    pub cells: u16,
    pub finish: u16,
}

/// The answer of an unrefused beginning, continuing or full run.
#[derive(Clone, Copy, Debug, PartialEq, Eq)]
pub struct Answer {
    /// The finish wire is high at `instant`; otherwise the run is open.
    pub ended: bool,
    pub instant: u32,
    /// The instants that this call evaluated.
    pub count: u32,
    pub words: Words,
}

/// The end of a program by its own rules.
#[derive(Clone, Copy, Debug, PartialEq, Eq)]
pub struct End {
    pub instant: u32,
    pub words: Words,
}
