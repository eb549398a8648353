//! What a caller gives and is answered: plain values, the same for every
//! implementation. Nothing here knows a rule of the paper.

mod answer;
mod cell;
mod circuit;
mod format;
mod given;
pub mod layout;
mod part;

pub use answer::{Answer, End, Refusal, Shape};
pub use cell::Cell;
pub use circuit::Circuit;
pub use format::Format;
pub use given::{Given, Table};
pub use part::Part;

/// The words of the sixteen variables.
pub type Words = [u16; 16];
