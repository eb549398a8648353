//! A second implementation of hub circuits, written from the paper alone.
//!
//! It exists to be compared with the proved implementation and shares nothing
//! with it but the plain values that callers give and get. A value goes one way
//! through these modules: text of a program, its bytes, tree, netlist, netlist
//! file, wires, state bytes, answer. `calls` holds the calls that others use,
//! `functional_calls` those on functional circuits; what they lend and get back
//! are bytes and numbers, and in `cell_calls` cells.

pub mod block;
pub mod calls;
pub mod cell_calls;
pub mod cells;
pub mod check;
pub mod compile;
pub mod contents;
pub mod fanout;
pub mod functional;
pub mod functional_calls;
pub mod grammar;
pub mod hubrun;
pub mod hubtext;
pub mod kinds;
pub mod line;
pub mod long;
mod long_grammar;
mod long_words;
pub mod netfile;
pub mod operator;
pub mod parts;
pub mod program;
mod reading;
pub mod rules;
mod runs;
pub mod simulate;
mod slow;
pub mod state;
pub mod table;
pub mod text;
mod text_grammar;
mod text_words;
pub mod wheel;
mod wiring;
pub mod word;
