//! What many tests expect or ask.

use peers::BOTH;
pub use values::layout::{cell_length, state_length};
use values::layout::{ELEMENTS, WORDS};
use values::{Format, Given, Refusal, Words};

/// Start words, sixteen and 256, that are 0.
pub const START: [u8; WORDS] = [0; WORDS];

/// The words of the arrays in the state that a run of a program has left; its
/// netlist file and the state are lent.
pub fn elements(lent: &[Vec<u8>]) -> &[u8] {
    let (file, state) = (&lent[0], &lent[1]);
    let cells = usize::from(u16::from_le_bytes([file[2], file[3]]));
    let length = state_length(Format::Full, cells);
    &state[length - ELEMENTS..length]
}

pub fn refused<T>(number: u8, place: usize) -> Result<T, Refusal> {
    Err(Refusal::new(number, place))
}

/// The bytes of a text's program.
pub fn read(text: &str) -> Result<Vec<u8>, Refusal> {
    let reply = (BOTH.read_text)(Given::NOTHING, text.as_bytes(), &[0xa5; 800]);
    reply.result.map(|length| reply.lent[0][..length].to_vec())
}

/// The words of which the first are these, all others 0.
pub fn words_with<const COUNT: usize>(first: [u16; COUNT]) -> Words {
    let mut words = [0; 16];
    words[..COUNT].copy_from_slice(&first);
    words
}

/// The start words of which the first are these, all others and all elements
/// 0, as bytes.
pub fn start_with<const COUNT: usize>(first: [u16; COUNT]) -> Vec<u8> {
    let mut start = words_with(first).map(u16::to_le_bytes).concat();
    start.resize(START.len(), 0);
    start
}
