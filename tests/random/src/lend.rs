//! Lent buffers: how long results are, and what a buffer holds before one.

pub use values::layout::{
    cell_length, file_length, state_length, ELEMENTS as ARRAYS, STATE_HEADER as HEADER, WORDS,
};
use values::layout::{BLOCK, BLOCK_CELLS, FUNCTIONAL_CELLS, IMPERATIVE_CELLS};
use values::{Cell, Format};

/// Room for the netlist file of any program's imperative circuit, and for its full
/// state.
pub const MOST_FILE: usize = file_length(IMPERATIVE_CELLS);
pub const MOST_STATE: usize = state_length(Format::Full, IMPERATIVE_CELLS);

/// The same of its functional circuit.
pub const MOST_FUNCTIONAL_FILE: usize = file_length(FUNCTIONAL_CELLS);
pub const MOST_FUNCTIONAL_STATE: usize = state_length(Format::Full, FUNCTIONAL_CELLS);

/// How many cells a file of so many bytes may have.
pub const fn most_cells(file: usize) -> usize {
    BLOCK_CELLS * (file / BLOCK)
}

const LENT_BYTE: u8 = 0xa5;

/// A lent buffer, filled so that a write shows.
pub fn lent(length: usize) -> Vec<u8> {
    vec![LENT_BYTE; length]
}

/// A buffer of another length that begins with these bytes.
pub fn lent_with(bytes: &[u8], length: usize) -> Vec<u8> {
    let mut buffer = bytes.to_vec();
    buffer.resize(length, LENT_BYTE);
    buffer
}

/// A lent list of cells, likewise.
pub fn lent_cells(length: usize) -> Vec<Cell> {
    vec![Cell::new(LENT_BYTE, LENT_BYTE, 0xa5a5, 0xa5a5); length]
}
