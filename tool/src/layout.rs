//! Where things stand in the bytes that the product takes and gives, by their
//! published layout.

use crate::store::{Store, OF_ARRAYS};
use crate::types::{Cell, Format, Netlist};
use values::layout::{cell_at, cell_length, BLOCK, BLOCK_HEADER, STATE_HEADER};
pub use values::layout::{file_length, state_length, CELLS, FILE, PROGRAM, TEXT};

/// The number in flight stands behind the instant.
const IN_FLIGHT: usize = 4;
/// Where a cell's line begins, behind its values, held bits and zero bytes.
const LINE: usize = 8;
const WORD: usize = 2;
/// Where a merge's held bits stand, behind a cell's two values.
const HELD: usize = 4;

/// The netlist in a file whose blocks the product has accepted.
pub fn netlist_in(file: &[u8]) -> Netlist {
    let header = |at: usize| u16::from_le_bytes([file[at], file[at + 1]]);
    let blocks = file.chunks(BLOCK).flat_map(|block| &block[BLOCK_HEADER..]);
    let bytes: Vec<u8> = blocks.copied().collect();
    let mut cells = Cell::all_of(&bytes);
    cells.truncate(usize::from(header(2)));
    Netlist {
        cells,
        finish: header(4),
        pulse: pulse_in(file),
    }
}

/// The pulse length in a file whose blocks the product has accepted: less one, it
/// is the high byte of every block number.
pub fn pulse_in(file: &[u8]) -> u8 {
    1 + file[1]
}

fn word_at(state: &[u8], at: usize) -> u16 {
    u16::from_le_bytes([state[at], state[at + 1]])
}

/// The instant of a state.
pub fn instant_in(state: &[u8]) -> u32 {
    number_at(state, 0)
}

/// The number in flight in a state.
pub fn in_flight_in(state: &[u8]) -> u32 {
    number_at(state, IN_FLIGHT)
}

fn number_at(state: &[u8], at: usize) -> u32 {
    u32::from_le_bytes([0, 1, 2, 3].map(|k| state[at + k]))
}

/// For how many instants the start stays high, in a full state: the first byte of
/// its line.
pub fn start_left_in(state: &[u8]) -> u8 {
    state[cell_at(Format::Full, 0) + LINE]
}

/// What a cell shows in a full state.
pub fn value_in(state: &[u8], cell: u16) -> u16 {
    word_at(state, cell_at(Format::Full, usize::from(cell)))
}

/// What a cell shows, and what it showed an instant ago.
pub fn values_in(format: Format, state: &[u8], cell: u16) -> [u16; 2] {
    let at = cell_at(format, usize::from(cell));
    [word_at(state, at), word_at(state, at + WORD)]
}

/// The bits that a merge holds, in a full state: 1 for that of a, 2 for that of b.
pub fn held_in(state: &[u8], cell: u16) -> u8 {
    let at = cell_at(Format::Full, usize::from(cell)) + HELD;
    state[at] + 2 * state[at + 1]
}

/// Whether the input of a delay was 1 so many instants ago, up to 255, in a full state.
pub fn input_in(state: &[u8], cell: u16, ago: u8) -> bool {
    let at = cell_at(Format::Full, usize::from(cell)) + LINE;
    state[at + usize::from(ago / 8)] >> (ago % 8) & 1 == 1
}

/// The cells of a state.
pub fn cells_in(format: Format, state: &[u8]) -> usize {
    let cells = state.len() - WORD * OF_ARRAYS.len() - STATE_HEADER;
    cells / cell_length(format)
}

/// An element, by its place in the store, in a state of so many cells.
pub fn element_in(format: Format, state: &[u8], cells: usize, place: usize) -> u16 {
    let elements = cell_at(format, cells);
    word_at(state, elements + WORD * (place - OF_ARRAYS.start))
}

/// The bytes that a run of so many cells with gates that take their time works in.
pub fn slow_length(cells: usize) -> usize {
    512 * (2 * cells + 1)
}

/// The words in a list of their bytes.
pub fn words_in(bytes: &[u8]) -> Vec<u16> {
    let words = bytes.chunks_exact(WORD);
    words.map(|word| word_at(word, 0)).collect()
}

/// The bytes of start words.
pub fn store_bytes(store: &Store) -> Vec<u8> {
    store.iter().flat_map(|word| word.to_le_bytes()).collect()
}
