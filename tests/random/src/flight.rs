//! The number in flight, in the paper's own words: the inputs of delays that
//! aren't put out yet, the held bits of merges, and the start's remaining high
//! instants, from the bytes of a state.

use crate::formats::{cells_of, input_in, left_in, remaining_in};
use second::cells::{DELAY, MERGE, RETURN, START};
use values::{Cell, Format};

/// Where a state tells it.
const NUMBER: std::ops::Range<usize> = 4..8;

/// The number that a state tells.
pub fn told(state: &[u8]) -> u32 {
    u32::from_le_bytes(state[NUMBER].try_into().expect("four bytes"))
}

pub fn tell(state: &mut [u8], number: u32) {
    state[NUMBER].copy_from_slice(&number.to_le_bytes());
}

/// The number that is true of a state's cells. A compact state tells of a line
/// that a pulse is on its way there, or none.
pub fn counted(format: Format, cells: &[Cell], state: &[u8]) -> u32 {
    match format {
        Format::Full => counted_up_to(cells, state, usize::from),
        Format::Compact => summed(format, cells, state, |_, bytes| (left_in(bytes) > 0).into()),
    }
}

/// The number of a full state with as many inputs of each line as is told for
/// its delay.
pub fn counted_up_to(cells: &[Cell], state: &[u8], inputs: impl Fn(u8) -> usize) -> u32 {
    summed(Format::Full, cells, state, |delay, bytes| {
        let is_high = |&ago: &usize| input_in(bytes, ago) == 1;
        (0..inputs(delay)).filter(is_high).count() as u32
    })
}

/// What the lines have in flight as told, by their delay and their bytes, the held
/// bits, and what remains of start.
fn summed(format: Format, cells: &[Cell], state: &[u8], line: impl Fn(u8, &[u8]) -> u32) -> u32 {
    let of_cell = |(cell, bytes): (&Cell, &[u8])| match cell.kind {
        DELAY => line(cell.delay, bytes),
        MERGE | RETURN => u32::from(bytes[4]) + u32::from(bytes[5]),
        START => remaining_in(bytes).into(),
        _ => 0,
    };
    cells.iter().zip(cells_of(format, state)).map(of_cell).sum()
}
