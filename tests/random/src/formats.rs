//! The instant and the cells of a state in either format, and a state of one format
//! as one of the other.

use crate::lend::{cell_length, ARRAYS, HEADER};
use second::cells::DELAY;
use values::{Cell, Format};

/// In a compact state, the place in a cell of its line's number.
pub const LEFT: usize = 6;

/// In a full state, the place in a cell of its line, of which start uses the first
/// byte for its remaining high instants.
pub const LINE: usize = 8;

pub fn instant_of(state: &[u8]) -> u32 {
    u32::from_le_bytes([state[0], state[1], state[2], state[3]])
}

/// The bytes of a cell.
pub fn bytes_of(format: Format, state: &[u8], cell: usize) -> &[u8] {
    let length = cell_length(format);
    &state[HEADER + length * cell..][..length]
}

/// The bytes of each cell, of a state or of the buffer that it stands in.
pub fn cells_of(format: Format, state: &[u8]) -> impl Iterator<Item = &[u8]> {
    state[HEADER..].chunks_exact(cell_length(format))
}

/// The value of a wire.
pub fn wire_of(format: Format, state: &[u8], wire: u16) -> u16 {
    let bytes = bytes_of(format, state, usize::from(wire));
    u16::from_le_bytes([bytes[0], bytes[1]])
}

/// The instants until a pulse comes out, in the bytes of a cell of a compact
/// state.
pub fn left_in(bytes: &[u8]) -> u8 {
    bytes[LEFT]
}

/// The input so many instants ago, in the bytes of a cell of a full state.
pub fn input_in(bytes: &[u8], ago: usize) -> u8 {
    bytes[LINE + ago / 8] >> (ago % 8) & 1
}

/// The remaining high instants in the bytes of start; a compact state is of pulses
/// of one instant, and has none.
pub fn remaining_in(bytes: &[u8]) -> u8 {
    bytes.get(LINE).copied().unwrap_or(0)
}

/// The full state with the pulses of a compact one.
pub fn expanded(cells: &[Cell], state: &[u8]) -> Vec<u8> {
    remade(Format::Compact, cells, state, |cell, bytes| {
        let mut rest = [0; 34];
        if left_in(bytes) > 0 {
            let ago = usize::from(cell.delay - left_in(bytes));
            rest[LINE - LEFT + ago / 8] = 1 << (ago % 8);
        }
        rest.to_vec()
    })
}

/// The compact state with the pulses of a full one; none where a line has two on
/// their way.
pub fn compacted(cells: &[Cell], state: &[u8]) -> Option<Vec<u8>> {
    let mut lines = cells.iter().zip(cells_of(Format::Full, state));
    let apart = lines.all(|(cell, bytes)| pulses(cell, bytes).count() <= 1);
    apart.then(|| newest(cells, state))
}

/// The compact state with the newest pulse of each line of a full one.
pub fn newest(cells: &[Cell], state: &[u8]) -> Vec<u8> {
    remade(Format::Full, cells, state, |cell, bytes| {
        let left = |ago| cell.delay - ago as u8;
        vec![pulses(cell, bytes).next().map_or(0, left), 0]
    })
}

/// How long ago the pulses came that are on their way, the newest first.
fn pulses<'a>(cell: &Cell, bytes: &'a [u8]) -> impl Iterator<Item = usize> + 'a {
    let inputs = match cell.kind {
        DELAY => usize::from(cell.delay),
        _ => 0,
    };
    (0..inputs).filter(|&ago| input_in(bytes, ago) == 1)
}

/// The state in which each cell has other bytes behind its values and held bits.
fn remade(
    format: Format,
    cells: &[Cell],
    state: &[u8],
    line: impl Fn(&Cell, &[u8]) -> Vec<u8>,
) -> Vec<u8> {
    let mut remade = state[..HEADER].to_vec();
    for (cell, bytes) in cells.iter().zip(cells_of(format, state)) {
        remade.extend(&bytes[..LEFT]);
        remade.extend(line(cell, bytes));
    }
    remade.extend(&state[state.len() - ARRAYS..]);
    remade
}

/// The lowest delay that a pulse enters, as these wires of the next instant tell,
/// while one is on its way there in a compact state that doesn't come out then.
pub fn crowded(cells: &[Cell], state: &[u8], high: impl Fn(u16) -> bool) -> Option<usize> {
    let mut with_bytes = cells.iter().zip(cells_of(Format::Compact, state));
    with_bytes.position(|(cell, bytes)| cell.kind == DELAY && left_in(bytes) > 1 && high(cell.a))
}
