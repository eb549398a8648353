//! The published state bytes in both formats: their layout, and refusal 15.

use crate::cells::{self, Netlist, Sort, DELAY, MERGE, RETURN, START};
use crate::contents::{Arrays, ARRAYS_LENGTH};
use crate::line::{Instant, Line, LineBytes};
use crate::simulate::{CellState, Merge, Simulator};
use crate::word::{number2, number4, put2, put4};
use values::{Cell, Format, Refusal};

/// The header: the instant, and the number of pulses in flight.
const HEADER: usize = 8;
const NUMBER: usize = 4;

/// In a cell: two bytes of which a compact state uses the first, for the
/// instants until a pulse comes out, and in a full state the line. Start has no
/// line, and in its first byte the instants for which it will be high.
const LEFT: usize = 6;
const LINE: usize = 8;

fn cell_length(format: Format) -> usize {
    match format {
        Format::Full => LINE + LineBytes::default().len(),
        Format::Compact => LINE,
    }
}

/// The bytes of the state of a netlist with this many cells: the header, the
/// cells, the arrays.
pub fn length(format: Format, cells: usize) -> usize {
    HEADER + cell_length(format) * cells + ARRAYS_LENGTH
}

/// The instant of a state.
pub fn instant(state: &[u8]) -> u32 {
    number4(state, 0)
}

/// The number in flight that a state tells.
pub fn in_flight(state: &[u8]) -> u32 {
    number4(state, NUMBER)
}

/// Writes the simulator's present state, which has exactly these bytes.
pub fn store(format: Format, simulator: &Simulator, state: &mut [u8]) {
    put4(state, 0, simulator.instant());
    put4(state, NUMBER, simulator.in_flight());
    let now = instant(state) as Instant;
    let (cells, arrays) = state.split_at_mut(state.len() - ARRAYS_LENGTH);
    let cells = cells[HEADER..].chunks_exact_mut(cell_length(format));
    for (number, bytes) in cells.enumerate() {
        store_cell(format, &simulator.cell_state(number), now, bytes);
    }
    arrays.copy_from_slice(&simulator.arrays().bytes());
}

fn store_cell(format: Format, cell: &CellState, now: Instant, bytes: &mut [u8]) {
    put2(bytes, 0, cell.now);
    put2(bytes, 2, cell.ago);
    bytes[4] = u8::from(cell.held.a);
    bytes[5] = u8::from(cell.held.b);
    bytes[LEFT..LINE].fill(0);
    match format {
        Format::Full => {
            bytes[LINE..].copy_from_slice(&cell.line.to_bytes(now));
            bytes[LINE] |= cell.remaining;
        }
        Format::Compact => bytes[LEFT] = cell.line.left(now),
    }
}

/// Refusal 15.
pub fn check(format: Format, netlist: &Netlist, state: &[u8]) -> Result<(), Refusal> {
    let cells = || netlist.cells.iter().zip(cells_in(format, state));
    let lawful = cells().all(|(cell, bytes)| is_lawful(format, netlist.pulse, *cell, bytes));
    // Any instant will do: a line tells how long ago its inputs were.
    let of_cell = |(cell, bytes): (&Cell, _)| {
        let loaded = load_cell(format, *cell, bytes, 0);
        loaded.line.in_flight(0) + loaded.held.count() + u32::from(loaded.remaining)
    };
    if !lawful || cells().map(of_cell).sum::<u32>() != in_flight(state) {
        return Err(Refusal::new(15, 0));
    }
    Ok(())
}

/// Takes up the run whose lawful state this is.
pub fn load<'a>(format: Format, netlist: &'a Netlist, state: &[u8]) -> Simulator<'a> {
    let now = instant(state) as Instant;
    let cells = netlist.cells.iter().zip(cells_in(format, state));
    let cells = cells.map(|(cell, bytes)| load_cell(format, *cell, bytes, now));
    let (_, arrays) = state.split_at(state.len() - ARRAYS_LENGTH);
    Simulator::resume(netlist, now, cells, Arrays::of_bytes(arrays))
}

/// The bytes of each cell.
fn cells_in(format: Format, state: &[u8]) -> impl Iterator<Item = &[u8]> {
    state[HEADER..state.len() - ARRAYS_LENGTH].chunks_exact(cell_length(format))
}

/// Whether a cell may have these bytes. Nothing is asked of them beyond what
/// refusal 15 names: wires may contradict each other.
fn is_lawful(format: Format, pulse: u8, cell: Cell, bytes: &[u8]) -> bool {
    let Cell { kind, delay, .. } = cell;
    let most_value = match cells::sort(kind) {
        Sort::Control => 1,
        Sort::Word | Sort::Array | Sort::Address => u16::MAX,
    };
    let most_held_a = u8::from(kind == MERGE || kind == RETURN);
    let most_held_b = u8::from(kind == MERGE);
    let most_remaining = if kind == START { pulse - 1 } else { 0 };
    let most_left = match (format, kind) {
        (Format::Compact, DELAY) => delay,
        _ => 0,
    };
    number2(bytes, 0) <= most_value
        && number2(bytes, 2) <= most_value
        && bytes[4] <= most_held_a
        && bytes[5] <= most_held_b
        && bytes[LEFT] <= most_left
        && bytes[LEFT + 1] == 0
        && (kind == DELAY || is_empty_line(most_remaining, &bytes[LINE..]))
}

/// Whether nothing stands in the bytes of a line but what may remain of start.
fn is_empty_line(most_remaining: u8, line: &[u8]) -> bool {
    match line {
        [remaining, rest @ ..] => {
            *remaining <= most_remaining && rest.iter().all(|&byte| byte == 0)
        }
        [] => true,
    }
}

/// What the bytes of a cell tell at an instant.
fn load_cell(format: Format, cell: Cell, bytes: &[u8], now: Instant) -> CellState {
    CellState {
        now: number2(bytes, 0),
        ago: number2(bytes, 2),
        held: Merge {
            a: bytes[4] == 1,
            b: bytes[5] == 1,
        },
        line: match (cell.kind, format) {
            (DELAY, Format::Full) => {
                let line = bytes[LINE..].try_into().expect("the bytes of a line");
                Line::from_bytes(cell.delay, line, now)
            }
            (DELAY, Format::Compact) => Line::from_left(cell.delay, bytes[LEFT], now),
            _ => Line::default(),
        },
        remaining: match (cell.kind, format) {
            (START, Format::Full) => bytes[LINE],
            _ => 0,
        },
    }
}
