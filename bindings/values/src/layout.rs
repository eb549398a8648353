//! The published sizes of what is given and lent, in bytes where nothing else is
//! said, and the most that there may be of it.

use crate::{Cell, Format};

/// The most bytes of a text.
pub const TEXT: usize = 4_096;

/// A node, the most nodes of a program, and the most bytes.
pub const NODE: usize = 4;
pub const NODES: usize = 200;
pub const PROGRAM: usize = NODE * NODES;

/// A table of operator times.
pub const TABLE: usize = 512;

/// The start words: those of the sixteen variables and, array by array, those of the
/// elements.
pub const WORDS: usize = 544;
pub const ELEMENTS: usize = 512;

/// A netlist file is made of blocks, a header and so many cells in each.
pub const BLOCK: usize = 512;
pub const BLOCK_HEADER: usize = 8;
pub const BLOCK_CELLS: usize = (BLOCK - BLOCK_HEADER) / Cell::LENGTH;

/// The most cells of a netlist, and the most bytes of its file.
pub const CELLS: usize = 16_384;
pub const FILE: usize = file_length(CELLS);

/// No program's imperative circuit has more cells than these, and no program's
/// functional circuit.
pub const IMPERATIVE_CELLS: usize = 1_024;
pub const FUNCTIONAL_CELLS: usize = 85 * BLOCK_CELLS;

/// A state has a header, so many bytes for each cell, and behind them the elements.
pub const STATE_HEADER: usize = 8;
pub const FULL_CELL: usize = 40;
pub const COMPACT_CELL: usize = 8;

/// The longest pulse, in instants, and the last instant of a run.
pub const PULSE: u8 = 8;
pub const INSTANT: u32 = 1_000_000;

/// The most procedures before a main program.
pub const PROCEDURES: usize = 8;

/// A reply.
pub const REPLY: usize = 48;

/// Stack that is enough for every call.
pub const STACK: usize = 131_072;

/// A netlist file of so many cells.
pub const fn file_length(cells: usize) -> usize {
    BLOCK * cells.div_ceil(BLOCK_CELLS)
}

/// The bytes of a cell in a state.
pub const fn cell_length(format: Format) -> usize {
    match format {
        Format::Full => FULL_CELL,
        Format::Compact => COMPACT_CELL,
    }
}

/// Where the bytes of a cell begin in a state, or, behind the last one, the elements.
pub const fn cell_at(format: Format, cell: usize) -> usize {
    STATE_HEADER + cell_length(format) * cell
}

/// A state of so many cells.
pub const fn state_length(format: Format, cells: usize) -> usize {
    cell_at(format, cells) + ELEMENTS
}
