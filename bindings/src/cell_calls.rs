//! The calls on netlists that a caller holds as cells, and not as bytes.

use crate::exports::*;
use crate::reply::{accepted, shape, written};
use values::{Cell, Refusal, Shape};

/// Checks a netlist.
pub fn check(cells: &[Cell], finish: u16) -> Result<(), Refusal> {
    accepted(|reply| hub_check_cells(cells, finish, reply)).map(drop)
}

/// Writes a netlist to a file, for pulses of this length.
pub fn write(pulse: u8, cells: &[Cell], finish: u16, file: &mut [u8]) -> Result<Shape, Refusal> {
    let told = accepted(|reply| hub_write_cells(pulse, cells, finish, file, reply));
    told.map(|told| written(told, file))
}

/// Reads a netlist file behind the first `at` of the lent cells.
pub fn read(file: &[u8], at: usize, cells: &mut [Cell]) -> Result<Shape, Refusal> {
    accepted(|reply| hub_read_cells(file, at, cells, reply)).map(shape)
}

/// Moves the inputs of the cells from one number up to another, of six bytes
/// each, so many places on. Tells whether the list has them.
pub fn renumber(cells: &mut [u8], from: usize, end: usize, by: u16) -> bool {
    hub_renumber(cells, from, end, by)
}
