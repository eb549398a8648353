//! The calls on netlists that a caller holds as cells, and not as bytes.
//!
//! They refuse what the calls on bytes refuse, except for a length that is no
//! whole number of cells, which a list of cells can't have.

use crate::calls::check_pulse;
use crate::cells::moved;
use crate::netfile;
use crate::runs::{put, shape};
use values::{Cell, Refusal, Shape};

/// Checks a netlist: refusals 11 and 12.
pub fn check(cells: &[Cell], finish: u16) -> Result<(), Refusal> {
    netfile::netlist_of_cells(1, cells.to_vec(), finish).map(drop)
}

/// Writes a netlist to a file: refusals 27, 11, 12, 14.
pub fn write(pulse: u8, cells: &[Cell], finish: u16, file: &mut [u8]) -> Result<Shape, Refusal> {
    check_pulse(pulse)?;
    let netlist = netfile::netlist_of_cells(pulse, cells.to_vec(), finish)?;
    put(&netfile::write(&netlist), file)?;
    Ok(shape(&netlist))
}

/// Reads a netlist file behind the first `at` of the lent cells, so that the
/// cells it names stand `at` places later: refusals 9 to 12, 14. The finish it
/// tells is the file's own.
pub fn read(file: &[u8], at: usize, cells: &mut [Cell]) -> Result<Shape, Refusal> {
    let netlist = netfile::read(file)?;
    let places = places(cells, at, netlist.cells.len())?;
    for (place, cell) in places.iter_mut().zip(&netlist.cells) {
        *place = moved(*cell, at as u16);
    }
    Ok(shape(&netlist))
}

/// Moves the cells from one number up to another, of six bytes each, so many
/// places on. Tells whether the list has them; no netlist has more than 16,384.
pub fn renumber(cells: &mut [u8], from: usize, end: usize, by: u16) -> bool {
    if end > netfile::MOST_CELLS || end > cells.len() / Cell::LENGTH {
        return false;
    }
    let run = Cell::LENGTH * from.min(end)..Cell::LENGTH * end;
    let renumbered: Vec<Cell> = Cell::all_of(&cells[run.clone()])
        .into_iter()
        .map(|cell| moved(cell, by))
        .collect();
    cells[run].copy_from_slice(&Cell::all_bytes(&renumbered));
    true
}

/// So many lent cells behind the first `at`; refusal 14.
fn places(cells: &mut [Cell], at: usize, count: usize) -> Result<&mut [Cell], Refusal> {
    cells
        .get_mut(at..)
        .and_then(|behind| behind.get_mut(..count))
        .ok_or(Refusal::new(14, 0))
}
