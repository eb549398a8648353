//! Netlist files: writing, and reading with refusals 9 to 12.

use crate::block::{sum, CHECK, HEADER, LENGTH as BLOCK};
use crate::cells::{self, Netlist};
use crate::word::{number2, put2};
use std::ops::RangeInclusive;
use values::{Cell, Refusal};

const MOST_BLOCKS: usize = 196;
const CELLS_IN_BLOCK: usize = (BLOCK - HEADER) / Cell::LENGTH;
const LEAST_CELLS: usize = 27;
pub const MOST_CELLS: usize = 16_384;

/// The lengths that a pulse may have.
pub const PULSES: RangeInclusive<u8> = 1..=8;

/// The bytes of the file of a netlist with this many cells.
pub fn length(cells: usize) -> usize {
    BLOCK * cells.div_ceil(CELLS_IN_BLOCK)
}

/// The file of a netlist.
pub fn write(netlist: &Netlist) -> Vec<u8> {
    let blocks = netlist.cells.chunks(CELLS_IN_BLOCK).enumerate();
    blocks
        .flat_map(|(number, cells)| block(netlist, number, cells))
        .collect()
}

fn block(netlist: &Netlist, number: usize, cells: &[Cell]) -> [u8; BLOCK] {
    let mut block = [0; BLOCK];
    block[0] = number as u8;
    block[1] = netlist.pulse - 1;
    put2(&mut block, 2, netlist.cells.len() as u16);
    put2(&mut block, 4, netlist.finish);
    for (cell, place) in cells
        .iter()
        .zip(block[HEADER..].chunks_exact_mut(Cell::LENGTH))
    {
        place.copy_from_slice(&cell.bytes());
    }
    let check = sum(&block).wrapping_neg();
    put2(&mut block, CHECK, check);
    block
}

/// The netlist in a file, or the refusal found first.
pub fn read(file: &[u8]) -> Result<Netlist, Refusal> {
    check_length(file)?;
    check_sums(file)?;
    check_layout(file)?;
    let netlist = unpack(file);
    cells::check(&netlist)?;
    Ok(netlist)
}

/// The netlist of cells that are given as bytes, with the refusal that their
/// file would meet. Bytes that are not whole cells no header could tell: 11.
pub fn netlist_of(pulse: u8, bytes: &[u8], finish: u16) -> Result<Netlist, Refusal> {
    if !bytes.len().is_multiple_of(Cell::LENGTH) {
        return Err(Refusal::new(11, 0));
    }
    netlist_of_cells(pulse, Cell::all_of(bytes), finish)
}

/// The netlist of these cells, with the refusal that their file would meet:
/// 11 where no header could tell their number or the finish, then 12.
pub fn netlist_of_cells(pulse: u8, cells: Vec<Cell>, finish: u16) -> Result<Netlist, Refusal> {
    check_counts(cells.len(), finish)?;
    let netlist = Netlist {
        pulse,
        cells,
        finish,
    };
    cells::check(&netlist)?;
    Ok(netlist)
}

/// Refusal 9.
fn check_length(file: &[u8]) -> Result<(), Refusal> {
    let length = file.len();
    if length == 0 || length > MOST_BLOCKS * BLOCK || !length.is_multiple_of(BLOCK) {
        return Err(Refusal::new(9, 0));
    }
    Ok(())
}

/// Refusal 10, for all blocks before any header is looked at.
fn check_sums(file: &[u8]) -> Result<(), Refusal> {
    match blocks(file).position(|block| sum(block) != 0) {
        Some(place) => Err(Refusal::new(10, place)),
        None => Ok(()),
    }
}

/// Refusal 11. The low byte of a block's number is told by its place, the high
/// byte, the pulse length less one, by the first block.
fn check_layout(file: &[u8]) -> Result<(), Refusal> {
    let (cells, finish) = shape(file);
    check_counts(usize::from(cells), finish)?;
    let longer = file[1];
    if longer >= *PULSES.end() || length(usize::from(cells)) != file.len() {
        return Err(Refusal::new(11, 0));
    }
    let is_good = |(number, block): (usize, &[u8])| {
        block[..2] == [number as u8, longer]
            && shape(block) == (cells, finish)
            && unused(block, number, usize::from(cells))
                .iter()
                .all(|&byte| byte == 0)
    };
    match blocks(file).enumerate().position(|block| !is_good(block)) {
        Some(place) => Err(Refusal::new(11, place)),
        None => Ok(()),
    }
}

/// The part of refusal 11 that concerns the counts alone.
fn check_counts(cells: usize, finish: u16) -> Result<(), Refusal> {
    let are_good = (LEAST_CELLS..=MOST_CELLS).contains(&cells) && usize::from(finish) < cells;
    if !are_good {
        return Err(Refusal::new(11, 0));
    }
    Ok(())
}

fn blocks(file: &[u8]) -> std::slice::ChunksExact<'_, u8> {
    file.chunks_exact(BLOCK)
}

/// The number of cells and the finish, as a block's header tells them.
fn shape(block: &[u8]) -> (u16, u16) {
    (number2(block, 2), number2(block, 4))
}

/// The bytes of a block after the last cell of the netlist.
fn unused(block: &[u8], number: usize, cells: usize) -> &[u8] {
    let here = (cells - number * CELLS_IN_BLOCK).min(CELLS_IN_BLOCK);
    &block[HEADER + Cell::LENGTH * here..]
}

/// The netlist in a file whose layout is right.
fn unpack(file: &[u8]) -> Netlist {
    let (count, finish) = shape(file);
    let mut cells: Vec<Cell> = blocks(file)
        .flat_map(|block| Cell::all_of(&block[HEADER..]))
        .collect();
    cells.truncate(usize::from(count));
    Netlist {
        pulse: file[1] + 1,
        cells,
        finish,
    }
}
