//! Netlists as cells: two peers against each other, and what they agree on
//! against the calls on six bytes for each cell.

use crate::against_peer::{Pair, DAMAGED};
use crate::damage;
use crate::lend::*;
use crate::xorshift::Random;
use second::netfile::MOST_CELLS;
use values::{Cell, Refusal};

/// Behind so many cells and a few more, numbers that are moved wrap.
const WRAPPING: usize = 65_520;

impl Pair<'_> {
    /// All calls on the cells of a good netlist file, on damaged cells and on
    /// damaged files.
    pub fn compare_cells(&self, file: &[u8], random: &mut Random) -> Result<(), String> {
        let Some((cells, finish)) = self.same_cells_read(file)? else {
            return Ok(());
        };
        self.same_behind(file, cells.len(), random)?;
        self.same_cells_written(&cells, finish, random)?;
        for _ in 0..DAMAGED {
            let (damaged, finish) = damage::cells(&cells, finish, random);
            self.same_cells_written(&damaged, finish, random)?;
            let damaged = damage::netlist(file, random);
            self.same_cells_read(&damaged)?;
            self.same_behind(&damaged, cells.len(), random)?;
        }
        Ok(())
    }

    /// Reading in front, which gives the cells of the six bytes. Gives those of
    /// an accepted file, and its finish.
    fn same_cells_read(&self, file: &[u8]) -> Result<Option<(Vec<Cell>, u16)>, String> {
        let most = most_cells(file.len());
        let (room, byte_room) = (lent_cells(most), lent(6 * most));
        let read = self.same("read_cells", &[&room], |peer| {
            (peer.read_cells)(file, 0, &room)
        })?;
        let by_bytes = self.same("read_netlist", &[&byte_room], |peer| {
            (peer.read_netlist)(file, &byte_room)
        })?;
        let bytes = Cell::all_bytes(&read.lent[0]);
        if read.result != by_bytes.result || bytes != by_bytes.lent[0] {
            return Err("read_cells: not the cells of the six bytes".to_string());
        }
        let cells = |count: u16| read.lent[0][..usize::from(count)].to_vec();
        let told = read.result.ok();
        Ok(told.map(|shape| (cells(shape.cells), shape.finish)))
    }

    /// Reading behind other cells, where there is room and where there is none.
    fn same_behind(&self, file: &[u8], count: usize, random: &mut Random) -> Result<(), String> {
        let at = place(random);
        let room = lent_cells(match random.below(8) {
            0 => at + count - 1,
            1 => random.below(1_200),
            2 => at + count + random.between(1, 30),
            _ => at + count,
        });
        let beyond = random.pick(&[room.len(), room.len() + 1, usize::MAX - count, usize::MAX]);
        let at = if random.once_in(8) { beyond } else { at };
        let read = self.same("read_cells", &[&room], |peer| {
            (peer.read_cells)(file, at, &room)
        })?;
        match read.result {
            Err(_) => Ok(()),
            Ok(shape) => {
                let behind = Cell::all_bytes(&read.lent[0]);
                self.same_renumbered(file, at, at + shape.cells as usize, &behind)
            }
        }
    }

    /// Reading in front and renumbering the six bytes of each cell, which gives
    /// those of the cells that were read behind others.
    fn same_renumbered(
        &self,
        file: &[u8],
        at: usize,
        end: usize,
        behind: &[u8],
    ) -> Result<(), String> {
        let front = (self.left.read_netlist)(file, &lent(6 * (end - at)));
        let mut list = behind.to_vec();
        list[6 * at..6 * end].copy_from_slice(&front.lent[0]);
        let moved = self.same("renumber", &[], |peer| {
            (peer.renumber)(at, end, at as u16, &list)
        })?;
        let expected = if end <= MOST_CELLS { behind } else { &list };
        if moved.lent[0] != expected {
            return Err("renumber: not the cells that were read behind others".to_string());
        }
        Ok(())
    }

    /// Checking and writing, which refuse and write what the six bytes of each
    /// cell would.
    fn same_cells_written(
        &self,
        cells: &[Cell],
        finish: u16,
        random: &mut Random,
    ) -> Result<(), String> {
        let length = file_length(cells.len());
        let room = lent(random.pick(&[0, length - 1, length, length, length + 1, MOST_FILE]));
        let pulse = damage::pulse(random);
        let written = self.same("write_cells", &[&room], |peer| {
            (peer.write_cells)(pulse, cells, finish, &room)
        })?;
        let bytes = Cell::all_bytes(cells);
        let by_bytes = self.same("write_netlist", &[&room], |peer| {
            (peer.write_netlist)(pulse, &bytes, finish, &room)
        })?;
        if written != by_bytes {
            return Err("write_cells: not as the six bytes are written".to_string());
        }
        let checked = self.same("check_cells", &[], |peer| (peer.check_cells)(cells, finish))?;
        let expected = match written.result {
            Ok(_) | Err(Refusal { number: 14, .. }) => Ok(()),
            // The check is given no length.
            Err(Refusal { number: 27, .. }) => checked.result,
            Err(refused) => Err(refused),
        };
        if checked.result != expected {
            return Err("check_cells: not what writing refuses".to_string());
        }
        Ok(())
    }
}

/// How many cells stand before those that are read; seldom so many that a
/// list of them takes time.
fn place(random: &mut Random) -> usize {
    match random.below(40) {
        0 => random.pick(&[WRAPPING, MOST_CELLS - 60]) + random.below(40),
        1..=4 => 0,
        5..=20 => random.between(1, 30),
        _ => random.between(31, 2_000),
    }
}
