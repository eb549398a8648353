//! Netlists for tests that change them and read them.

use second::cells::{Netlist, ADDRESS, ARRAY, CONSTANT, DELAY, GROUND, MEMORY, OR, START};
use second::netfile;
use values::Cell;

/// The netlist with every kind of cell: so many cells, and its finish.
pub const COUNT: usize = 44;
pub const FINISH: u16 = 39;

/// Every kind of cell. Number 41 is named by no other cell, and of the two
/// after it one is a word wire and the other a control wire.
pub fn every_kind() -> Vec<Cell> {
    let mut cells = vec![
        Cell::new(32, 0, 0, 0),
        Cell::new(33, 0, 0, 0),
        Cell::new(1, 0, 0, 0),
        Cell::new(40, 0, 1, 34),
    ];
    cells.extend([Cell::new(40, 0, 1, 2); 15]);
    cells.extend([
        Cell::new(42, 0, 0, 28),
        Cell::new(43, 0, 29, 0),
        Cell::new(42, 1, 1, 2),
        Cell::new(43, 0, 2, 0),
        Cell::new(42, 2, 1, 2),
        Cell::new(43, 0, 2, 0),
        Cell::new(42, 3, 1, 3),
        Cell::new(43, 0, 3, 0),
        Cell::new(1, 0, 65_533, 0),
        Cell::new(3, 0, 27, 0),
        Cell::new(4, 0, 27, 28),
        Cell::new(5, 0, 28, 29),
        Cell::new(6, 0, 29, 2),
        Cell::new(7, 0, 30, 31),
        Cell::new(8, 0, 31, 32),
        Cell::new(9, 0, 32, 33),
        Cell::new(34, 200, 39, 0),
        Cell::new(35, 0, 35, 0),
        Cell::new(36, 0, 36, 34),
        Cell::new(37, 0, 36, 3),
        Cell::new(38, 0, 37, 38),
        Cell::new(44, 0, 25, 34),
        Cell::new(41, 0, 39, 40),
        Cell::new(45, 0, 43, 42),
        Cell::new(39, 0, 0, 0),
    ]);
    cells
}

/// The first cell after the idle ones, and the first of their arrays.
pub const FREE: u16 = 27;
pub const FIRST_ARRAY: u16 = 19;

/// The file of the idle cells and these.
pub fn file_of_idle(cells: &[Cell], finish: u16) -> Vec<u8> {
    pulsed_file_of_idle(1, cells, finish)
}

/// The same for pulses of this length.
pub fn pulsed_file_of_idle(pulse: u8, cells: &[Cell], finish: u16) -> Vec<u8> {
    pulsed_file(pulse, &[&idle(), cells].concat(), finish)
}

/// Cells that are put in after the idle ones, one after another.
#[derive(Default)]
pub struct Wiring {
    pub cells: Vec<Cell>,
}

impl Wiring {
    /// Puts a cell in, and gives its number.
    pub fn push(&mut self, cell: Cell) -> u16 {
        self.cells.push(cell);
        FREE + self.cells.len() as u16 - 1
    }

    /// A wire with a pulse from each of these instants on, 0 not among them.
    pub fn pulses(&mut self, instants: &[u8]) -> u16 {
        let ground = 1;
        instants.iter().fold(ground, |so_far, &instant| {
            let delay = self.push(Cell::new(DELAY, instant, 0, 0));
            self.push(Cell::new(OR, 0, so_far, delay))
        })
    }
}

/// The fixed cells, and sixteen memories and four arrays that are never
/// assigned.
pub fn idle() -> Vec<Cell> {
    [fixed(), vec![Cell::new(MEMORY, 0, 1, 2); 16], idle_arrays()].concat()
}

pub fn fixed() -> Vec<Cell> {
    vec![
        Cell::new(START, 0, 0, 0),
        Cell::new(GROUND, 0, 0, 0),
        Cell::new(CONSTANT, 0, 0, 0),
    ]
}

pub fn idle_arrays() -> Vec<Cell> {
    let two = |array| [Cell::new(ARRAY, array, 1, 2), Cell::new(ADDRESS, 0, 2, 0)];
    (0..4).flat_map(two).collect()
}

/// The file of these cells, whatever rules they break, with right checks.
pub fn file(cells: &[Cell], finish: u16) -> Vec<u8> {
    pulsed_file(1, cells, finish)
}

/// The same for pulses of this length.
pub fn pulsed_file(pulse: u8, cells: &[Cell], finish: u16) -> Vec<u8> {
    let cells = cells.to_vec();
    netfile::write(&Netlist {
        pulse,
        cells,
        finish,
    })
}
