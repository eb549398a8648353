//! What both compilers need: cells put in one after another, and the cells of an
//! expression.

use crate::cells::{CONSTANT, DELAY, GROUND, READ, START};
use crate::program::Expression;
use values::Cell;

/// The number of a cell, which is the number of its wire.
pub type Wire = u16;

pub const START_WIRE: Wire = 0;
pub const GROUND_WIRE: Wire = 1;

/// The cells so far, of which the first three are fixed.
pub struct Wiring {
    pub cells: Vec<Cell>,
}

/// Where an expression finds the words that it reads.
#[derive(Clone, Copy)]
pub struct Sources {
    pub words: [Wire; 16],
    /// The cell of array 0; each array has two cells.
    pub first_array: Wire,
}

impl Sources {
    pub fn array(&self, array: usize) -> Wire {
        self.first_array + 2 * array as Wire
    }
}

impl Wiring {
    pub fn new() -> Wiring {
        let cells = [START, GROUND, CONSTANT].map(|kind| Cell::new(kind, 0, 0, 0));
        Wiring {
            cells: cells.to_vec(),
        }
    }

    /// Puts a cell in, and gives its wire.
    pub fn push(&mut self, cell: Cell) -> Wire {
        let wire = self.next();
        self.cells.push(cell);
        wire
    }

    /// The wire of the cell that is put in next.
    pub fn next(&self) -> Wire {
        self.cells.len() as Wire
    }

    pub fn cell(&mut self, kind: u8, a: Wire, b: Wire) -> Wire {
        self.push(Cell::new(kind, 0, a, b))
    }

    pub fn delay(&mut self, delay: u8, from: Wire) -> Wire {
        self.push(Cell::new(DELAY, delay, from, 0))
    }

    /// Tells a cell its a, which wasn't known when it was put in.
    pub fn feed(&mut self, cell: Wire, from: Wire) {
        self.cells[usize::from(cell)].a = from;
    }

    /// The wire of an expression on these words.
    pub fn expression(&mut self, e: &Expression, sources: &Sources) -> Wire {
        match e {
            Expression::Constant(n) => self.cell(CONSTANT, *n, 0),
            Expression::Variable(variable) => sources.words[*variable],
            Expression::Unary(operator, e) => {
                let a = self.expression(e, sources);
                self.cell(operator.kind(), a, 0)
            }
            Expression::Binary(operator, e, f) => {
                let a = self.expression(e, sources);
                let b = self.expression(f, sources);
                self.cell(operator.kind(), a, b)
            }
            Expression::Element(array, index) => {
                let index = self.expression(index, sources);
                self.cell(READ, sources.array(*array), index)
            }
        }
    }
}
