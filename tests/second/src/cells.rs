//! Cells, the uses of their fields, and the rules that a netlist keeps
//! (refusal 12).

use crate::contents::ARRAYS;
use crate::operator::Operator;
use values::{Cell, Refusal};

pub const CONSTANT: u8 = 1;
pub const START: u8 = 32;
pub const GROUND: u8 = 33;
pub const DELAY: u8 = 34;
/// Or of two control wires; that of two words is an operator.
pub const OR: u8 = 35;
/// A pulse goes through when the word isn't zero.
pub const WHEN: u8 = 36;
/// A pulse goes through when the word is zero.
pub const UNLESS: u8 = 37;
pub const MERGE: u8 = 38;
/// The merge of a call: its delay first, and then the body's finish.
pub const RETURN: u8 = 39;
pub const MEMORY: u8 = 40;
/// A word goes through while the control wire is high.
pub const GATE: u8 = 41;
/// An array: its clock and its data. It shows 0.
pub const ARRAY: u8 = 42;
/// The address of the array before it. It shows 0.
pub const ADDRESS: u8 = 43;
/// The element of an array at an index.
pub const READ: u8 = 44;
/// A word that is taken whenever the control wire is high, and kept.
pub const LATCH: u8 = 45;

pub const MEMORIES: usize = 16;

/// Cell 2, which the or cells of a functional circuit's last words name.
pub const ZERO: u16 = 2;

#[derive(Clone, Debug, PartialEq, Eq)]
pub struct Netlist {
    /// The instants for which a pulse is high.
    pub pulse: u8,
    pub cells: Vec<Cell>,
    pub finish: u16,
}

impl Netlist {
    /// The sixteen memory cells, in variable order.
    pub fn memories(&self) -> Vec<usize> {
        let numbers = 0..self.cells.len();
        numbers
            .filter(|&cell| self.cells[cell].kind == MEMORY)
            .collect()
    }

    /// The sixteen last cells, which carry a functional circuit's last words.
    pub fn lasts(&self) -> Vec<usize> {
        let count = self.cells.len();
        (count - MEMORIES..count).collect()
    }
}

#[derive(Clone, Copy, Debug, PartialEq, Eq)]
pub enum Sort {
    Control,
    Word,
    /// Of an array, which reads alone name.
    Array,
    /// Of an address, which nothing names.
    Address,
}

/// The sort of a wire goes by its cell's kind alone.
pub fn sort(kind: u8) -> Sort {
    match kind {
        START..=RETURN => Sort::Control,
        ARRAY => Sort::Array,
        ADDRESS => Sort::Address,
        _ => Sort::Word,
    }
}

/// What a cell's a or b is for.
#[derive(Clone, Copy, Debug, PartialEq, Eq)]
pub enum Field {
    Unused,
    Number,
    /// A wire at the same instant, so of a lower cell.
    Now(Sort),
    /// A wire at an earlier instant, of any cell.
    Earlier(Sort),
}

impl Field {
    /// A value of this field after moving: only the number of a cell moves, and
    /// it has two bytes.
    fn moved(self, value: u16, by: u16) -> u16 {
        match self {
            Field::Unused | Field::Number => value,
            Field::Now(_) | Field::Earlier(_) => value.wrapping_add(by),
        }
    }
}

/// The uses of a and b in a cell of this kind, if the kind is known.
pub fn fields(kind: u8) -> Option<(Field, Field)> {
    use Field::*;
    let (control, word) = (Now(Sort::Control), Now(Sort::Word));
    match kind {
        START | GROUND => Some((Unused, Unused)),
        CONSTANT => Some((Number, Unused)),
        DELAY => Some((Earlier(Sort::Control), Unused)),
        OR | MERGE | RETURN => Some((control, control)),
        WHEN | UNLESS | GATE => Some((control, word)),
        MEMORY | ARRAY => Some((control, Earlier(Sort::Word))),
        ADDRESS => Some((Earlier(Sort::Word), Unused)),
        READ => Some((Now(Sort::Array), word)),
        LATCH => Some((Earlier(Sort::Control), Earlier(Sort::Word))),
        _ => match Operator::of_kind(kind)? {
            Operator::Complement => Some((word, Unused)),
            _ => Some((word, word)),
        },
    }
}

/// The cell where every cell that it names has a number so much higher.
pub fn moved(cell: Cell, by: u16) -> Cell {
    let (a, b) = fields(cell.kind).unwrap_or((Field::Unused, Field::Unused));
    Cell {
        a: a.moved(cell.a, by),
        b: b.moved(cell.b, by),
        ..cell
    }
}

/// Refusal 12: the first bad cell, then the number of memories, then arrays
/// that the end cuts off, then a finish on a word wire.
pub fn check(netlist: &Netlist) -> Result<(), Refusal> {
    let cells = &netlist.cells;
    let memories = netlist.memories();
    let arrays = memories.get(MEMORIES - 1).map(|last| last + 1);
    let bad = (0..cells.len())
        .find(|&number| !is_good(cells, number) || !is_placed(cells[number], number, arrays));
    if let Some(number) = bad {
        return Err(Refusal::new(12, number));
    }
    let whole = arrays.is_some_and(|first| first + 2 * ARRAYS <= cells.len());
    if memories.len() != MEMORIES || !whole {
        return Err(Refusal::new(12, cells.len()));
    }
    let finish = usize::from(netlist.finish);
    if sort(cells[finish].kind) != Sort::Control {
        return Err(Refusal::new(12, finish));
    }
    Ok(())
}

/// The rule of refusal 12 that a functional run adds after all others: the last
/// sixteen cells are ors of a word and cell 2.
pub fn check_lasts(netlist: &Netlist) -> Result<(), Refusal> {
    let is_last = |cell: Cell| cell.kind == Operator::Or.kind() && cell.b == ZERO;
    let mut lasts = netlist.lasts().into_iter();
    match lasts.find(|&number| !is_last(netlist.cells[number])) {
        Some(number) => Err(Refusal::new(12, number)),
        None => Ok(()),
    }
}

fn is_good(cells: &[Cell], number: usize) -> bool {
    let cell = cells[number];
    let Some((a, b)) = fields(cell.kind) else {
        return false;
    };
    stands_well(cell, number)
        && (cell.kind == ARRAY || (cell.delay != 0) == (cell.kind == DELAY))
        && field_is_good(cells, number, a, cell.a)
        && field_is_good(cells, number, b, cell.b)
}

/// The first three cells are fixed; start and ground stand nowhere else.
fn stands_well(cell: Cell, number: usize) -> bool {
    match number {
        0 => cell.kind == START,
        1 => cell.kind == GROUND,
        2 => cell.kind == CONSTANT && cell.a == 0,
        _ => cell.kind != START && cell.kind != GROUND,
    }
}

/// Each array and its address stand, array by array, from the first cell after
/// the sixteenth memory on, and nowhere else.
fn is_placed(cell: Cell, number: usize, arrays: Option<usize>) -> bool {
    let place = arrays.and_then(|first| number.checked_sub(first));
    match place.filter(|&place| place < 2 * ARRAYS) {
        Some(place) if place % 2 == 0 => cell.kind == ARRAY && usize::from(cell.delay) == place / 2,
        Some(_) => cell.kind == ADDRESS,
        None => cell.kind != ARRAY && cell.kind != ADDRESS,
    }
}

fn field_is_good(cells: &[Cell], number: usize, field: Field, value: u16) -> bool {
    let input = usize::from(value);
    match field {
        Field::Unused => value == 0,
        Field::Number => true,
        Field::Now(wanted) => input < number && sort(cells[input].kind) == wanted,
        Field::Earlier(wanted) => input < cells.len() && sort(cells[input].kind) == wanted,
    }
}
