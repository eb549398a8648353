//! A cell of a netlist.

/// The six bytes of a cell, laid out as C does it: none between the fields.
#[repr(C)]
#[derive(Clone, Copy, Debug, PartialEq, Eq)]
pub struct Cell {
    pub kind: u8,
    pub delay: u8,
    pub a: u16,
    pub b: u16,
}

impl Cell {
    pub const LENGTH: usize = 6;

    pub const fn new(kind: u8, delay: u8, a: u16, b: u16) -> Cell {
        Cell { kind, delay, a, b }
    }

    /// The six bytes of a cell, low bytes first.
    pub fn bytes(self) -> [u8; Cell::LENGTH] {
        let ([a, a_high], [b, b_high]) = (self.a.to_le_bytes(), self.b.to_le_bytes());
        [self.kind, self.delay, a, a_high, b, b_high]
    }

    /// The six bytes of each of these cells.
    pub fn all_bytes(cells: &[Cell]) -> Vec<u8> {
        cells.iter().flat_map(|cell| cell.bytes()).collect()
    }

    /// The cells that stand in these bytes, six for each.
    pub fn all_of(bytes: &[u8]) -> Vec<Cell> {
        let number = |low, high| u16::from_le_bytes([low, high]);
        let cell = |bytes: &[u8]| {
            let [a, b] = [number(bytes[2], bytes[3]), number(bytes[4], bytes[5])];
            Cell::new(bytes[0], bytes[1], a, b)
        };
        bytes.chunks_exact(Cell::LENGTH).map(cell).collect()
    }
}
