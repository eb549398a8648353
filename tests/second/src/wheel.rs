//! The event wheel: which cells are to be evaluated at which coming instant.
//!
//! A delay is 255 at most, so 256 slots, used round and round, never hold
//! cells of two instants at once. A slot is a set of cells, as bits.

use crate::line::Instant;

const SLOTS: usize = 256;

pub struct Wheel {
    /// The 64-bit words of one slot.
    width: usize,
    bits: Vec<u64>,
}

impl Wheel {
    /// An empty wheel for this many cells.
    pub fn new(cells: usize) -> Wheel {
        let width = cells.div_ceil(64);
        Wheel {
            width,
            bits: vec![0; SLOTS * width],
        }
    }

    /// Has a cell evaluated at an instant, at most 255 ahead.
    pub fn wake(&mut self, cell: usize, at: Instant) {
        self.slot(at)[cell / 64] |= 1 << (cell % 64);
    }

    /// Takes the lowest cell still to be evaluated at an instant.
    pub fn take(&mut self, at: Instant) -> Option<usize> {
        let slot = self.slot(at);
        let word = slot.iter().position(|&bits| bits != 0)?;
        let bit = slot[word].trailing_zeros() as usize;
        slot[word] &= slot[word] - 1;
        Some(64 * word + bit)
    }

    fn slot(&mut self, at: Instant) -> &mut [u64] {
        let from = at.rem_euclid(SLOTS as Instant) as usize * self.width;
        &mut self.bits[from..from + self.width]
    }
}
