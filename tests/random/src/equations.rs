//! The paper's equations, as what every byte of a state must be beside the state an
//! instant before.

use crate::formats::*;
use crate::lend::{ARRAYS, WORDS};
use second::cells::*;
use second::operator::Operator;
use values::{Cell, Format};

/// The bytes of the arrays, which stand last.
pub fn elements_of(state: &[u8]) -> &[u8] {
    &state[state.len() - ARRAYS..]
}

/// The place of an element in these bytes.
pub fn element_place(array: u8, index: u16) -> usize {
    128 * usize::from(array) + 2 * usize::from(index % 64)
}

/// Two states, the second an instant after the first. A wire at the same instant
/// is taken from the later state itself, so these are equations that the state must
/// obey, and no second way to compute it.
pub struct Step<'a> {
    pub format: Format,
    pub netlist: &'a Netlist,
    /// Of these only instant 0 asks.
    pub words: &'a [u8],
    pub before: &'a [u8],
    pub after: &'a [u8],
    pub instant: u32,
    /// Whether a start is given for the later one.
    pub starts: bool,
}

impl Step<'_> {
    pub fn now(&self, wire: u16) -> u16 {
        wire_of(self.format, self.after, wire)
    }

    pub fn ago(&self, wire: u16) -> u16 {
        wire_of(self.format, self.before, wire)
    }

    /// The bytes that a cell must have in the later state.
    pub fn expected(&self, cell: usize) -> Vec<u8> {
        let (held_a, held_b) = self.held(cell);
        let mut bytes = vec![];
        bytes.extend(self.value(cell).to_le_bytes());
        bytes.extend(self.ago(cell as u16).to_le_bytes());
        bytes.extend([u8::from(held_a), u8::from(held_b)]);
        match self.format {
            Format::Full => {
                bytes.extend([0, 0]);
                bytes.extend(self.line(cell));
            }
            Format::Compact => bytes.extend([self.left(cell), 0]),
        }
        bytes
    }

    /// The value that a cell's equation gives it.
    pub fn value(&self, number: usize) -> u16 {
        let Cell { kind, delay, a, b } = self.netlist.cells[number];
        let now = |wire: u16| self.now(wire);
        match kind {
            START => u16::from(self.starts || remaining_in(self.before(number)) > 0),
            GROUND => 0,
            CONSTANT => a,
            DELAY => self.output(number, delay),
            OR => now(a) | now(b),
            WHEN => u16::from(now(a) == 1 && now(b) != 0),
            UNLESS => u16::from(now(a) == 1 && now(b) == 0),
            MERGE | RETURN => u16::from(self.puts_out(number)),
            MEMORY => self.memory(number, a, b),
            LATCH if self.ago(a) == 1 => self.ago(b),
            LATCH => self.ago(number as u16),
            GATE => now(a) * now(b),
            ARRAY | ADDRESS => 0,
            READ => self.element(self.netlist.cells[usize::from(a)].delay, now(b)),
            _ => Operator::of_kind(kind).map_or(0, |operator| operator.apply(now(a), now(b))),
        }
    }

    /// What comes out of a delay: the input of so many instants ago, or a pulse
    /// of which one instant was left.
    fn output(&self, number: usize, delay: u8) -> u16 {
        let before = self.before(number);
        match self.format {
            Format::Full => input_in(before, usize::from(delay) - 1).into(),
            Format::Compact => u16::from(left_in(before) == 1),
        }
    }

    /// The bytes of a cell in the earlier state.
    fn before(&self, number: usize) -> &[u8] {
        bytes_of(self.format, self.before, number)
    }

    /// The lowest line of a compact state that a pulse enters too early.
    pub fn crowded(&self) -> Option<usize> {
        let high = |wire: u16| self.now(wire) == 1;
        match self.format {
            Format::Full => None,
            Format::Compact => crowded(&self.netlist.cells, self.before, high),
        }
    }

    fn memory(&self, number: usize, clock: u16, data: u16) -> u16 {
        if self.instant == 0 {
            return self.start_word(number);
        }
        self.ago(if self.falls(clock) {
            data
        } else {
            number as u16
        })
    }

    fn falls(&self, clock: u16) -> bool {
        self.now(clock) == 0 && self.ago(clock) == 1
    }

    /// An element in the later state.
    fn element(&self, array: u8, index: u16) -> u16 {
        let bytes = &elements_of(self.after)[element_place(array, index)..];
        u16::from_le_bytes([bytes[0], bytes[1]])
    }

    /// The bytes that the arrays must have in the later state.
    pub fn elements(&self) -> Vec<u8> {
        if self.instant == 0 {
            return self.words[WORDS - ARRAYS..WORDS].to_vec();
        }
        self.written(|array, address| element_place(array, self.ago(address)))
    }

    /// The bytes of the arrays after the writes of this instant, each to the
    /// place that is told for its array and the wire of its address.
    pub fn written(&self, place: impl Fn(u8, u16) -> usize) -> Vec<u8> {
        let mut bytes = elements_of(self.before).to_vec();
        for pair in self.netlist.cells.windows(2) {
            let [cell, address] = [pair[0], pair[1]];
            if cell.kind == ARRAY && self.falls(cell.a) {
                let place = place(cell.delay, address.a);
                bytes[place..place + 2].copy_from_slice(&self.ago(cell.b).to_le_bytes());
            }
        }
        bytes
    }

    /// The start word of a memory: the k-th by number is variable k.
    fn start_word(&self, number: usize) -> u16 {
        let lower = &self.netlist.cells[..number];
        let variable = lower.iter().filter(|cell| cell.kind == MEMORY).count();
        let words = &self.words[2 * variable..];
        u16::from_le_bytes([words[0], words[1]])
    }

    /// A and B of the paper: each input of a merge, or its held bit. A call's merge
    /// never holds b.
    fn merged(&self, number: usize) -> (bool, bool) {
        let Cell { a, b, .. } = self.netlist.cells[number];
        let held = self.before(number);
        (
            self.now(a) == 1 || held[4] == 1,
            self.now(b) == 1 || held[5] == 1,
        )
    }

    /// Whether a merge puts out 1: with longer pulses a parallel node's needs an
    /// input for it, too.
    fn puts_out(&self, number: usize) -> bool {
        let Cell { kind, a, b, .. } = self.netlist.cells[number];
        let needs_input = self.is_long() && kind == MERGE;
        let has_input = self.now(a) == 1 || self.now(b) == 1;
        self.merged(number) == (true, true) && (has_input || !needs_input)
    }

    fn is_long(&self) -> bool {
        self.netlist.pulse > 1
    }

    /// The bits held afterwards; cells other than merges hold none. They become 0 as
    /// the output is 1, with longer pulses as it falls.
    fn held(&self, number: usize) -> (bool, bool) {
        let kind = self.netlist.cells[number].kind;
        if ![MERGE, RETURN].contains(&kind) {
            return (false, false);
        }
        let (was, is) = (self.ago(number as u16) == 1, self.puts_out(number));
        let cleared = if self.is_long() { was && !is } else { is };
        match self.merged(number) {
            _ if cleared => (false, false),
            (called, _) if kind == RETURN => (called, false),
            held => held,
        }
    }

    /// The last 256 inputs of a delay, and what remains of start; other cells have
    /// neither.
    fn line(&self, number: usize) -> [u8; 32] {
        let (cell, before) = (self.netlist.cells[number], self.before(number));
        let mut line = [0; 32];
        match cell.kind {
            START if self.starts => line[0] = self.netlist.pulse - 1,
            START => line[0] = remaining_in(before).saturating_sub(1),
            DELAY => {
                line[0] = self.now(cell.a) as u8;
                for bit in 1..256 {
                    line[bit / 8] |= input_in(before, bit - 1) << (bit % 8);
                }
            }
            _ => {}
        }
        line
    }

    /// The instants until a pulse comes out: all where one has entered, else one
    /// less than before.
    fn left(&self, number: usize) -> u8 {
        let Cell { kind, delay, a, .. } = self.netlist.cells[number];
        match kind {
            DELAY if self.now(a) == 1 => delay,
            DELAY => left_in(self.before(number)).saturating_sub(1),
            _ => 0,
        }
    }
}
