//! A simulator of full states that walks over all cells at each instant, by the
//! equations, and goes wrong about arrays, merges or latches as it is told.

use crate::equations::{element_place, Step};
use crate::flight;
use crate::formats::{instant_of, wire_of};
use crate::lend::{state_length, ARRAYS};
use peers::{Reply, SECOND};
use second::cells::{Netlist, LATCH, MERGE, READ, RETURN};
use second::netfile;
use values::{Answer, Circuit, Format};

#[derive(Clone, Copy, PartialEq)]
pub enum Fault {
    None,
    AddressOfTheFall,
    SevenBits,
    StaleRead,
    NotCleared,
    DroppedAtOutput,
    WordOfTheNextInstant,
}

/// A continuing of a full state with a fault; what is refused is refused as it
/// must be.
pub fn walked(fault: Fault, format: Format, file: &[u8], n: u32, state: &[u8]) -> Reply<Answer> {
    walked_of(Circuit::Imperative, fault, format, file, n, state)
}

/// The same of a run of either circuit.
pub fn walked_of(
    circuit: Circuit,
    fault: Fault,
    format: Format,
    file: &[u8],
    n: u32,
    state: &[u8],
) -> Reply<Answer> {
    let right = SECOND.continue_of(circuit)(format, file, n, state);
    let (Format::Full, Ok(netlist), Ok(_)) = (format, netfile::read(file), right.result) else {
        return right;
    };
    let walk = Walk::new(netlist, fault);
    let (run, past) = state.split_at(state_length(format, walk.netlist.cells.len()));
    let mut run = run.to_vec();
    let mut count = 0;
    while count < n && (count == 0 || !walk.finished(&run)) {
        run = walk.next(&run, false);
        count += 1;
    }
    Reply {
        result: Ok(walk.answer(circuit, &run, count)),
        lent: vec![[&run, past].concat()],
    }
}

pub struct Walk {
    pub netlist: Netlist,
    fault: Fault,
    /// The same cells for pulses of one instant.
    short: Netlist,
}

impl Walk {
    pub fn new(netlist: Netlist, fault: Fault) -> Walk {
        let short = Netlist {
            pulse: 1,
            ..netlist.clone()
        };
        Walk {
            netlist,
            fault,
            short,
        }
    }

    pub fn finished(&self, state: &[u8]) -> bool {
        wire_of(Format::Full, state, self.netlist.finish) == 1
    }

    pub fn answer(&self, circuit: Circuit, state: &[u8], count: u32) -> Answer {
        let shown = match circuit {
            Circuit::Imperative => self.netlist.memories(),
            Circuit::Functional => self.netlist.lasts(),
        };
        let shown: [usize; 16] = shown.try_into().expect("sixteen");
        Answer {
            ended: self.finished(state),
            instant: instant_of(state),
            count,
            words: shown.map(|cell| wire_of(Format::Full, state, cell as u16)),
        }
    }

    /// The state an instant later, for which a start is given or not. Values come
    /// a second time after the writes, which the reads then show.
    pub fn next(&self, before: &[u8], starts: bool) -> Vec<u8> {
        let mut after = before.to_vec();
        after[..4].copy_from_slice(&(instant_of(before) + 1).to_le_bytes());
        self.put_values(before, &mut after, starts);
        let step = self.step(0, before, &after, starts);
        let elements = step.written(|array, address| match self.fault {
            Fault::AddressOfTheFall => self.place(array, step.now(address)),
            _ => self.place(array, step.ago(address)),
        });
        let arrays = after.len() - ARRAYS;
        after[arrays..].copy_from_slice(&elements);
        if self.fault != Fault::StaleRead {
            self.put_values(before, &mut after, starts);
        }
        self.put_rest(before, &mut after, starts);
        let number = flight::counted(Format::Full, &self.netlist.cells, &after);
        flight::tell(&mut after, number);
        after
    }

    /// The equations of a cell; the short ones where a merge drops its bits at its
    /// output.
    fn step<'a>(
        &'a self,
        cell: usize,
        before: &'a [u8],
        after: &'a [u8],
        starts: bool,
    ) -> Step<'a> {
        let dropped = self.fault == Fault::DroppedAtOutput;
        Step {
            format: Format::Full,
            netlist: match self.netlist.cells[cell].kind {
                MERGE | RETURN if dropped => &self.short,
                _ => &self.netlist,
            },
            words: &[],
            before,
            after,
            instant: instant_of(after),
            starts,
        }
    }

    /// The place of an element in the bytes of the arrays.
    fn place(&self, array: u8, index: u16) -> usize {
        match self.fault {
            Fault::SevenBits => (element_place(array, 0) + 2 * usize::from(index % 128)) % ARRAYS,
            _ => element_place(array, index),
        }
    }

    /// The value of each cell, from those of lower cells and the arrays.
    fn put_values(&self, before: &[u8], after: &mut [u8], starts: bool) {
        for (number, cell) in self.netlist.cells.iter().enumerate() {
            let step = self.step(number, before, after, starts);
            let value = match cell.kind {
                READ => {
                    let array = self.netlist.cells[usize::from(cell.a)].delay;
                    let place = after.len() - ARRAYS + self.place(array, step.now(cell.b));
                    u16::from_le_bytes([after[place], after[place + 1]])
                }
                LATCH if self.fault == Fault::WordOfTheNextInstant && step.ago(cell.a) == 1 => {
                    step.now(cell.b)
                }
                _ => step.value(number),
            };
            after[8 + 40 * number..][..2].copy_from_slice(&value.to_le_bytes());
        }
    }

    /// What a cell keeps beside its value.
    fn put_rest(&self, before: &[u8], after: &mut [u8], starts: bool) {
        for number in 0..self.netlist.cells.len() {
            let mut kept = self.step(number, before, after, starts).expected(number);
            let called = before[8 + 40 * number + 4] | kept[4] | kept[0];
            if self.fault == Fault::NotCleared && self.netlist.cells[number].kind == RETURN {
                kept[4] = called;
            }
            after[8 + 40 * number..][2..40].copy_from_slice(&kept[2..]);
        }
    }
}
