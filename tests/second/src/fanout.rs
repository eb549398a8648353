//! The fan-out of each wire: who is to be told when it changes.

use crate::cells::{fields, Field, Netlist, DELAY, LATCH};

pub struct Fanout {
    /// For each wire, the cells that read it at the same instant.
    pub readers: Vec<Vec<usize>>,
    /// For each wire, the delays that it feeds.
    pub delays: Vec<Vec<usize>>,
    /// For each wire, the latches that look at it an instant later.
    pub latches: Vec<Vec<usize>>,
}

impl Fanout {
    /// The fan-out in a netlist that refusal 12 has passed. The data of memories
    /// and arrays, and addresses, stand in no list: the fall of the clock
    /// alone makes them look.
    pub fn of(netlist: &Netlist) -> Fanout {
        let none = vec![Vec::new(); netlist.cells.len()];
        let [mut readers, mut delays, mut latches] = [none.clone(), none.clone(), none];
        for (number, cell) in netlist.cells.iter().enumerate() {
            let (a, b) = fields(cell.kind).expect("refusal 12 keeps other kinds out");
            for (field, wire) in [(a, usize::from(cell.a)), (b, usize::from(cell.b))] {
                match (field, cell.kind) {
                    (Field::Now(_), _) => readers[wire].push(number),
                    (Field::Earlier(_), DELAY) => delays[wire].push(number),
                    (Field::Earlier(_), LATCH) => latches[wire].push(number),
                    (Field::Earlier(_) | Field::Number | Field::Unused, _) => {}
                }
            }
        }
        Fanout {
            readers,
            delays,
            latches,
        }
    }
}
