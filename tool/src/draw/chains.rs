//! Chains of ors: each takes the result of the one before, which nothing else
//! takes. A chain whose ors stand below each other is drawn as one wide or.

use super::block::{Block, Placed};
use crate::input::Circuit;
use crate::kinds::{inputs, EITHER, OR};
use crate::types::Netlist;
use std::collections::HashMap;

/// The roles of ors that join.
const JOINING: [&str; 5] = ["clock", "data", "address", "callers", "joined"];

/// For each cell the next or of its chain, if it has one. In a program those are the
/// ors that join the wires of many statements, and not those of expressions, which are
/// drawn as they are written.
pub fn chains(circuit: &Circuit) -> Vec<Option<u16>> {
    let netlist = &circuit.netlist;
    let trace = circuit.program.as_ref().map(|(_, trace)| trace);
    let role = |cell: usize| trace.map_or(JOINING[0], |trace| trace.origins[cell].role);
    let readers = readers(netlist);
    let next = |cell: usize| {
        let own = &netlist.cells[cell];
        let [reader] = readers[cell][..] else {
            return None;
        };
        let next = &netlist.cells[usize::from(reader)];
        let ors = matches!(own.kind, EITHER | OR) && own.kind == next.kind;
        let first = usize::from(next.a) == cell && usize::from(netlist.finish) != cell;
        let joins = JOINING.contains(&role(cell)) && role(cell) == role(reader.into());
        (ors && first && joins).then_some(reader)
    };
    (0..netlist.cells.len()).map(next).collect()
}

/// For each cell those that take its wire in, once for each port.
fn readers(netlist: &Netlist) -> Vec<Vec<u16>> {
    let mut readers = vec![Vec::new(); netlist.cells.len()];
    for (number, cell) in (0..).zip(&netlist.cells) {
        for wire in inputs(cell) {
            readers[usize::from(wire)].push(number);
        }
    }
    readers
}

/// The chains that can be drawn as one: an or stands right above the next.
pub fn drawn(mut chains: Vec<Option<u16>>, block: &Block) -> Vec<Option<u16>> {
    let places: HashMap<u16, Placed> = block.cells.iter().map(|p| (p.cell, *p)).collect();
    for (cell, next) in (0..).zip(&mut chains) {
        let above = |next: &u16| {
            let (Some(own), Some(below)) = (places.get(&cell), places.get(next)) else {
                return false;
            };
            own.column == below.column && own.row + 1 == below.row
        };
        *next = next.filter(above);
    }
    chains
}

/// The ors of the chain that ends with this cell, the first one first.
pub fn ending(chains: &[Option<u16>], last: u16) -> Vec<u16> {
    let mut chain = vec![last];
    while let Some(before) = chains.iter().position(|next| *next == Some(chain[0])) {
        chain.insert(0, before as u16);
    }
    chain
}
