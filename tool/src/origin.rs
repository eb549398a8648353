//! Where each cell of a compiled netlist comes from. A walk over the program's
//! nodes lays the cells out, and these are held against the product's, cell
//! for cell: what is told of a cell is told of the product's.

mod functional;
mod walk;

use crate::store::VARIABLES;
use crate::types::{Fault, Netlist, Node, Origin};

/// The wires of a statement at which its pulse comes in and leaves.
#[derive(Clone, Copy, Debug, PartialEq, Eq)]
pub struct Ends {
    pub start: u16,
    pub finish: u16,
}

/// A word that a statement has written and hands on, on a wire of its own.
#[derive(Clone, Copy, Debug, PartialEq, Eq)]
pub struct HandedOn {
    pub node: usize,
    pub variable: u16,
    pub wire: u16,
}

/// What the walk over a program's nodes found.
#[derive(Clone, Debug, PartialEq, Eq)]
pub struct Trace {
    /// For each cell.
    pub origins: Vec<Origin>,
    /// For each node that is a statement.
    pub ends: Vec<Option<Ends>>,
    /// For each node that is an expression, the wire of its value.
    pub values: Vec<Option<u16>>,
    /// The cell of variable 0's memory; the others follow.
    pub first_memory: u16,
    /// The words that statements of a functional circuit hand on.
    pub words: Vec<HandedOn>,
}

impl Trace {
    /// The cell of an array; its address is the next. The first array follows
    /// the last memory.
    pub fn array(&self, array: u16) -> u16 {
        array_behind(self.first_memory, array)
    }
}

fn array_behind(first_memory: u16, array: u16) -> u16 {
    first_memory + VARIABLES as u16 + 2 * array
}

/// The trace of a program with so many procedures whose netlist is this one.
pub fn trace(procedures: usize, nodes: &[Node], netlist: &Netlist) -> Result<Trace, Fault> {
    held(walk::lay_out(procedures, netlist.pulse, nodes), netlist)
}

/// The trace of a program whose functional netlist is this one.
pub fn trace_functional(nodes: &[Node], netlist: &Netlist) -> Result<Trace, Fault> {
    held(functional::lay_out(nodes), netlist)
}

/// What was laid out, if it is the product's netlist.
fn held((own, trace): (Netlist, Trace), netlist: &Netlist) -> Result<Trace, Fault> {
    if own != *netlist {
        let message = "the tool lays out other cells than the product has compiled";
        return Err(Fault::internal(message));
    }
    Ok(trace)
}
