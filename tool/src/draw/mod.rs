//! A circuit as a picture: cells are placed on a grid (`place`, `functional`, and `level`
//! where there is no program), wires are laid in the channels between its
//! columns and rows (`route`), and both are drawn (`svg`). `dot` leaves all of
//! this to Graphviz.

mod block;
mod chains;
pub mod dot;
mod functional;
mod level;
mod place;
mod route;
mod scale;
pub mod svg;

use crate::input::Circuit;
use crate::kinds::{inputs, is_control, is_idle, is_store, ADDRESS, ARRAY, MEMORY, START};
use crate::labels;
use crate::listing::words_of;
use crate::store::VARIABLES;
use crate::types::{Cell, Fault, Netlist, Wiring};
use block::Block;

/// Stands among the cells for the end of the finish wire.
const FINISH: u16 = u16::MAX;

/// What is drawn, with its places on the grid.
struct Plan<'c> {
    netlist: &'c Netlist,
    wiring: Wiring,
    /// The variables of memories and arrays, at their cells; in a functional circuit also
    /// those of the words that a cell is about.
    variables: Vec<Option<String>>,
    /// The names that a list gives to its cells.
    listed: Vec<Option<String>>,
    block: Block,
    /// The next or of a chain that is drawn as one.
    chains: Vec<Option<u16>>,
}

impl<'c> Plan<'c> {
    fn of(circuit: &'c Circuit, text: &[u8], all: bool) -> Result<Plan<'c>, Fault> {
        let (netlist, wiring) = (&circuit.netlist, circuit.wiring);
        let shown = shown(netlist, wiring, all);
        let chains = chains::chains(circuit);
        let block = match &circuit.program {
            Some((program, trace)) => {
                let labels = labels::Labels::of(program, text)?;
                match wiring {
                    Wiring::Imperative => place::placed(netlist, trace, &labels, &shown),
                    Wiring::Functional => functional::placed(netlist, trace, &labels, &shown),
                }
            }
            None => level::placed(netlist, &chains, &shown),
        };
        Ok(Plan {
            netlist,
            wiring,
            variables: variables(circuit),
            listed: match &circuit.listed {
                Some(listed) => listed.names.clone(),
                None => vec![None; netlist.cells.len()],
            },
            chains: chains::drawn(chains, &block),
            block,
        })
    }

    /// The wires that a cell takes in, in the order of its ports.
    fn inputs(&self, cell: u16) -> Vec<u16> {
        match cell {
            FINISH => vec![self.netlist.finish],
            cell => inputs(&self.netlist.cells[usize::from(cell)]),
        }
    }

    /// The next or of a cell's chain.
    fn next(&self, cell: u16) -> Option<u16> {
        self.chains.get(usize::from(cell)).copied().flatten()
    }

    /// The ors of a chain that ends with this cell; a cell that is in none is one
    /// alone.
    fn chain(&self, last: u16) -> Vec<u16> {
        chains::ending(&self.chains, last)
    }

    /// The last or of the chain that a cell is in.
    fn wide(&self, mut cell: u16) -> u16 {
        while let Some(next) = self.next(cell) {
            cell = next;
        }
        cell
    }

    /// Whether a wire goes from an or to the next of its chain, inside of one box.
    fn is_inside(&self, wire: u16, to: u16) -> bool {
        self.next(wire) == Some(to)
    }

    /// The number of a cell, or those of a chain.
    fn numbers(&self, last: u16) -> String {
        match self.chain(last)[..] {
            [first, .., last] => format!("{first} to {last}"),
            _ => last.to_string(),
        }
    }

    /// What stands in a cell's box.
    fn title(&self, cell: u16) -> String {
        if cell == FINISH {
            return "finish".to_string();
        }
        let at = usize::from(cell);
        let own = &self.netlist.cells[at];
        match (&self.variables[at], own.kind) {
            (Some(array), ARRAY) => format!("array {array}"),
            (Some(array), ADDRESS) => format!("address {array}"),
            (Some(variable), MEMORY) => format!("memory {variable}"),
            (Some(variable), _) => format!("{} {variable}", self.words(cell)),
            (None, START) if self.netlist.pulse > 1 => {
                format!("start for {}", self.netlist.pulse)
            }
            (None, _) => match &self.listed[at] {
                Some(name) => format!("{name}: {}", self.words(cell)),
                None => self.words(cell),
            },
        }
    }

    /// The words for a cell, or for the chain that ends with it.
    fn words(&self, cell: u16) -> String {
        let own = &self.netlist.cells[usize::from(cell)];
        let title = title(&words_of(own), self.inputs(cell).len());
        let ors = self.chain(cell).len();
        match ors > 1 && self.next(cell).is_none() {
            true => format!("{title} of {}", ors + 1),
            false => title,
        }
    }

    fn is_control(&self, cell: u16) -> bool {
        is_control(self.netlist.cells[usize::from(cell)].kind)
    }

    /// The name by which a wire is known everywhere: that of a memory or an array, and in
    /// a functional circuit 0, which many cells read. No cell reads an address.
    fn tag(&self, wire: u16) -> Option<&str> {
        if wire == ZERO && self.wiring == Wiring::Functional {
            return Some("0");
        }
        let at = usize::from(wire);
        let name = self.variables[at].as_deref();
        name.filter(|_| matches!(self.netlist.cells[at].kind, MEMORY | ARRAY))
    }
}

/// The cell that is always 0.
const ZERO: u16 = 2;

/// The variables that cells are about.
fn variables(circuit: &Circuit) -> Vec<Option<String>> {
    let names = circuit.names();
    let mut variables = labels::of_stores(&circuit.netlist, &names);
    for (name, cell) in labels::of_last(circuit) {
        variables[usize::from(cell)] = Some(name);
    }
    if let Some((_, trace)) = &circuit.program {
        for (variable, origin) in variables.iter_mut().zip(&trace.origins) {
            let own = origin.word.map(|word| names.word(word));
            *variable = own.or(variable.take());
        }
    }
    variables
}

/// The words of a cell without its inputs.
fn title(words: &str, inputs: usize) -> String {
    let words: Vec<&str> = words.split(' ').collect();
    match words[..] {
        ["delay", time, ..] => format!("delay {time}"),
        ["when", truth, ..] => format!("when {truth}"),
        _ if inputs == 0 => words.join(" "),
        _ => words[0].to_string(),
    }
}

/// The cells that are drawn if not all are: no idle memories and arrays, and
/// of those that every netlist has only what something drawn takes in, the
/// finish among it. Of the last cells of a functional circuit those are left out that
/// carry a word as it was at the start; its 0 is a name.
fn shown(netlist: &Netlist, wiring: Wiring, all: bool) -> Vec<bool> {
    let cells = &netlist.cells;
    let mut shown: Vec<bool> = cells.iter().map(|cell| all || !is_idle(cell)).collect();
    if wiring == Wiring::Functional {
        for (at, cell) in cells.iter().enumerate().skip(cells.len() - VARIABLES) {
            shown[at] = all || !is_idle(&cells[usize::from(cell.a)]);
        }
    }
    for fixed in [1, ZERO] {
        let takes = |(cell, shown): (&Cell, &bool)| *shown && inputs(cell).contains(&fixed);
        let taken = cells.iter().zip(&shown).any(takes);
        let named = fixed == ZERO && wiring == Wiring::Functional;
        shown[usize::from(fixed)] = all || taken && !named || netlist.finish == fixed;
    }
    shown
}

/// With the end of the finish wire, beside the cell that drives it.
fn with_finish(block: Block, netlist: &Netlist) -> Block {
    let drives = |placed: &&block::Placed| placed.cell == netlist.finish;
    let row = block
        .cells
        .iter()
        .find(drives)
        .map_or(0, |placed| placed.row);
    let column = block.width;
    block.with(FINISH, column, row)
}

/// The cells of memories and arrays that are drawn, one below the other.
fn stores(netlist: &Netlist, shown: &[bool]) -> Vec<u16> {
    let store = |cell: &u16| {
        let at = usize::from(*cell);
        is_store(netlist.cells[at].kind) && shown[at]
    };
    (0..netlist.cells.len() as u16).filter(store).collect()
}
