//! The wires that are shown: those that have names in every circuit, those of
//! a program's statements, and those that were asked for.

use super::named::{by_nodes, of_cell, of_every, of_list, of_statements, of_stores};
use super::{Shows, Wire};
use crate::input::Circuit;
use crate::kinds::{is_idle, CONSTANT};
use crate::names::Names;
use crate::source::nearest;
use crate::store::{self, VARIABLES};
use crate::types::{Fault, Netlist, Wiring};

/// The wires asked for, elements and the number in flight among them, or else those that have a name:
/// all, or all but memories that nothing writes to.
pub fn wires(
    circuit: &Circuit,
    text: &[u8],
    asked: Option<&str>,
    all: bool,
) -> Result<Vec<Wire>, Fault> {
    let names = circuit.names();
    let mut named = of_every(circuit, &names);
    named.extend(of_statements(circuit, text)?);
    named.extend(of_list(circuit));
    let Some(asked) = asked else {
        let shown = |wire: &Wire| all || is_shown(circuit, wire);
        return Ok(named.into_iter().filter(shown).collect());
    };
    named.extend(of_stores(circuit, &names));
    let known = Known {
        named,
        by_nodes: match &circuit.program {
            Some((program, trace)) => by_nodes(program, trace, &circuit.netlist),
            None => Vec::new(),
        },
        netlist: &circuit.netlist,
        names,
    };
    asked.split(',').map(|word| known.chosen(word)).collect()
}

/// Whether a wire is more than an idle memory, a constant, or a word that is as at the
/// start.
fn is_shown(circuit: &Circuit, wire: &Wire) -> bool {
    match wire.shows {
        Shows::Cell(cell) => moves(circuit, cell),
        Shows::Element(_) | Shows::InFlight | Shows::StartLeft => true,
    }
}

/// The same of a cell.
pub fn moves(circuit: &Circuit, cell: u16) -> bool {
    let cells = &circuit.netlist.cells;
    let idle = |cell: u16| is_idle(&cells[usize::from(cell)]);
    let at = usize::from(cell);
    let last = circuit.wiring == Wiring::Functional && at >= cells.len() - VARIABLES;
    !idle(cell) && cells[at].kind != CONSTANT && !(last && idle(cells[at].a))
}

/// What can be asked for.
struct Known<'c> {
    named: Vec<Wire>,
    by_nodes: Vec<Wire>,
    netlist: &'c Netlist,
    names: Names,
}

impl Known<'_> {
    /// A wire by its name or its cell, or an element, also under a name of its own:
    /// NAME=WIRE.
    fn chosen(&self, word: &str) -> Result<Wire, Fault> {
        let (own, wire) = match word.split_once('=') {
            Some((own, wire)) => (Some(name_of(own)?), wire),
            None => (None, word),
        };
        let mut wires = self.named.iter().chain(&self.by_nodes);
        let found = match wires.find(|known| known.name == wire) {
            Some(known) => known.clone(),
            None => of_number(self.netlist, wire)
                .or_else(|| of_place(&self.named, &self.names, wire))
                .or_else(|| of_state(wire))
                .ok_or_else(|| unknown(&self.named, &self.names, wire))?,
        };
        Ok(match own {
            Some(name) => Wire {
                name,
                about: String::new(),
                scope: Vec::new(),
                ..found
            },
            None => found,
        })
    }
}

/// A name that a dump can have, too.
fn name_of(word: &str) -> Result<String, Fault> {
    let fits = |letter: char| letter.is_ascii_alphanumeric() || "_.".contains(letter);
    match !word.is_empty() && word.chars().all(fits) {
        true => Ok(word.to_string()),
        false => {
            let message = format!("'{word}' is no name for a wire: letters, digits, _ and . are");
            Err(Fault::usage(message))
        }
    }
}

fn of_number(netlist: &Netlist, number: &str) -> Option<Wire> {
    let cell: u16 = number.parse().ok()?;
    let there = usize::from(cell) < netlist.cells.len();
    there.then(|| of_cell(netlist, format!("cell{cell}"), cell))
}

/// A word by its number where it has a name, or an element by either.
fn of_place(named: &[Wire], names: &Names, name: &str) -> Option<Wire> {
    let place = names.place(name)?;
    let own = names.at(place);
    if !store::OF_ARRAYS.contains(&place) {
        return named.iter().find(|wire| wire.name == own).cloned();
    }
    Some(Wire {
        name: own,
        about: String::new(),
        scope: Vec::new(),
        shows: Shows::Element(place),
        control: false,
    })
}

/// What a state tells beside its cells, which is asked for by its name alone.
fn of_state(name: &str) -> Option<Wire> {
    let (_, shows) = OF_STATE.iter().find(|(known, _)| *known == name)?;
    Some(Wire {
        name: name.to_string(),
        about: String::new(),
        scope: Vec::new(),
        shows: *shows,
        control: false,
    })
}

const OF_STATE: [(&str, Shows); 2] = [
    ("in_flight", Shows::InFlight),
    ("start_left", Shows::StartLeft),
];

fn unknown(named: &[Wire], names: &Names, name: &str) -> Fault {
    let wires: Vec<&str> = named.iter().map(|wire| wire.name.as_str()).collect();
    let near = match nearest(name, wires.iter().copied()) {
        Some(near) => format!("did you mean {near}? "),
        None => String::new(),
    };
    let wires = wires.join(", ");
    let of_state = OF_STATE.map(|(name, _)| name).join(", ");
    let element = match names.arrays.first() {
        Some(array) => format!("{array}[5]"),
        None => "a2[5]".to_string(),
    };
    Fault::usage(format!(
        "no wire is called '{name}'; {near}there are cells by number, elements as {element}, \
         {of_state}, and {wires}"
    ))
}
