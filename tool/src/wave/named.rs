//! What wires are called: those that every circuit has, `start`, `finish`, `x0`,
//! `x0.clock`; those of statements, by line and word, `line3.while.start`; and those
//! of a list, by the names that it gives.

use super::{Shows, Wire};
use crate::format::Tree;
use crate::input::{Circuit, Program};
use crate::kinds::{is_control, ADDRESS, ARRAY, MEMORY, NODES};
use crate::labels::{self, Labels};
use crate::names::Names;
use crate::origin::{Ends, Trace};
use crate::types::{Fault, Netlist, Wiring};
use std::collections::BTreeMap;

const SEQUENCE: u8 = 19;
const ASSIGNMENT: u8 = 18;
const ELEMENT_ASSIGNMENT: u8 = 24;

/// Start, finish and the words: the memories, or in a functional circuit the last sixteen
/// cells, and behind them the memories, which keep the start words.
pub fn of_every(circuit: &Circuit, names: &Names) -> Vec<Wire> {
    let netlist = &circuit.netlist;
    let mut wires = vec![
        of_cell(netlist, "start".to_string(), 0),
        of_cell(netlist, "finish".to_string(), netlist.finish),
    ];
    let last = labels::of_last(circuit).into_iter();
    wires.extend(last.map(|(name, cell)| of_cell(netlist, name, cell)));
    let memories = (0..).zip(labels::of_memories(netlist, names));
    wires.extend(memories.filter_map(|(cell, name)| {
        let name = of_memory(circuit.wiring, name?);
        Some(of_cell(netlist, name, cell))
    }));
    wires
}

/// What the memory of a word is called.
fn of_memory(wiring: Wiring, word: String) -> String {
    match wiring {
        Wiring::Imperative => word,
        Wiring::Functional => format!("{word}.memory"),
    }
}

/// What memories and arrays take in: `x0.clock`, `x0.data`, `a2.address`.
pub fn of_stores(circuit: &Circuit, names: &Names) -> Vec<Wire> {
    let netlist = &circuit.netlist;
    let mut wires = Vec::new();
    for (cell, name) in netlist.cells.iter().zip(labels::of_stores(netlist, names)) {
        let Some(mut name) = name else { continue };
        if cell.kind == MEMORY {
            name = of_memory(circuit.wiring, name);
        }
        let inputs: &[(&str, u16)] = match cell.kind {
            MEMORY | ARRAY => &[("clock", cell.a), ("data", cell.b)],
            ADDRESS => &[("address", cell.a)],
            _ => &[],
        };
        let own = |(input, wire): &(&str, u16)| of_cell(netlist, format!("{name}.{input}"), *wire);
        wires.extend(inputs.iter().map(own));
    }
    wires
}

/// The cells of a list that have names, but for memories, which are named already.
pub fn of_list(circuit: &Circuit) -> Vec<Wire> {
    let Some(listed) = &circuit.listed else {
        return Vec::new();
    };
    let netlist = &circuit.netlist;
    let named = (0..).zip(&listed.names).zip(&netlist.cells);
    let named = named.filter(|(_, cell)| ![MEMORY, ARRAY, ADDRESS].contains(&cell.kind));
    named
        .filter_map(|((number, name), _)| Some(of_cell(netlist, name.clone()?, number)))
        .collect()
}

/// Start and finish of each statement that is more than a sequence, and in a functional
/// circuit the words that it hands on.
pub fn of_statements(circuit: &Circuit, text: &[u8]) -> Result<Vec<Wire>, Fault> {
    let Some((program, trace)) = &circuit.program else {
        return Ok(Vec::new());
    };
    let labels = Labels::of(program, text)?;
    let called = statements(program, text, &labels);
    let scopes = scopes(&labels, &called);
    let mut wires = Vec::new();
    for (node, ends) in trace.ends.iter().enumerate() {
        let (Some(ends), Some(name)) = (ends, &called[node]) else {
            continue;
        };
        let about = match &program.places {
            Some(_) => labels.heads[node].clone(),
            None => format!("{}, {}", labels.places[node], labels.heads[node]),
        };
        for (end, cell) in of_node(program, trace, node, ends) {
            wires.push(Wire {
                about: about.clone(),
                scope: scopes[node].clone(),
                ..of_cell(&circuit.netlist, format!("{name}.{end}"), cell)
            });
        }
    }
    Ok(wires)
}

/// The same wires by kind and node, as `while1.start`, which is a name wherever the
/// program came from.
pub fn by_nodes(program: &Program, trace: &Trace, netlist: &Netlist) -> Vec<Wire> {
    let mut wires = Vec::new();
    for (node, ends) in trace.ends.iter().enumerate() {
        let Some(ends) = ends else { continue };
        let word = word_of(program.nodes[node].kind);
        for (end, cell) in of_node(program, trace, node, ends) {
            wires.push(of_cell(netlist, format!("{word}{node}.{end}"), cell));
        }
    }
    wires
}

/// The wires of a statement: its start, its finish, and the words that it hands on.
fn of_node(program: &Program, trace: &Trace, node: usize, ends: &Ends) -> Vec<(String, u16)> {
    let mut wires = vec![
        ("start".to_string(), ends.start),
        ("finish".to_string(), ends.finish),
    ];
    let handed = trace.words.iter().filter(|handed| handed.node == node);
    wires.extend(handed.map(|handed| (program.names.word(handed.variable), handed.wire)));
    wires
}

/// What each node that is a statement with wires of its own is called: `line3.while`,
/// an assignment by what it writes, `line3.x0`, the second of a line `line3.x0_2`.
/// Where there is no text it is called by kind and node, `while1`.
pub fn statements(program: &Program, text: &[u8], labels: &Labels) -> Vec<Option<String>> {
    let mut used: BTreeMap<String, usize> = BTreeMap::new();
    let name = |node: usize| {
        let own = program.nodes[node];
        let is_statement = own.kind >= 16 && own.kind != SEQUENCE;
        if !is_statement || is_implied(program, text, node) {
            return None;
        }
        if program.places.is_none() {
            return Some(format!("{}{node}", word_of(own.kind)));
        }
        let word = match own.kind {
            ASSIGNMENT => labels.names.word(own.n),
            ELEMENT_ASSIGNMENT => labels.names.array(own.n),
            kind => word_of(kind).to_string(),
        };
        let name = format!("{}.{word}", labels.places[node].replace(' ', ""));
        let count = used.entry(name.clone()).or_default();
        *count += 1;
        Some(match *count {
            1 => name,
            count => format!("{name}_{count}"),
        })
    };
    (0..program.nodes.len()).map(name).collect()
}

/// The statements around each node, the outermost first, and the node itself.
fn scopes(labels: &Labels, called: &[Option<String>]) -> Vec<Vec<String>> {
    fn put(tree: &Tree, around: &[String], called: &[Option<String>], all: &mut [Vec<String>]) {
        let mut own = around.to_vec();
        own.extend(called[tree.at].clone());
        for part in &tree.parts {
            put(part, &own, called, all);
        }
        all[tree.at] = own;
    }
    let mut all = vec![Vec::new(); called.len()];
    for (number, tree) in labels.trees.iter().enumerate() {
        let around = match number + 1 < labels.trees.len() {
            true => vec![format!(
                "procedure.{}",
                labels.names.procedure(number as u16)
            )],
            false => Vec::new(),
        };
        put(tree, &around, called, &mut all);
    }
    all
}

/// Whether a statement stands in no text: the else of an if that has none is ok, at the
/// place of its end.
pub fn is_implied(program: &Program, text: &[u8], node: usize) -> bool {
    let mark = program.places.as_ref().map(|places| places[node].mark);
    program.long && mark.is_some_and(|mark| text[mark.start..mark.end] == *b"end")
}

/// The word for a kind of node.
fn word_of(kind: u8) -> &'static str {
    let own = NODES.kinds.iter().find(|template| template.kind == kind);
    own.and_then(|template| template.words.split(' ').next())
        .unwrap_or("node")
}

/// A cell's wire, under a name.
pub fn of_cell(netlist: &Netlist, name: String, cell: u16) -> Wire {
    Wire {
        name,
        about: String::new(),
        scope: Vec::new(),
        shows: Shows::Cell(cell),
        control: is_control(netlist.cells[usize::from(cell)].kind),
    }
}
