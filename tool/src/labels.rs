//! How the nodes of a program and the cells of its circuit are called: where
//! they stand and what stands there.

use crate::format::{self, Tree, Writer};
use crate::input::{Circuit, Program};
use crate::kinds::{ADDRESS, ARRAY, MEMORY};
use crate::names::Names;
use crate::origin::Trace;
use crate::store::VARIABLES;
use crate::types::{Fault, Netlist, Origin, Span, Wiring};

/// Of each node, in node order.
#[derive(Clone, Debug)]
pub struct Labels {
    /// The line of a text, or else the node.
    pub places: Vec<String>,
    /// The node as text, without the statements in it.
    pub heads: Vec<String>,
    /// Of the procedures and, the last, of the main program.
    pub trees: Vec<Tree>,
    pub names: Names,
}

impl Labels {
    /// A node on a line: as it stands in a text, or else as text.
    pub fn line(&self, program: &Program, text: &[u8], node: usize) -> String {
        match &program.places {
            Some(places) => first_line(text, places[node].whole),
            None => cut(&self.heads[node]),
        }
    }

    /// Of a program that came with this text, or with none.
    pub fn of(program: &Program, text: &[u8]) -> Result<Labels, Fault> {
        let trees = format::trees(&program.nodes)
            .ok_or_else(|| Fault::internal("an accepted program that is no tree"))?;
        let mut heads = vec![String::new(); program.nodes.len()];
        let writer = Writer::of_program(program);
        for tree in &trees {
            put_heads(&writer, tree, &mut heads);
        }
        let place = |node: usize| match &program.places {
            Some(places) => format!("line {}", line_of(text, places[node].mark.start)),
            None => format!("node {node}"),
        };
        Ok(Labels {
            places: (0..heads.len()).map(place).collect(),
            heads,
            trees,
            names: program.names.clone(),
        })
    }
}

/// Its head stands behind the statement in it.
const REPEAT: u8 = 23;

fn put_heads(writer: &Writer, tree: &Tree, heads: &mut [String]) {
    heads[tree.at] = match tree.node.kind {
        REPEAT => format!("repeat {}", writer.head(tree)),
        _ => writer.head(tree),
    };
    for part in &tree.parts {
        put_heads(writer, part, heads);
    }
}

/// The first line of a statement, cut where it is long.
pub fn first_line(text: &[u8], whole: Span) -> String {
    let shown = String::from_utf8_lossy(&text[whole.start..whole.end]).replace('\t', " ");
    cut(shown.lines().next().unwrap_or_default().trim_end())
}

fn cut(line: &str) -> String {
    match line.char_indices().nth(40) {
        Some((at, _)) => format!("{}...", &line[..at]),
        None => line.to_string(),
    }
}

/// The line of a byte, counted from 1.
fn line_of(text: &[u8], at: usize) -> usize {
    1 + text[..at].iter().filter(|byte| **byte == b'\n').count()
}

/// What is said of each cell; nothing of those that every netlist has, but
/// for memories and arrays, which have the names of their variables.
pub fn of_cells(circuit: &Circuit, text: &[u8]) -> Result<Vec<Option<String>>, Fault> {
    let mut notes = of_stores(&circuit.netlist, &circuit.names());
    if circuit.wiring == Wiring::Functional {
        let memories = of_memories(&circuit.netlist, &circuit.names());
        for (note, word) in notes.iter_mut().zip(memories) {
            *note = word
                .map(|word| format!("{word} at the start"))
                .or(note.take());
        }
    }
    for (word, cell) in of_last(circuit) {
        notes[usize::from(cell)] = Some(format!("{word} at the end"));
    }
    if let Some(listed) = &circuit.listed {
        for (note, name) in notes.iter_mut().zip(&listed.names) {
            *note = note.take().or(name.clone());
        }
    }
    if let Some((program, trace)) = &circuit.program {
        let labels = Labels::of(program, text)?;
        for (note, said) in notes.iter_mut().zip(of_origins(&labels, trace)) {
            *note = said.or(note.take());
        }
    }
    Ok(notes)
}

/// The names of memories and arrays, at their cells; an address stands behind
/// its array.
pub fn of_stores(netlist: &Netlist, names: &Names) -> Vec<Option<String>> {
    let mut stores = of_memories(netlist, names);
    for (number, cell) in netlist.cells.iter().enumerate() {
        match cell.kind {
            ARRAY => stores[number] = Some(names.array(cell.delay.into())),
            ADDRESS if number > 0 => stores[number] = stores[number - 1].clone(),
            _ => {}
        }
    }
    stores
}

/// The last sixteen cells of a functional circuit, with the names of their words.
pub fn of_last(circuit: &Circuit) -> Vec<(String, u16)> {
    if circuit.wiring == Wiring::Imperative {
        return Vec::new();
    }
    let names = circuit.names();
    let first = circuit.netlist.cells.len() - VARIABLES;
    let word = |k: u16| (names.word(k), first as u16 + k);
    (0..VARIABLES as u16).map(word).collect()
}

/// The names of the memories, at their cells.
pub fn of_memories(netlist: &Netlist, names: &Names) -> Vec<Option<String>> {
    let mut variables = 0..;
    let name = |kind: u8| {
        let variable = (kind == MEMORY).then(|| variables.next()).flatten();
        variable.map(|k| names.word(k))
    };
    netlist
        .cells
        .iter()
        .map(|cell| cell.kind)
        .map(name)
        .collect()
}

fn of_origins(labels: &Labels, trace: &Trace) -> Vec<Option<String>> {
    let said = |origin: &Origin| {
        let role = match origin.word {
            Some(word) => format!("{} {}", labels.names.word(word), origin.role),
            None => origin.role.to_string(),
        };
        match (origin.node, origin.role) {
            (None, _) => origin.word.map(|_| role),
            (Some(node), "value") => {
                Some(format!("{}, {}", labels.places[node], labels.heads[node]))
            }
            (Some(node), _) => {
                let (place, head) = (&labels.places[node], &labels.heads[node]);
                Some(format!("{place}, {head}: {role}"))
            }
        }
    };
    trace.origins.iter().map(said).collect()
}
