//! The source of a circuit for a page: each statement, or each cell of a list, in a
//! span that names the cells which are its own.

use super::recording::can_hold;
use crate::format::Tree;
use crate::input::{Circuit, Program};
use crate::kinds::untold;
use crate::labels::Labels;
use crate::listing;
use crate::origin::Trace;
use crate::svg::escaped;
use crate::types::{Fault, Netlist};
use crate::wave::named::is_implied;

const SEQUENCE: u8 = 19;

/// The lines of the source, marked up.
pub fn source(circuit: &Circuit, text: &[u8]) -> Result<String, Fault> {
    let Some((program, trace)) = &circuit.program else {
        return Ok(of_cells(circuit, text));
    };
    let labels = Labels::of(program, text)?;
    let mut writer = Writer {
        program,
        trace,
        netlist: &circuit.netlist,
        text,
        at: 0,
        out: String::new(),
    };
    for tree in &labels.trees {
        match &program.places {
            Some(_) => writer.statement(tree),
            None => writer.outlined(tree, &labels, 0),
        }
    }
    writer.upto(if program.places.is_some() {
        text.len()
    } else {
        0
    });
    Ok(writer.out)
}

struct Writer<'p> {
    program: &'p Program,
    trace: &'p Trace,
    netlist: &'p Netlist,
    text: &'p [u8],
    /// How much of the text is written.
    at: usize,
    out: String,
}

impl Writer<'_> {
    /// Writes the text up to a place.
    fn upto(&mut self, place: usize) {
        if place > self.at {
            let text = String::from_utf8_lossy(&self.text[self.at..place]);
            for line in text.split_inclusive('\n') {
                self.out += &marked(line);
            }
            self.at = place;
        }
    }

    fn open(&mut self, node: usize) {
        let mut cells = Vec::new();
        for (cell, origin) in self.trace.origins.iter().enumerate() {
            let own = origin.node == Some(node) && !JOINING.contains(&origin.role);
            if own && can_hold(self.netlist.cells[cell].kind) {
                cells.push(cell.to_string());
            }
        }
        // ok and exit have no cells: a pulse only comes by.
        let start = match &self.trace.ends[node] {
            Some(ends) if cells.is_empty() => format!(" data-start=\"{}\"", ends.start),
            _ => String::new(),
        };
        let cells = cells.join(" ");
        self.out += &format!("<span data-node=\"{node}\" data-cells=\"{cells}\"{start}>");
    }

    /// A statement as it stands in the text.
    fn statement(&mut self, tree: &Tree) {
        let places = self.program.places.as_ref();
        let Some(whole) = places.map(|places| places[tree.at].whole) else {
            return;
        };
        let skipped = tree.node.kind == SEQUENCE || is_implied(self.program, self.text, tree.at);
        let own = tree.node.kind >= 16 && !skipped && whole.start >= self.at;
        if own {
            self.upto(whole.start);
            self.open(tree.at);
        }
        for part in tree.parts.iter().filter(|part| part.node.kind >= 16) {
            self.statement(part);
        }
        if own {
            self.upto(whole.end);
            self.out += "</span>";
        }
    }

    /// A statement on a line of its own, where there is no text.
    fn outlined(&mut self, tree: &Tree, labels: &Labels, depth: usize) {
        let own = tree.node.kind >= 16 && tree.node.kind != SEQUENCE;
        if own {
            self.out += &"  ".repeat(depth);
            self.open(tree.at);
            self.out += &format!("{}</span>\n", marked(&labels.heads[tree.at]));
        }
        for part in tree.parts.iter().filter(|part| part.node.kind >= 16) {
            self.outlined(part, labels, depth + usize::from(own));
        }
    }
}

/// A piece of a line, what stands in it apart from the blanks around it, so that no
/// indentation is lit.
fn marked(piece: &str) -> String {
    let words = piece.trim();
    match piece.find(words) {
        Some(at) if !words.is_empty() => {
            let (before, after) = (&piece[..at], &piece[at + words.len()..]);
            format!("{before}<i>{}</i>{after}", escaped(words))
        }
        _ => piece.to_string(),
    }
}

/// Cells that join the wires of several statements are none's own.
const JOINING: [&str; 5] = ["clock", "data", "address", "callers", "joined"];

/// A list as it was given, or that of a netlist.
fn of_cells(circuit: &Circuit, text: &[u8]) -> String {
    let (text, cells): (String, Vec<Option<usize>>) = match &circuit.listed {
        Some(listed) => {
            let text = String::from_utf8_lossy(text).into_owned();
            let cell = |line: usize| listed.lines.iter().position(|own| *own == Some(line + 1));
            let cells = (0..text.lines().count()).map(cell).collect();
            (text, cells)
        }
        None => {
            let text = listing::list(
                &circuit.netlist,
                &untold(&circuit.netlist, circuit.wiring),
                |_| None,
            );
            let number = |line: &str| line.split_whitespace().next()?.parse().ok();
            let cells = text.lines().enumerate();
            let cells = cells.map(|(k, line)| number(line).filter(|_| k > 0));
            let cells = cells.collect();
            (text, cells)
        }
    };
    let mut out = String::new();
    for (line, cell) in text.lines().zip(cells) {
        out += &match cell {
            Some(cell) => format!("<span data-cells=\"{cell}\">{}</span>\n", marked(line)),
            None => format!("{}\n", escaped(line)),
        };
    }
    out
}
