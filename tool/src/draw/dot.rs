//! The circuit as a graph for Graphviz, a cluster for each statement.

use super::block::Block;
use super::{Plan, FINISH};
use crate::input::Circuit;
use crate::svg::{CONTROL_COLOUR, WORD_COLOUR};
use crate::types::Fault;
use std::fmt::Write;

pub fn dot(circuit: &Circuit, text: &[u8], all: bool) -> Result<String, Fault> {
    let plan = Plan::of(circuit, text, all)?;
    let mut out = String::from(
        "digraph hub {\n  rankdir=LR; fontname=\"monospace\";\n  \
         node [fontname=\"monospace\", fontsize=10]; edge [arrowsize=0.6];\n",
    );
    put_clusters(&mut out, &plan.block, &plan);
    for placed in &plan.block.cells {
        put_edges(&mut out, &plan, placed.cell);
    }
    Ok(out + "}\n")
}

/// Frames one inside another, each cell in the smallest that holds it.
fn put_clusters(out: &mut String, block: &Block, plan: &Plan) {
    let mut open: Vec<usize> = Vec::new();
    put_cells(out, block, plan, None);
    for (number, frame) in block.frames.iter().enumerate() {
        let inside = |outer: &usize| block.frames[*outer].holds(frame);
        while open.last().is_some_and(|outer| !inside(outer)) {
            open.pop();
            *out += "  }\n";
        }
        open.push(number);
        let title = escaped(&frame.title);
        let _ = writeln!(
            out,
            "  subgraph cluster_{number} {{ label=\"{title}\"; labeljust=l; style=dashed; \
             color=\"#888888\"; fontsize=10;"
        );
        put_cells(out, block, plan, Some(number));
    }
    *out += &"  }\n".repeat(open.len());
}

/// The cells whose smallest frame is this one.
fn put_cells(out: &mut String, block: &Block, plan: &Plan, frame: Option<usize>) {
    for placed in block
        .cells
        .iter()
        .filter(|p| block.frame_of(&[**p]) == frame && plan.next(p.cell).is_none())
    {
        for or in plan.chain(placed.cell) {
            put_flags(out, plan, or);
        }
        let numbers = plan.numbers(placed.cell);
        let title = escaped(&plan.title(placed.cell));
        let _ = match placed.cell {
            FINISH => writeln!(out, "  finish [shape=oval];"),
            cell if plan.is_control(cell) => writeln!(
                out,
                "  c{cell} [label=\"{title}\\n{numbers}\", shape=box, style=rounded, \
                 color=\"{CONTROL_COLOUR}\"];"
            ),
            cell => writeln!(
                out,
                "  c{cell} [label=\"{title}\\n{numbers}\", shape=box, penwidth=2, \
                 color=\"{WORD_COLOUR}\"];"
            ),
        };
    }
}

/// What a cell is called in the graph.
fn name(cell: u16) -> String {
    match cell {
        FINISH => "finish".to_string(),
        cell => format!("c{cell}"),
    }
}

/// The flags of the words that a cell reads, as in the other picture.
fn put_flags(out: &mut String, plan: &Plan, cell: u16) {
    for (port, wire) in plan.inputs(cell).into_iter().enumerate() {
        if let Some(tag) = plan.tag(wire) {
            let _ = writeln!(
                out,
                "  {}_{port} [label=\"{tag}\", shape=cds, color=\"{WORD_COLOUR}\"];",
                name(cell)
            );
        }
    }
}

/// The wires that a cell takes in.
fn put_edges(out: &mut String, plan: &Plan, cell: u16) {
    let (own, to) = (name(cell), name(plan.wide(cell)));
    for (port, wire) in plan.inputs(cell).into_iter().enumerate() {
        if plan.is_inside(wire, cell) {
            continue;
        }
        let word = format!("[color=\"{WORD_COLOUR}\", penwidth=2.6]");
        let _ = match plan.tag(wire) {
            Some(_) => writeln!(out, "  {own}_{port} -> {to} {word};"),
            None if plan.is_control(wire) => {
                writeln!(out, "  c{wire} -> {to} [color=\"{CONTROL_COLOUR}\"];")
            }
            None => writeln!(out, "  c{wire} -> {to} {word};"),
        };
    }
}

fn escaped(text: &str) -> String {
    text.replace('\\', "\\\\").replace('"', "\\\"")
}
