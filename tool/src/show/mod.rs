//! A run as a page that moves: one file, with its source (`source`), its circuit, and
//! all that was recorded of it (`recording`), which opens without a network.

pub mod recording;
mod source;

use crate::draw::svg;
use crate::input::Circuit;
use crate::json::Json;
use crate::kinds::CONSTANT;
use crate::labels;
use crate::svg::escaped;
use crate::types::{Fault, Wiring};
use crate::wave::choice::{self, moves};
use crate::wave::{Shows, Wire};
use recording::{Changes, Recording};

const PAGE: &str = include_str!("page.html");
const STYLE: &str = include_str!("page.css");
const SCRIPT: [&str; 4] = [
    include_str!("values.js"),
    include_str!("circuit.js"),
    include_str!("waves.js"),
    include_str!("player.js"),
];

/// A page of a run, with a title, and a note that stands with its waves.
pub fn page(
    circuit: &Circuit,
    text: &[u8],
    run: &Recording,
    (title, note): (&str, &str),
) -> Result<String, Fault> {
    let source = source::source(circuit, text)?;
    let lines = 1..=source.lines().count();
    let gutter: Vec<String> = lines.map(|line| line.to_string()).collect();
    let wires = choice::wires(circuit, text, None, false)?;
    // A sign that ends a script stands in no text of it.
    let data = data(circuit, text, run, &wires)?.to_string();
    let data = data.replace('<', "\\u003c");
    let parts = [
        ("title", escaped(title)),
        ("style", STYLE.to_string()),
        ("to", run.to.to_string()),
        ("gutter", gutter.join("\n")),
        ("source", source),
        ("circuit", svg::svg(circuit, text, false)?),
        ("note", escaped(note)),
        ("data", data),
        ("script", SCRIPT.concat()),
    ];
    Ok(filled(PAGE, &parts))
}

/// A page with each `{{name}}` replaced, and nothing in what is put there.
fn filled(page: &str, parts: &[(&str, String)]) -> String {
    let mut out = String::new();
    let mut pieces = page.split("{{");
    out += pieces.next().unwrap_or_default();
    for piece in pieces {
        let (name, rest) = piece.split_once("}}").unwrap_or((piece, ""));
        let part = parts.iter().find(|(own, _)| *own == name);
        out += part.map_or("", |(_, text)| text.as_str());
        out += rest;
    }
    out
}

fn data(circuit: &Circuit, text: &[u8], run: &Recording, wires: &[Wire]) -> Result<Json, Fault> {
    let netlist = &circuit.netlist;
    let names = circuit.names();
    let notes = labels::of_cells(circuit, text)?;
    let called = |cell: usize| {
        let shows = Shows::Cell(cell as u16);
        let named = wires.iter().find(|wire| wire.shows == shows);
        named.map_or_else(|| format!("cell{cell}"), |wire| wire.name.clone())
    };
    let cells = netlist.cells.iter();
    let words = words(circuit).into_iter().filter(|(_, cell)| {
        let at = usize::from(*cell);
        moves(circuit, *cell) || run.cells[at] != [(0, 0)]
    });
    let rows = wires.iter().filter_map(|wire| match wire.shows {
        Shows::Cell(cell) if netlist.cells[usize::from(cell)].kind != CONSTANT => Some(cell),
        _ => None,
    });
    let mut first: Vec<u16> = Vec::new();
    for cell in rows {
        if !first.contains(&cell) {
            first.push(cell);
        }
    }
    let held = run.held.iter();
    Ok(Json::Object(vec![
        ("to", Json::number(run.to)),
        ("finish", Json::number(netlist.finish)),
        (
            "cells",
            Json::list(cells, |cell| {
                let fields = [u16::from(cell.kind), cell.delay.into(), cell.a, cell.b];
                Json::list(fields, Json::number)
            }),
        ),
        (
            "names",
            Json::list(0..netlist.cells.len(), |cell| Json::text(called(cell))),
        ),
        (
            "abouts",
            Json::list(notes, |note| Json::text(note.unwrap_or_default())),
        ),
        ("v", Json::list(&run.cells, changes)),
        (
            "held",
            Json::Map(
                held.map(|(cell, own)| (cell.to_string(), changes(own)))
                    .collect(),
            ),
        ),
        (
            "words",
            Json::list(words, |(name, cell)| {
                Json::List(vec![Json::text(name), Json::number(cell)])
            }),
        ),
        (
            "elements",
            Json::list(&run.elements, |(place, own)| {
                Json::List(vec![Json::text(names.at(*place)), changes(own)])
            }),
        ),
        ("flight", changes(&run.in_flight)),
        ("rows", Json::list(first, Json::number)),
    ]))
}

/// The words, with their cells: the memories, or those at the end of a functional circuit.
fn words(circuit: &Circuit) -> Vec<(String, u16)> {
    if circuit.wiring == Wiring::Functional {
        return labels::of_last(circuit);
    }
    let memories = labels::of_memories(&circuit.netlist, &circuit.names());
    let memories = memories.into_iter().zip(0..);
    memories
        .filter_map(|(name, cell)| Some((name?, cell)))
        .collect()
}

fn changes(changes: &Changes) -> Json {
    let both = |(instant, value): &(u32, u32)| [*instant, *value];
    Json::list(changes.iter().flat_map(both), Json::number)
}
