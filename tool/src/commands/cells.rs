//! `hub cells`: the netlist as a list.

use super::{Command, Stop};
use crate::args::{Args, Options};
use crate::input::Given;
use crate::json::Json;
use crate::kinds::untold;
use crate::types::{Cell, Done};
use crate::{labels, listing, output, wiring};

pub const COMMAND: Command = Command {
    name: "cells",
    usage: "FILE [--all] [-o LIST]",
    about: "lists the cells of a program's circuit or of a netlist, with the lines they come from",
    more: "Memories and arrays that nothing writes to are left out; --all lists them too. Of a\n\
        functional circuit the memories that are read are listed. What stands after # is for the\n\
        reader: 'hub wire' takes the list back.",
    example: "hub cells examples/two_boards.hub",
    options: Options::of_circuit(&["o"], &["all"]),
    run,
};

fn run(args: &Args) -> Result<Done, Stop> {
    let given = Given::only(args)?;
    let circuit = given.circuit()?;
    let notes = labels::of_cells(&circuit, &given.bytes)?;
    let left_out = match args.flag("all") {
        true => vec![false; circuit.netlist.cells.len()],
        false => untold(&circuit.netlist, circuit.wiring),
    };
    let list = listing::list(&circuit.netlist, &left_out, |cell| notes[cell].clone());
    output::put(args, list, || {
        let cells = circuit.netlist.cells.iter().enumerate();
        let cells = cells.filter(|(number, _)| !left_out[*number]);
        Json::Object(vec![
            ("circuit", Json::text(wiring::name(circuit.wiring))),
            ("count", Json::number(circuit.netlist.cells.len())),
            ("finish", Json::number(circuit.netlist.finish)),
            ("pulse", Json::number(circuit.netlist.pulse)),
            (
                "cells",
                Json::list(cells, |(k, cell)| json(k, cell, &notes[k])),
            ),
        ])
    })
}

fn json(number: usize, cell: &Cell, note: &Option<String>) -> Json {
    Json::Object(vec![
        ("number", Json::number(number)),
        ("kind", Json::number(cell.kind)),
        ("delay", Json::number(cell.delay)),
        ("a", Json::number(cell.a)),
        ("b", Json::number(cell.b)),
        ("words", Json::text(listing::words_of(cell))),
        ("from", Json::maybe(note.clone(), Json::text)),
    ])
}
