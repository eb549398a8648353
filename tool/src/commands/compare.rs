//! `hub compare`: both circuits of a program, side by side.

use super::run::{agree, full_run, BUDGET};
use super::{Command, Stop};
use crate::answers::{self, word};
use crate::args::{Args, Options};
use crate::input::{Circuit, Given};
use crate::json::Json;
use crate::names::Names;
use crate::store::{self, Store};
use crate::types::{Answer, Done, Fault, Wiring, DONE, OPEN};
use crate::{product, refusals, start as start_words, wiring};

pub const COMMAND: Command = Command {
    name: "compare",
    usage: "FILE [NAME=N ..] [--start FILE] [--budget N] [--all]",
    about: "shows both circuits of a program side by side: cells, bytes, times and words",
    more:
        "The imperative circuit has memories, which assignments change; the functional one hands\n\
        words on from part to part. Both are compiled and run from the same start words, and each\n\
        run is held against the rules with that circuit's times. The program has what both\n\
        circuits have: no arrays, no loops that exits end, no procedures, and pulses of one\n\
        instant. The exit status is 0 if both runs ended, 2 if one is still open.",
    example: "hub compare examples/two_boards.hub x0=3 x1=5",
    options: Options::of_program(&["budget", "start"], &["all"]),
    run,
};

/// A circuit, and how its run came out.
struct Side {
    wiring: Wiring,
    circuit: Circuit,
    answer: Answer,
}

fn run(args: &Args) -> Result<Done, Stop> {
    let (file, words) = args.file_and_words()?;
    let budget = args.number("budget")?.unwrap_or(BUDGET);
    // What only one circuit takes is told before anything is run.
    let functional = Given::read(args, file)?.wired(args, Wiring::Functional)?;
    functional.program()?;
    let imperative = functional.clone().wired(args, Wiring::Imperative)?;
    let start = start_words::store(args, words, &functional.names())?;
    let [left, right] = [imperative, functional].map(|given| side(&given, &start, budget));
    let sides = [left?, right?];
    let ended = sides.iter().all(|side| side.answer.ended);
    let output = match args.flag("json") {
        true => json(&sides, &start).line(),
        false => table(file, &sides, &start, args.flag("all"))?.into_bytes(),
    };
    let exit = if ended { DONE } else { OPEN };
    Ok(Done { exit, output })
}

/// The circuit of a program, and its run, which is held against the rules.
fn side(given: &Given, start: &Store, budget: u32) -> Result<Side, Stop> {
    let circuit = given.circuit()?;
    product::check_budget(&circuit.file, budget)
        .map_err(|met| Stop::from(refusals::plain("--budget", met)))?;
    let refused = |met| given.refused(met);
    let (answer, _) = full_run(&circuit, start, budget).map_err(refused)?;
    if let Some((program, _)) = &circuit.program {
        let end = product::reference(given.beside(), &program.bytes, start, budget);
        agree(&answer, Some(end.map_err(refused)?))?;
    }
    Ok(Side {
        wiring: circuit.wiring,
        circuit,
        answer,
    })
}

/// A line for each thing that is told of both.
fn table(file: &str, sides: &[Side; 2], start: &Store, all: bool) -> Result<String, Fault> {
    let [left, right] = sides;
    let both = |of: &dyn Fn(&Side) -> String| [of(left), of(right)];
    let ended = |side: &Side| if side.answer.ended { "ended" } else { "open" };
    let mut rows = vec![
        (
            String::new(),
            both(&|side| wiring::name(side.wiring).into()),
        ),
        (
            "cells".into(),
            both(&|side| side.circuit.netlist.cells.len().to_string()),
        ),
        (
            "bytes of its file".into(),
            both(&|side| side.circuit.file.len().to_string()),
        ),
        (
            "run".into(),
            both(&|side| format!("{} at {}", ended(side), side.answer.instant)),
        ),
    ];
    let names = left.circuit.names();
    for (name, before, after) in changes(&names, sides, start, all) {
        rows.push((format!("{name} from {before}"), after.map(word)));
    }
    let widths = |of: &dyn Fn(&(String, [String; 2])) -> usize| rows.iter().map(of).max();
    let name = widths(&|row| row.0.len()).unwrap_or(0);
    let value = widths(&|row| row.1[0].len().max(row.1[1].len())).unwrap_or(0);
    let mut text = format!("{file}:\n");
    for (label, [one, other]) in &rows {
        text += &format!("  {label:name$}  {one:>value$}  {other:>value$}\n");
    }
    if left.answer.ended && right.answer.ended && left.answer.words != right.answer.words {
        return Err(Fault::internal("the two circuits end with other words"));
    }
    Ok(text)
}

/// The words that one of the runs has changed, or all: name, before, and after both.
fn changes(
    names: &Names,
    [left, right]: &[Side; 2],
    start: &Store,
    all: bool,
) -> Vec<(String, String, [u16; 2])> {
    let words = store::words(start).into_iter().enumerate();
    let mut rows = Vec::new();
    for (k, before) in words {
        let after = [left.answer.words[k], right.answer.words[k]];
        if all || after != [before; 2] {
            rows.push((names.word(k as u16), word(before), after));
        }
    }
    rows
}

fn json(sides: &[Side; 2], start: &Store) -> Json {
    let side = |side: &Side| {
        let circuit = &side.circuit;
        let mut fields = vec![
            ("circuit", Json::text(wiring::name(side.wiring))),
            ("cells", Json::number(circuit.netlist.cells.len())),
            ("bytes", Json::number(circuit.file.len())),
        ];
        let last = store::of_words(&side.answer.words);
        fields.extend(answers::fields(&circuit.names(), &side.answer, &last));
        Json::Object(fields)
    };
    Json::Object(vec![
        ("start", answers::words(&store::words(start))),
        ("circuits", Json::list(sides, side)),
    ])
}
