//! `hub check`: whether a file is accepted, and how much room its delays have.

use super::{Command, Stop};
use crate::answers::counted;
use crate::args::{Args, Options};
use crate::input::{Circuit, Given, Program};
use crate::json::Json;
use crate::labels::{first_line, Labels};
use crate::listing;
use crate::refusals::{least_delay, settles, Mark};
use crate::types::{Beside, Done, Wiring, DONE, REFUSED};
use crate::warnings::{warnings, Warning};
use crate::wiring;

pub const COMMAND: Command = Command {
    name: "check",
    usage: "FILE [--deny]",
    about: "tells whether a program is accepted, or where and why not",
    more:
        "Of an accepted program: its nodes, its cells, for each delay but a tick's the least that\n\
           would do, and warnings of what is most likely not meant: conditions that always or never\n\
           hold, loops that can't end, delays above the least, statements that are never reached,\n\
           procedures that nobody calls; words that are never read are noted. With --deny a warning\n\
           makes the exit status 1. Of a refused program: line and column, the place, the rule and\n\
           what to do, of too small delays all. NAME.outline is an outline, NAME.prog a program's\n\
           bytes, NAME.net a netlist, NAME.list a list of cells, or --as says it (text, short,\n\
           outline, program, netlist, list). With --functional it is told whether there is a\n\
           functional circuit.",
    example: "hub check examples/two_boards.hub",
    options: Options::of_circuit(&[], &["deny"]),
    run,
};

/// A delay of an accepted program.
struct Delay {
    node: usize,
    given: u8,
    least: u8,
    /// Line, column, and the first line of the statement.
    place: Option<(Mark, String)>,
}

fn run(args: &Args) -> Result<Done, Stop> {
    let given = Given::only(args)?;
    let circuit = given.circuit()?;
    let delays = match &circuit.program {
        Some((program, _)) => delays(given.beside(), program, &given.bytes),
        None => Vec::new(),
    };
    let warnings = warnings_of(&given, &circuit)?;
    let output = match args.flag("json") {
        true => json(&given, &circuit, &delays, &warnings).line(),
        false => (text(&given, &circuit, &delays) + &warned(&warnings)).into_bytes(),
    };
    let denied = args.flag("deny") && warnings.iter().any(|(warning, ..)| !warning.note);
    let exit = if denied { REFUSED } else { DONE };
    Ok(Done { exit, output })
}

/// A warning, how its place is called, and the place in a text.
type Told = (Warning, String, Option<Mark>);

fn warnings_of(given: &Given, circuit: &Circuit) -> Result<Vec<Told>, Stop> {
    let Some((program, _)) = &circuit.program else {
        return Ok(Vec::new());
    };
    let labels = Labels::of(program, &given.bytes)?;
    let line = |node: usize| labels.places[node].clone();
    let found = warnings(given.beside(), program, &line);
    let told = |warning: Warning| {
        let places = program.places.as_ref();
        let mark = places.map(|places| {
            let place = places[warning.node];
            let delay = place.delay.filter(|_| warning.about == "delay");
            Mark::new(&given.bytes, delay.unwrap_or(place.whole), "")
        });
        let head = &labels.heads[warning.node];
        let place = match &mark {
            Some(mark) => format!("{}:{}:{}", given.name, mark.line, mark.column),
            None => format!("{}: {}, {head}", given.name, line(warning.node)),
        };
        (warning, place, mark)
    };
    Ok(found.into_iter().map(told).collect())
}

fn warned(warnings: &[Told]) -> String {
    let mut text = String::new();
    // Results are most of it, and need no line each.
    let notes = warnings.iter().filter(|(warning, ..)| warning.note);
    let notes: Vec<&str> = notes.map(|(note, ..)| note.name.as_str()).collect();
    if !notes.is_empty() {
        let names = notes.join(", ");
        text += &format!("  written and never read, as results are: {names}\n");
    }
    for (warning, place, mark) in warnings.iter().filter(|(warning, ..)| !warning.note) {
        text += &format!("{place}: warning: {}\n", warning.what);
        text += &Mark::all_lines(mark.as_slice());
        text += &format!("  to do: {}\n", warning.remedy);
    }
    text
}

fn delays(beside: Beside, program: &Program, text: &[u8]) -> Vec<Delay> {
    let nodes = &program.nodes;
    let delayed = (0..nodes.len()).filter(|node| settles(beside, nodes, *node));
    let told = |node: usize| {
        let place = program.places.as_ref().map(|places| {
            let whole = places[node].whole;
            (Mark::new(text, whole, ""), first_line(text, whole))
        });
        let given = nodes[node].delay;
        let least = least_delay(beside, nodes, node).unwrap_or(given);
        Delay {
            node,
            given,
            least,
            place,
        }
    };
    delayed.map(told).collect()
}

fn text(given: &Given, circuit: &Circuit, delays: &[Delay]) -> String {
    let nodes = match &circuit.program {
        Some((
            Program {
                procedures: 0,
                nodes,
                ..
            },
            _,
        )) => counted(nodes.len(), "node") + ", ",
        Some((program, _)) => {
            let procedures = counted(program.procedures, "procedure");
            format!("{procedures}, {}, ", counted(program.nodes.len(), "node"))
        }
        None => String::new(),
    };
    let (name, whole) = (&given.name, listing::whole(&circuit.netlist));
    let accepted = match circuit.wiring {
        Wiring::Imperative => "accepted",
        Wiring::Functional => "accepted as a functional circuit",
    };
    let mut text = format!("{name}: {accepted}: {nodes}{whole}\n");
    for delay in delays {
        let Delay {
            node, given, least, ..
        } = delay;
        let place = match &delay.place {
            Some((mark, line)) => format!("line {:3}  {line:43}", mark.line),
            None => format!("node {node:3}"),
        };
        text += &format!("  {place}  delay {given:3}, least {least:3}\n");
    }
    text
}

fn json(given: &Given, circuit: &Circuit, delays: &[Delay], warnings: &[Told]) -> Json {
    let program = circuit.program.as_ref().map(|(program, _)| program);
    let nodes = program.map(|program| program.nodes.len());
    let procedures = program.map(|program| program.procedures);
    let delay = |delay: &Delay| {
        let mark = delay.place.as_ref().map(|(mark, _)| mark);
        Json::Object(vec![
            ("node", Json::number(delay.node)),
            ("line", Json::maybe(mark, |mark| Json::number(mark.line))),
            (
                "column",
                Json::maybe(mark, |mark| Json::number(mark.column)),
            ),
            ("given", Json::number(delay.given)),
            ("least", Json::number(delay.least)),
        ])
    };
    Json::Object(vec![
        ("outcome", Json::text("accepted")),
        ("file", Json::text(&given.name)),
        ("circuit", Json::text(wiring::name(circuit.wiring))),
        ("procedures", Json::maybe(procedures, Json::number)),
        ("nodes", Json::maybe(nodes, Json::number)),
        ("cells", Json::number(circuit.netlist.cells.len())),
        ("finish", Json::number(circuit.netlist.finish)),
        ("pulse", Json::number(circuit.netlist.pulse)),
        ("delays", Json::list(delays, delay)),
        ("warnings", Json::list(warnings, of_warning)),
    ])
}

fn of_warning((warning, _, mark): &Told) -> Json {
    let of_mark =
        |number: fn(&Mark) -> usize| Json::maybe(mark.as_ref(), |mark| Json::number(number(mark)));
    Json::Object(vec![
        ("about", Json::text(warning.about)),
        ("note", Json::Bool(warning.note)),
        ("node", Json::number(warning.node)),
        ("line", of_mark(|mark| mark.line)),
        ("column", of_mark(|mark| mark.column)),
        ("what", Json::text(&warning.what)),
        ("remedy", Json::text(&warning.remedy)),
    ])
}
