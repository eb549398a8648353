//! `hub bound`: how long the parts of a program take, least and most.

use super::{Command, Stop};
use crate::args::{Args, Options};
use crate::bound::{bounds, Bound, Span, Takes};
use crate::input::Given;
use crate::json::Json;
use crate::labels::Labels;
use crate::types::{Done, Wiring};

pub const COMMAND: Command = Command {
    name: "bound",
    usage: "FILE",
    about: "tells the least and the most instants of a program's parts, and of each round",
    more: "Told are the main program and each procedure, each loop with a round that goes round and\n\
        with its last, and the parts between loops. What has a loop in it has a least, with as few\n\
        rounds as can be, and no most. The times are asked of the rules, with constants in place of\n\
        conditions: every way is taken to be possible, whatever the words are. What can't be asked,\n\
        because the part is as big as a program may be, or longer than a run, is said not to be found.",
    example: "hub bound examples/first_flag.hub",
    options: Options::of_circuit(&[], &[]),
    run,
};

fn run(args: &Args) -> Result<Done, Stop> {
    let given = Given::only(args)?;
    let program = given.program()?;
    let labels = Labels::of(&program, &given.bytes)?;
    let bounds = bounds(given.beside(), &program.nodes);
    if args.flag("json") {
        return Ok(Done::printing(Json::list(&bounds, json).line()));
    }
    let mut text = String::new();
    for Bound { node, takes } in &bounds {
        let place = &labels.places[*node];
        let line = || labels.line(&program, &given.bytes, *node);
        let (head, told) = match takes {
            Takes::Procedure(number, span) => {
                let name = program.names.procedure(*number as u16);
                (format!("procedure {name}"), span.text())
            }
            Takes::Main(span) => ("the program".to_string(), span.text()),
            Takes::Part(span) => (line(), span.text()),
            Takes::Round(round, last) => {
                let last = last.map(|last| format!(", the last {}", last.text()));
                let last = last.unwrap_or_default();
                (line(), format!("a round {}{last}", round.text()))
            }
        };
        text += &format!("  {place:8}  {head:43}  {told}\n");
    }
    let name = &given.name;
    let of = match given.aside.wiring {
        Wiring::Imperative => "",
        Wiring::Functional => " of the functional circuit",
    };
    Ok(Done::printing(format!(
        "{name}: instants{of}, least and most\n{text}"
    )))
}

fn json(bound: &Bound) -> Json {
    let span = |span: Span| {
        Json::Object(vec![
            ("least", Json::maybe(span.least.ok(), Json::number)),
            ("most", Json::maybe(span.most.ok(), Json::number)),
            ("known", Json::Bool(span.is_known())),
        ])
    };
    let (kind, first, last) = match bound.takes {
        Takes::Procedure(_, takes) => ("procedure", takes, None),
        Takes::Main(takes) => ("main", takes, None),
        Takes::Part(takes) => ("part", takes, None),
        Takes::Round(round, last) => ("round", round, last),
    };
    Json::Object(vec![
        ("node", Json::number(bound.node)),
        ("of", Json::text(kind)),
        ("takes", span(first)),
        ("last", Json::maybe(last, span)),
    ])
}
