//! `hub delays`: a program's text with the least delays.

use super::{Command, Stop};
use crate::args::{Args, Options};
use crate::input::{Form, Given};
use crate::json::Json;
use crate::refusals::{least_delay, settles};
use crate::source::{Place, Source};
use crate::types::{Done, Fault, Node};
use crate::{format, output, product};

pub const COMMAND: Command = Command {
    name: "delays",
    usage: "FILE [-o TEXT]",
    about: "writes a program's text with the least delays",
    more:
        "Every delay but a tick's becomes the least that the product takes, and is written where\n\
        it was left out; all else stays as it stands. A text and an outline stay one, a program's\n\
        bytes become a text. So delays that are too small are mended, too.",
    example: "hub delays examples/first_flag.hub",
    options: Options::of_program(&["o"], &[]),
    run,
};

fn run(args: &Args) -> Result<Done, Stop> {
    let given = Given::only(args)?;
    let (nodes, places) = read(&given)?;
    let delays: Vec<Delay> = (0..nodes.len())
        .filter_map(|node| Delay::of(&given, &nodes, node))
        .collect();
    let text = match &places {
        Some(places) => rewritten(&given.bytes, places, &delays),
        None => of_bytes(&given, nodes, &delays)?,
    };
    // What is left to refuse is told with its places in the new text.
    let form = match given.form {
        Form::Program => Form::Text,
        form => form,
    };
    let mut made = Given {
        form,
        bytes: text.clone().into_bytes(),
        long: None,
        ..given
    };
    if made.form == Form::Text {
        made.read_long()?;
    }
    made.program()?;
    output::put(args, text.as_str(), || {
        Json::Object(vec![
            ("text", Json::text(&text)),
            ("delays", Json::list(&delays, Delay::json)),
        ])
    })
}

/// A delay that has a least.
struct Delay {
    node: usize,
    given: u8,
    least: u8,
}

impl Delay {
    fn of(given: &Given, nodes: &[Node], node: usize) -> Option<Delay> {
        let beside = given.beside();
        settles(beside, nodes, node).then(|| Delay {
            node,
            given: nodes[node].delay,
            // The longest, which the product refuses.
            least: least_delay(beside, nodes, node).unwrap_or(u8::MAX),
        })
    }

    fn json(&self) -> Json {
        Json::Object(vec![
            ("node", Json::number(self.node)),
            ("given", Json::number(self.given)),
            ("least", Json::number(self.least)),
        ])
    }
}

/// The nodes, and where they stand; of what is refused, that of too small delays is
/// taken all the same.
fn read(given: &Given) -> Result<(Vec<Node>, Option<Vec<Place>>), Stop> {
    match given.program() {
        Ok(program) => Ok((program.nodes, program.places)),
        Err(Stop::Refused(report)) if report.refusal.number == 7 => match given.form {
            Form::Program => Ok((product::nodes(&given.bytes), None)),
            _ => {
                let Source { nodes, places, .. } = given.source()?;
                Ok((nodes, Some(places)))
            }
        },
        Err(stop) => Err(stop),
    }
}

/// The text with other delays, from the last on, so that places before them stay.
fn rewritten(text: &[u8], places: &[Place], delays: &[Delay]) -> String {
    let mut text = text.to_vec();
    let span = |delay: &Delay| places[delay.node].delay.map(|span| (span, delay.least));
    let mut spans: Vec<_> = delays.iter().filter_map(span).collect();
    spans.sort_by_key(|(span, _)| span.start);
    for (span, least) in spans.into_iter().rev() {
        let blank = if span.start == span.end { " " } else { "" };
        let delay = format!("{blank}@{least}").into_bytes();
        text.splice(span.start..span.end, delay);
    }
    String::from_utf8_lossy(&text).into_owned()
}

fn of_bytes(given: &Given, mut nodes: Vec<Node>, delays: &[Delay]) -> Result<String, Fault> {
    for delay in delays {
        nodes[delay.node].delay = delay.least;
    }
    let text = match format::has_text(given.aside.procedures, &nodes) {
        true => format::tree(&nodes).map(|tree| format::format(&tree)),
        false => format::long(&Source::of_nodes(given.aside.procedures, &nodes), &[]),
    };
    text.ok_or_else(|| Fault::internal("the program is no tree"))
}
