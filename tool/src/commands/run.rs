//! `hub run`: a program on its circuit, and what the rules say.

use super::{started, Command, Stop};
use crate::answers;
use crate::args::{Args, Options};
use crate::input::Circuit;
use crate::json::Json;
use crate::product;
use crate::progress::Progress;
use crate::refusals;
use crate::store::{self, Store};
use crate::types::{Answer, Done, End, Fault, Format, Refusal, Wiring, DONE, OPEN};
use crate::wiring;

pub const COMMAND: Command = Command {
    name: "run",
    usage: "FILE [NAME=N ..] [--start FILE] [--budget N] [--all]",
    about: "runs a program on its circuit, and tells what the rules say",
    more: "FILE is a text; NAME.outline is an outline, NAME.prog a program's bytes, NAME.net a\n\
           netlist, NAME.list a list of cells, or --as says it (text, short for a text without what\n\
           long texts have, outline, program, netlist, list). x0=3 is the word that x0 starts with, a2[5]=7 that of element 5 of\n\
           array 2, a2=7,8,9 those of its first elements, and ',..' behind the last goes on to\n\
           its end; words and arrays that have names are named. Those that aren't given start as\n\
           0, or as the file of --start has them, a line or more of such words.\n\
           --times T is a table of operator times, --procedures N how many statements of a\n\
           program's bytes are procedures, --pulse W for how many instants a pulse is high, 1 to 8.\n\
           --functional makes and runs the functional circuit, which hands words on, of a program\n\
           without arrays, loops that exits end, and procedures; its times are others.\n\
           The budget is the most instants that are run, 1,000,000 if it isn't given. Of the words\n\
           and elements those are told that have changed, with --all all sixteen words, and the\n\
           elements that aren't 0. The exit status is 0 if the run ended, 2 if it is still open.",
    example: "hub run examples/two_boards.hub x0=3 x1=5",
    options: Options::of_circuit(&["budget", "start"], &["all"]),
    run,
};

pub const BUDGET: u32 = 1_000_000;

/// So many instants are run before the time is looked at.
const SLICE: u32 = 2_000;

fn run(args: &Args) -> Result<Done, Stop> {
    let (file, words) = args.file_and_words()?;
    let budget = args.number("budget")?.unwrap_or(BUDGET);
    let (given, circuit, start) = started(args, file, words)?;
    let names = circuit.names();
    product::check_budget(&circuit.file, budget)
        .map_err(|met| Stop::from(refusals::plain("--budget", met)))?;
    let ran = full_run(&circuit, &start, budget);
    let (answer, last) = ran.map_err(|met| given.refused(met))?;
    let rules = match &circuit.program {
        None => None,
        Some((program, _)) => {
            let end = product::reference(given.beside(), &program.bytes, &start, budget);
            Some(end.map_err(|met| given.refused(met))?)
        }
    };
    agree(&answer, rules)?;
    let output = match args.flag("json") {
        true => json(&circuit, &start, &answer, &last, rules).line(),
        false => {
            let told = answers::text(&names, &start, &answer, &last, args.flag("all"));
            (told + &said(&circuit, &answer, rules)).into_bytes()
        }
    };
    let exit = if answer.ended { DONE } else { OPEN };
    Ok(Done { exit, output })
}

/// A beginning, and continuings unless the finish was high; with the words and
/// elements at its end.
pub fn full_run(circuit: &Circuit, start: &Store, budget: u32) -> Result<(Answer, Store), Refusal> {
    let mode = circuit.mode(Format::Full);
    let (mut state, mut answer) = product::begin(mode, &circuit.file, start)?;
    let mut progress = Progress::new(budget);
    while !answer.ended && answer.instant < budget {
        let slice = SLICE.min(budget - answer.instant);
        answer = product::go(mode, &circuit.file, &mut state, slice)?;
        progress.show(answer.instant);
    }
    let cells = circuit.netlist.cells.len();
    let last = product::contents(Format::Full, &answer, &state, cells);
    Ok((answer, last))
}

/// The product proves that circuit and rules agree: where they don't, the tool
/// has asked wrongly. The rules tell no elements.
pub fn agree(answer: &Answer, rules: Option<Option<End>>) -> Result<(), Fault> {
    let circuit = answer.ended.then_some(End {
        instant: answer.instant,
        words: answer.words,
    });
    match rules {
        Some(end) if end != circuit => Err(Fault::internal(
            "the circuit and the rules differ on this run",
        )),
        _ => Ok(()),
    }
}

/// Whether elements may change in a run: the rules don't tell them, so that those of
/// the circuit are held against nothing.
fn writes_elements(circuit: &Circuit) -> bool {
    let program = circuit.program.as_ref();
    let nodes = program.map_or(&[][..], |(program, _)| &program.nodes);
    nodes.iter().any(|node| node.kind == ELEMENT_ASSIGNMENT)
}

const ELEMENT_ASSIGNMENT: u8 = 24;

/// What the rules say, as a line.
fn said(circuit: &Circuit, answer: &Answer, rules: Option<Option<End>>) -> String {
    let same = match writes_elements(circuit) {
        true => "the same sixteen words; elements are not compared",
        false => "the same words",
    };
    let the_rules = match circuit.wiring {
        Wiring::Imperative => "the rules",
        Wiring::Functional => "the rules, with the times of a functional circuit",
    };
    let said = match rules {
        None => "no rules: a netlist alone was given".to_string(),
        Some(Some(end)) => format!("{the_rules}: ended at {}, with {same}", end.instant),
        Some(None) => format!("{the_rules}: no end up to {}", answer.instant),
    };
    let free = match circuit.wiring == Wiring::Functional && !answer.ended {
        true => answers::FREE,
        false => "",
    };
    format!("{free}{said}\n")
}

fn json(
    circuit: &Circuit,
    start: &Store,
    answer: &Answer,
    last: &Store,
    rules: Option<Option<End>>,
) -> Json {
    let mut fields = answers::fields(&circuit.names(), answer, last);
    fields.push(("circuit", Json::text(wiring::name(circuit.wiring))));
    fields.push(("start", answers::words(&store::words(start))));
    fields.push(("start_elements", answers::elements(start)));
    let end = |end: End| {
        Json::Object(vec![
            ("outcome", Json::text("ended")),
            ("instant", Json::number(end.instant)),
            ("words", answers::words(&end.words)),
        ])
    };
    let open = || {
        Json::Object(vec![
            ("outcome", Json::text("open")),
            ("instant", Json::number(answer.instant)),
        ])
    };
    fields.push((
        "rules",
        Json::maybe(rules, |rules| rules.map_or_else(open, end)),
    ));
    Json::Object(fields)
}
