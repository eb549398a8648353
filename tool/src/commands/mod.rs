//! The commands, one file for each, and the choice among them.

mod assemble;
mod begin;
mod bound;
mod cells;
mod check;
mod compare;
mod compile;
mod delays;
mod draw;
mod format;
mod go;
mod help;
mod join;
mod manual;
mod outline;
mod read;
mod run;
mod show;
mod slow;
mod start;
mod states;
mod test;
mod times;
mod verilog;
mod wave;
mod wire;

use crate::answers::counted;
use crate::args::{Args, Options};
use crate::input::{Circuit, Form, Given};
use crate::json::Json;
use crate::refusals::Report;
use crate::source::nearest;
use crate::store::Store;
use crate::types::{Done, Fault, DONE, REFUSED};
use crate::{files, start as start_words};

pub struct Command {
    pub name: &'static str,
    /// The words after the name.
    pub usage: &'static str,
    /// What it does, in a line.
    pub about: &'static str,
    /// What there is to know beside that.
    pub more: &'static str,
    /// A command line to try.
    pub example: &'static str,
    pub options: Options,
    pub run: fn(&Args) -> Result<Done, Stop>,
}

/// In the order in which help lists them.
pub const COMMANDS: &[&Command] = &[
    &run::COMMAND,
    &compare::COMMAND,
    &check::COMMAND,
    &test::COMMAND,
    &delays::COMMAND,
    &bound::COMMAND,
    &cells::COMMAND,
    &wire::COMMAND,
    &draw::COMMAND,
    &wave::COMMAND,
    &show::COMMAND,
    &verilog::COMMAND,
    &slow::COMMAND,
    &compile::COMMAND,
    &join::COMMAND,
    &read::COMMAND,
    &begin::COMMAND,
    &go::COMMAND,
    &start::COMMAND,
    &outline::COMMAND,
    &assemble::COMMAND,
    &format::COMMAND,
    &times::COMMAND,
    &help::COMMAND,
];

/// Why a command isn't done.
#[derive(Debug)]
pub enum Stop {
    Fault(Fault),
    Refused(Box<Report>),
}

impl From<Fault> for Stop {
    fn from(fault: Fault) -> Stop {
        Stop::Fault(fault)
    }
}

impl From<Report> for Stop {
    fn from(report: Report) -> Stop {
        Stop::Refused(Box::new(report))
    }
}

/// What a command line gives: the exit status and both outputs.
#[derive(Clone, Debug, PartialEq, Eq)]
pub struct Told {
    pub exit: i32,
    pub output: Vec<u8>,
    pub error: String,
    /// Whether the output is told to a reader, and may have colours.
    pub tells: bool,
}

impl Told {
    /// What is printed where all went well.
    pub fn printing(output: Vec<u8>) -> Told {
        told(DONE, output, String::new())
    }
}

/// Follows a command line, whose first word is the command.
pub fn run(words: &[String]) -> Told {
    let json = words.iter().any(|word| word == "--json");
    match chosen(words) {
        Ok(done) => Told {
            exit: done.exit,
            output: done.output,
            error: String::new(),
            tells: !json
                && words
                    .first()
                    .is_some_and(|name| name == "check" || name == "test"),
        },
        Err(Stop::Refused(report)) if json => told(REFUSED, report.json().line(), String::new()),
        Err(Stop::Refused(report)) => told(REFUSED, Vec::new(), report.text()),
        Err(Stop::Fault(fault)) if json => {
            let fields = vec![("error", Json::text(fault.message))];
            told(fault.exit, Json::Object(fields).line(), String::new())
        }
        Err(Stop::Fault(fault)) => {
            told(fault.exit, Vec::new(), format!("hub: {}\n", fault.message))
        }
    }
}

fn told(exit: i32, output: Vec<u8>, error: String) -> Told {
    Told {
        exit,
        output,
        error,
        tells: false,
    }
}

fn chosen(words: &[String]) -> Result<Done, Stop> {
    let Some((name, words)) = words.split_first() else {
        return Err(Fault::usage(help::overview()).into());
    };
    let command = named(name)?;
    let has = |option: &str| words.iter().any(|word| word == option);
    if has("--help") || has("-h") {
        return Ok(help::page(command, has("--json")));
    }
    let args = Args::parse(command.options, usage(command), words)?;
    check_output(command, &args)?;
    (command.run)(&args)
}

/// The command of this name.
fn named(name: &str) -> Result<&'static Command, Fault> {
    let name = match name {
        "--help" | "-h" => "help",
        name => name,
    };
    COMMANDS
        .iter()
        .find(|command| command.name == name)
        .copied()
        .ok_or_else(|| {
            let names = COMMANDS.iter().map(|command| command.name);
            let meant = match nearest(name, names) {
                Some(near) => format!("did you mean {near}? "),
                None => String::new(),
            };
            Fault::usage(format!(
                "there is no command '{name}'; {meant}'hub help' lists them"
            ))
        })
}

/// How a command is called.
fn usage(command: &Command) -> String {
    let shared = command.options.usage();
    format!("hub {} {}{shared}", command.name, command.usage)
}

/// No command writes over what it reads, but for those that are there to change a
/// file, and leave it of the form that it has.
fn check_output(command: &Command, args: &Args) -> Result<(), Fault> {
    let first = args.given.first().map(|name| Form::of(args, name));
    let changed = match (command.name, first) {
        ("format", Some(Ok(form))) if form.is_text() => Some(0),
        ("delays", Some(Ok(form))) if form.is_text() || form == Form::Outline => Some(0),
        ("go" | "start", _) => Some(1),
        _ => None,
    };
    let read = args.given.iter().enumerate();
    let read = read.filter(|(word, _)| Some(*word) != changed);
    let read = read
        .map(|(_, word)| word.as_str())
        .chain(args.value("times"))
        .chain(args.value("start"));
    let Some(out) = args.value("o") else {
        return Ok(());
    };
    match read.into_iter().find(|name| files::are_same(name, out)) {
        Some(name) => {
            let message =
                format!("-o {out} would write over {name}, which is read; give another name");
            Err(Fault::usage(message))
        }
        None => Ok(()),
    }
}

/// What a run begins with: a file, its circuit, and the words that it starts with.
fn started(args: &Args, file: &str, words: &[String]) -> Result<(Given, Circuit, Store), Stop> {
    let given = Given::read(args, file)?;
    let circuit = given.circuit()?;
    let start = start_words::store(args, words, &circuit.names())?;
    Ok((given, circuit, start))
}

/// Writes a command's file and tells it, with a count of what is in it.
fn written(
    args: &Args,
    to: &str,
    bytes: &[u8],
    (count, thing): (usize, &str),
) -> Result<Done, Stop> {
    let fields = vec![("count", Json::number(count))];
    put(args, to, bytes, counted(count, thing), fields)
}

/// Writes a program's bytes and tells how many nodes they are, and procedures
/// where there are any.
fn written_program(args: &Args, to: &str, bytes: &[u8], procedures: usize) -> Result<Done, Stop> {
    let nodes = bytes.len() / 4;
    let mut told = counted(nodes, "node");
    if procedures > 0 {
        told += &format!(", {}", counted(procedures, "procedure"));
    }
    let count = ("count", Json::number(nodes));
    let fields = vec![count, ("procedures", Json::number(procedures))];
    put(args, to, bytes, told, fields)
}

/// Writes a file and tells what is in it, in words or as fields.
fn put(
    args: &Args,
    to: &str,
    bytes: &[u8],
    told: String,
    fields: Vec<(&'static str, Json)>,
) -> Result<Done, Stop> {
    files::write(to, bytes)?;
    let length = bytes.len();
    Ok(Done::printing(if to == files::STANDARD {
        Vec::new()
    } else if args.flag("json") {
        let mut all = vec![
            ("outcome", Json::text("done")),
            ("file", Json::text(to)),
            ("bytes", Json::number(length)),
        ];
        all.extend(fields);
        Json::Object(all).line()
    } else {
        format!("{to}: {length} bytes, {told}\n").into_bytes()
    }))
}
