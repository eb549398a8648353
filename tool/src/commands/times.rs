//! `hub times`: tables of operator times, made and shown.

use super::{Command, Stop};
use crate::args::{Args, Options};
use crate::json::Json;
use crate::refusals::{self, Report};
use crate::times::{self, OPERATORS};
use crate::types::{Beside, Done, Fault, Refusal, Table};
use crate::{files, product};

pub const COMMAND: Command = Command {
    name: "times",
    usage: "[OPERATOR=TIME ..] -o T, or hub times [T]",
    about: "makes a table of operator times, or shows one",
    more: "The operators are complement, sum, difference, and, or, equal, less, and element, the\n\
        reading of an array; one that isn't named keeps its built-in time. Without a file the\n\
        built-in times are shown.",
    example: "hub times sum=12 less=9 -o fast.times",
    options: Options::plain(&["o"], &[]),
    run,
};

fn run(args: &Args) -> Result<Done, Stop> {
    if let Some(out) = args.value("o") {
        return make(args, out);
    }
    match &args.given[..] {
        [] => show(args, None, "the built-in times"),
        [name] if !name.contains('=') => {
            let table = files::read(name)?;
            show(args, Some(&table), files::shown(name))
        }
        _ => Err(args
            .fault("-o and the name of a file for the table are missing")
            .into()),
    }
}

fn show(args: &Args, table: Table, name: &str) -> Result<Done, Stop> {
    let times = times::times(table)
        .map_err(|met| refusals::of_times(name, table.unwrap_or_default(), met))?;
    let named = || OPERATORS.iter().map(|(_, name)| *name).zip(&times);
    if args.flag("json") {
        let fields = named().map(|(name, time)| (name, Json::number(*time)));
        return Ok(Done::printing(Json::Object(fields.collect()).line()));
    }
    let line = |(name, time): (&str, &u8)| format!("{name:10} {time:3}\n");
    Ok(Done::printing(named().map(line).collect::<String>()))
}

fn make(args: &Args, out: &str) -> Result<Done, Stop> {
    let builtin = times::times(None);
    let mut times = builtin.map_err(|_| Fault::internal("an operator without a time"))?;
    for word in &args.given {
        let (operator, time) = setting(word).map_err(|wrong| args.fault(wrong))?;
        times[operator] = time;
    }
    let table = times::file(&times)?;
    // Times that are out of range are the product's to refuse.
    if let Err(met) = product::check(Beside::table(Some(&table)), &OK) {
        return Err(refused(&args.given, met).into());
    }
    files::write(out, &table)?;
    show(args, Some(&table), out)
}

/// Of times that can't stand in a table: the words that ask for them.
fn refused(given: &[String], met: Refusal) -> Report {
    let own = times::operator_at(met.place).and_then(|name| {
        let sets = |word: &&String| word.split('=').next() == Some(name);
        given.iter().find(sets).cloned()
    });
    Report {
        found: own,
        remedy: "give an operator a time from 1 to 200".to_string(),
        ..refusals::plain("the table", met)
    }
}

/// A program that every table takes: ok.
const OK: [u8; 4] = [16, 0, 0, 0];

/// An operator, by its place, and the time that it is to have.
fn setting(word: &str) -> Result<(usize, u8), String> {
    let wrong = || {
        let names: Vec<&str> = OPERATORS.iter().map(|(_, name)| *name).collect();
        let names = names.join(", ");
        format!("'{word}' isn't OPERATOR=TIME with a time below 256; operators: {names}")
    };
    let (name, time) = word.split_once('=').ok_or_else(wrong)?;
    let operator = OPERATORS.iter().position(|(_, known)| *known == name);
    let time = time.parse().map_err(|_| wrong())?;
    Ok((operator.ok_or_else(wrong)?, time))
}
