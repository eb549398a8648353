//! `hub format`: a program as text with the fewest brackets.

use super::{Command, Stop};
use crate::args::{Args, Options};
use crate::input::{Given, Program};
use crate::json::Json;
use crate::source::{self, Source};
use crate::types::{Done, Fault};
use crate::{format, output, product};

pub const COMMAND: Command = Command {
    name: "format",
    usage: "FILE [-o TEXT]",
    about: "writes a program as text with the fewest brackets",
    more: "FILE is a text, an outline or a program's bytes. The text is read back before it is\n\
        shown: it stands for the same program. A long text stays one, with its names, its\n\
        comments and the delays that it leaves out; a program in another form becomes one if it\n\
        has arrays, loop, exit or procedures.",
    example: "hub format examples/two_boards.hub",
    options: Options::of_program(&["o"], &[]),
    run,
};

fn run(args: &Args) -> Result<Done, Stop> {
    let given = Given::only(args)?;
    let program = given.program()?;
    let text = text(&given, &program)?;
    output::put(args, text.as_str(), || {
        Json::Object(vec![("text", Json::text(&text))])
    })
}

/// The text of a program, which is read back.
fn text(given: &Given, program: &Program) -> Result<String, Fault> {
    let no_tree = || Fault::internal("the program is no tree");
    if !program.long && format::has_text(program.procedures, &program.nodes) {
        let text = format::format(&format::tree(&program.nodes).ok_or_else(no_tree)?);
        let back = product::read_text(given.beside(), text.as_bytes());
        return stands_for(text, back.as_ref() == Ok(&program.bytes));
    }
    let source = match &given.long {
        Some(source) => source.clone(),
        None => Source::of_nodes(program.procedures, &program.nodes),
    };
    let text = format::long(&source, &given.bytes).ok_or_else(no_tree)?;
    let back = source::read(text.as_bytes()).and_then(|mut back| {
        back.settle(given.beside())?;
        Ok(back)
    });
    let same = back.is_ok_and(|back| back.nodes == source.nodes && back.names == source.names);
    stands_for(text, same)
}

/// A text that stands for the program that it was made from.
fn stands_for(text: String, same: bool) -> Result<String, Fault> {
    let message = "the text stands for another program than the one that it was made from";
    same.then_some(text).ok_or_else(|| Fault::internal(message))
}
