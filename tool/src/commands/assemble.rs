//! `hub assemble`: an outline back to a program's bytes.

use super::{written_program, Command, Stop};
use crate::args::{Args, Options};
use crate::input::{Form, Given};
use crate::product;
use crate::types::Done;

pub const COMMAND: Command = Command {
    name: "assemble",
    usage: "OUTLINE -o PROG [--unchecked]",
    about: "makes a program's bytes of an outline",
    more: "The order of the lines counts, and the indentation must agree with it, unless no line is\n\
        indented; text after # is passed over. Procedures stand first, each behind a line\n\
        'procedure 0' and so on, then the main program behind 'main'; the bytes don't tell how many\n\
        there are, so that --procedures N has to go with them. A program that the product refuses\n\
        isn't written, unless --unchecked is given. The other commands take NAME.outline as it is.",
    example: "hub outline examples/two_boards.hub | hub assemble - -o two_boards.prog",
    options: Options::of_outline(&["o"], &["unchecked"]),
    run,
};

fn run(args: &Args) -> Result<Done, Stop> {
    let [name] = args.exactly(["OUTLINE"])?;
    let out = args.needed("o")?;
    let given = Given::read_as(args, name, Form::Outline)?;
    let nodes = match args.flag("unchecked") {
        true => given.source()?.nodes,
        false => given.program()?.nodes,
    };
    let program = product::program_bytes(&nodes);
    written_program(args, out, &program, given.aside.procedures)
}
