//! `hub read`: a text to its program's bytes.

use super::{written_program, Command, Stop};
use crate::args::{Args, Options};
use crate::input::Given;
use crate::types::Done;

pub const COMMAND: Command = Command {
    name: "read",
    usage: "FILE -o PROG",
    about: "writes the bytes of a text's program",
    more: "Those of a short text are what hubtext writes, and hubrun reads such bytes. They don't tell\n\
        how many procedures there are, so that --procedures N has to go with them. A refused\n\
        program writes none.",
    example: "hub read examples/two_boards.hub -o two_boards.prog",
    options: Options::of_program(&["o"], &[]),
    run,
};

fn run(args: &Args) -> Result<Done, Stop> {
    let given = Given::only(args)?;
    let to = args.needed("o")?;
    let program = given.program()?;
    written_program(args, to, &program.bytes, program.procedures)
}
