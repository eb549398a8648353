//! `hub compile`: a program to its netlist file.

use super::{written, Command, Stop};
use crate::args::{Args, Options};
use crate::input::Given;
use crate::types::Done;

pub const COMMAND: Command = Command {
    name: "compile",
    usage: "FILE -o NET",
    about: "writes the netlist file of a program",
    more: "FILE is a text, NAME.outline an outline, NAME.prog a program's bytes, or --as says it\n\
           (text, outline, program). With --functional it is the functional circuit, which hands\n\
           words on.",
    example: "hub compile examples/two_boards.hub -o two_boards.net",
    options: Options::of_circuit(&["o"], &[]),
    run,
};

fn run(args: &Args) -> Result<Done, Stop> {
    let given = Given::only(args)?;
    let to = args.needed("o")?;
    let circuit = given.circuit()?;
    let cells = circuit.netlist.cells.len();
    written(args, to, &circuit.file, (cells, "cell"))
}
