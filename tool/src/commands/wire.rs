//! `hub wire`: a list of cells back to a netlist file.

use super::{written, Command, Stop};
use crate::args::{Args, Options};
use crate::types::{Done, Wiring};
use crate::{lines, listed};

pub const COMMAND: Command = Command {
    name: "wire",
    usage: "LIST -o NET",
    about: "makes a netlist file of a list of cells, as 'hub cells' prints it or wired by hand",
    more: "A line is a cell, with its number or 'NAME:' in front or neither; inputs are numbers\n\
        or names, start, ground, x0 to x15, a0 to a3 among them. 'finish CELL' names the\n\
        finish wire; 'finish CELL, pulse W' tells also how long pulses are, 1 to 8 instants.\n\
        Numbers that are left out, and the lines 'idle memories' and 'idle arrays', are memories\n\
        and arrays that nothing writes to; where no line is about arrays, they stand behind 'idle\n\
        memories'. Text after # is passed over. Every command takes NAME.list as well, in place\n\
        of the netlist file, with the names that it gives.",
    example: "hub cells examples/two_boards.hub | hub wire - -o two_boards.net",
    options: Options::plain(&["o"], &[]),
    run,
};

fn run(args: &Args) -> Result<Done, Stop> {
    let [name] = args.exactly(["LIST"])?;
    let out = args.needed("o")?;
    let text = lines::read(name)?;
    let (listed, file) = listed::accepted(name, &text, Wiring::Imperative)?;
    written(args, out, &file, (listed.netlist.cells.len(), "cell"))
}
