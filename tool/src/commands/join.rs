//! `hub join`: programs that were compiled one by one, joined to the netlist file of
//! their sequence.

use super::{written, Command, Stop};
use crate::args::{Args, Options};
use crate::files;
use crate::parts::{self, Part};
use crate::types::{Done, Fault};

pub const COMMAND: Command = Command {
    name: "join",
    usage: "FILE FILE .. -o NET",
    about: "joins programs to the netlist file of their sequence",
    more: "Two to eight programs without procedures, one after the other, under one table and with\n\
           one pulse length. NAME.net beside a program is its netlist, and is used, with its pulse\n\
           length where --pulse says none; where there is none the program is compiled. NET is\n\
           what compiling the whole sequence writes.",
    example: "hub join examples/two_boards.hub examples/overstepped.hub -o both.net",
    options: Options::of_program(&["o"], &[]),
    run,
};

fn run(args: &Args) -> Result<Done, Stop> {
    let to = args.needed("o")?;
    let read = args.given.iter().map(|name| Part::read(args, name));
    let parts = read.collect::<Result<Vec<_>, _>>()?;
    let nets = parts.iter().filter_map(|part| part.beside.as_deref());
    if let Some(net) = nets.into_iter().find(|net| files::are_same(net, to)) {
        let message = format!("-o {to} would write over {net}, which is read; give another name");
        return Err(Fault::usage(message).into());
    }
    let (file, cells) = parts::join(&parts)?;
    written(args, to, &file, (cells, "cell"))
}
