//! `hub draw`: the circuit as a picture.

use super::{Command, Stop};
use crate::args::{Args, Options};
use crate::draw::{dot, svg};
use crate::input::Given;
use crate::json::Json;
use crate::output;
use crate::types::Done;

pub const COMMAND: Command = Command {
    name: "draw",
    usage: "FILE -o x.svg | x.dot [--format F] [--all]",
    about: "draws a program's circuit, or a netlist, as a picture: SVG, or DOT for Graphviz",
    more: "Each statement has a frame. Control wires are thin and dark, word wires wide and\n\
        lighter; a word or an array that is read is a flag with its name. Memories and arrays\n\
        that nothing writes to are left out; --all draws them too. Of a functional circuit the\n\
        words that the program writes are drawn as they are at its end. --format says svg or dot\n\
        where no name does, as in -o -.",
    example: "hub draw examples/two_boards.hub -o two_boards.svg",
    options: Options::of_circuit(&["o", "format"], &["all"]),
    run,
};

fn run(args: &Args) -> Result<Done, Stop> {
    let [file] = args.exactly(["FILE"])?;
    args.needed("o")?;
    let all = args.flag("all");
    let drawn = match output::format(args, &["svg", "dot"], None, "a picture")? {
        "svg" => svg::svg,
        _ => dot::dot,
    };
    let given = Given::read(args, file)?;
    let circuit = given.circuit()?;
    let drawn = drawn(&circuit, &given.bytes, all)?;
    output::put(args, drawn, || Json::Null)
}
