//! `hub outline`: the nodes of a program.

use super::{Command, Stop};
use crate::args::{Args, Options};
use crate::input::{Form, Given};
use crate::json::Json;
use crate::types::{Done, Node};
use crate::{outline, output, product};

pub const COMMAND: Command = Command {
    name: "outline",
    usage: "FILE [-o OUTLINE]",
    about: "shows the nodes of a program as an indented outline, which 'hub assemble' takes back",
    more: "So it is seen how a text was read, a long one too: which delay stands where none was\n\
        written, and which word has which name. Every kind has a name there; a node that no name\n\
        fits stands as its bytes. Over each procedure and over the main program stands a heading.\n\
        The nodes of a file of program bytes are shown also where the product refuses them;\n\
        --procedures N tells how many procedures they begin with.",
    example: "hub outline examples/two_boards.hub",
    options: Options::of_program(&["o"], &[]),
    run,
};

fn run(args: &Args) -> Result<Done, Stop> {
    let given = Given::only(args)?;
    let bytes_of_nodes = !given.bytes.is_empty() && given.bytes.len().is_multiple_of(4);
    let nodes = match given.form {
        Form::Program if bytes_of_nodes => product::nodes(&given.bytes),
        _ => given.program()?.nodes,
    };
    let procedures = given.aside.procedures;
    output::put(
        args,
        outline::outline(procedures, &nodes, &given.names()),
        || Json::list(&nodes, json),
    )
}

fn json(node: &Node) -> Json {
    Json::Object(vec![
        ("kind", Json::number(node.kind)),
        ("delay", Json::number(node.delay)),
        ("n", Json::number(node.n)),
        ("words", Json::text(outline::words_of(node))),
    ])
}
