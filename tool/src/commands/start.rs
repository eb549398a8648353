//! `hub start`: a second start pulse for a run whose state is in a file.

use super::states::on_state;
use super::{Command, Stop};
use crate::args::{Args, Options};
use crate::product;
use crate::types::{Done, DONE};

pub const COMMAND: Command = Command {
    name: "start",
    usage: "FILE STATE [-o STATE] [--bare [--compact]] [--all]",
    about: "starts an idle hub again, by a start pulse in the next instant",
    more:
        "A hub is idle when no pulse is in flight, as it is from a program's end on. The program\n\
           then runs once more, from the words and elements that are there; a functional circuit\n\
           always runs from its start words. 'hub go' goes on with it. The state is written back, or\n\
           with -o to another file; a refused one is left as it is. It is started under the netlist\n\
           that it was begun with, and no other. A bare one, which doesn't tell that, is taken with\n\
           --bare, with --compact if it is compact, and with --functional if it was begun so. The\n\
           exit status is 0.",
    example: "hub start two_boards.net two_boards.state",
    options: Options::of_circuit(&["o"], &["all", "bare", "compact"]),
    run,
};

fn run(args: &Args) -> Result<Done, Stop> {
    Ok(Done {
        exit: DONE,
        ..on_state(args, |mode, file, state| product::start(mode, file, state))?
    })
}
