//! `hub go`: goes on with a run whose state is in a file.

use super::states::on_state;
use super::{Command, Stop};
use crate::args::{Args, Options};
use crate::product;
use crate::types::Done;

pub const COMMAND: Command = Command {
    name: "go",
    usage: "FILE STATE --by N [-o STATE] [--bare [--compact]] [--all]",
    about: "goes on with a run by at most N instants, until the finish is high",
    more:
        "Told is also how many pulses are in flight, or that the hub is idle. The state is written\n\
           back, or with -o to another file; a refused one is left as it is, but a compact one that\n\
           meets refusal 26 is written as it is at the last good instant. It goes on under the\n\
           netlist that it was begun with, and no other. A bare one, which doesn't tell that, is\n\
           taken with --bare, with --compact if it is compact, and with --functional if it was\n\
           begun so. The exit status is 0 if the\n\
           finish is high, 2 if the run is still open.",
    example: "hub go two_boards.net two_boards.state --by 50",
    options: Options::of_circuit(&["by", "o"], &["all", "bare", "compact"]),
    run,
};

fn run(args: &Args) -> Result<Done, Stop> {
    args.exactly(["FILE", "STATE"])?;
    args.needed("by")?;
    let instants = args.number("by")?.unwrap_or_default();
    on_state(args, |mode, file, state| {
        product::go(mode, file, state, instants)
    })
}
