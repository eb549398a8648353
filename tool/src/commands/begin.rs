//! `hub begin`: the state of a circuit at instant 0.

use super::states::{asked_format, Kept};
use super::{started, Command, Stop};
use crate::args::{Args, Options};
use crate::product;
use crate::refusals;
use crate::types::{Done, DONE};

pub const COMMAND: Command = Command {
    name: "begin",
    usage: "FILE [NAME=N ..] [--start FILE] -o STATE [--compact] [--bare] [--all]",
    about: "begins a run, and writes its state to go on from",
    more:
        "FILE is a netlist, NAME.net, or a program that is compiled first. Told is also how many\n\
           pulses are in flight, or that the hub is idle. With --compact the state has 8 bytes for\n\
           each cell and not 40, with room for one pulse in each delay, which is enough for every\n\
           program. Behind the state stands of which netlist it is, and whether it was begun with\n\
           --functional; with --bare it stands alone, as a hub has it. The exit status is 0.",
    example: "hub begin two_boards.net x0=3 x1=5 -o two_boards.state",
    options: Options::of_circuit(&["o", "start"], &["all", "bare", "compact"]),
    run,
};

fn run(args: &Args) -> Result<Done, Stop> {
    let (file, words) = args.file_and_words()?;
    let to = args.needed("o")?;
    let (given, circuit, start) = started(args, file, words)?;
    let format = asked_format(args);
    let begun = product::begin(circuit.mode(format), &circuit.file, &start);
    let (state, answer) = begun.map_err(|met| match met.number {
        27 => refusals::of_compact(&given.name, &circuit.netlist, met).into(),
        _ => given.refused(met),
    })?;
    let kept = Kept::begun(args, &circuit, format, state);
    kept.write(to)?;
    Ok(Done {
        exit: DONE,
        ..kept.answered(args, &circuit, &start, &answer)
    })
}
