//! `hub verilog`: the circuit as Verilog, with a testbench.

use super::run::{full_run, BUDGET};
use super::{started, written, Command, Stop};
use crate::args::{Args, Options};
use crate::labels;
use crate::product;
use crate::refusals;
use crate::types::Done;
use crate::verilog::{module, testbench, Edges, Expected};

pub const COMMAND: Command = Command {
    name: "verilog",
    usage: "FILE [NAME=N ..] [--start FILE] [--budget N] -o x.v",
    about: "writes a program's circuit as Verilog, with a testbench that checks a run of it",
    more: "The module hub has a clock, each rising edge of which is an instant, the finish wire\n\
           and the sixteen words, x0 lowest; the start pulse is given at instant 0. What the words\n\
           and elements start with are its parameters. The module hub_test runs it and prints PASS\n\
           if it ends at the instant and with the words and elements that the proved simulator\n\
           tells, or is still open after the budget, 1,000,000 instants if none is given.\n\
           --functional writes the functional circuit.",
    example: "hub verilog examples/two_boards.hub x0=3 x1=5 -o two_boards.v",
    options: Options::of_circuit(&["budget", "o", "start"], &[]),
    run,
};

fn run(args: &Args) -> Result<Done, Stop> {
    let (file, words) = args.file_and_words()?;
    let to = args.needed("o")?;
    let budget = args.number("budget")?.unwrap_or(BUDGET);
    let (given, circuit, start) = started(args, file, words)?;
    product::check_budget(&circuit.file, budget)
        .map_err(|met| Stop::from(refusals::plain("--budget", met)))?;
    let ran = full_run(&circuit, &start, budget);
    let (answer, last) = ran.map_err(|met| given.refused(met))?;
    let notes = labels::of_cells(&circuit, &given.bytes)?;
    let expected = Expected {
        ended: answer.ended,
        instant: answer.instant,
        last: &last,
    };
    let netlist = &circuit.netlist;
    let text = module(netlist, circuit.wiring, Edges::Rising, &start, &notes)
        + &testbench(netlist, expected);
    let cells = netlist.cells.len();
    written(args, to, text.as_bytes(), (cells, "cell"))
}
