//! The calls on functional circuits. Beside a program they are given a table alone.

use crate::exports::*;
use crate::reply::{accepted, answer, end, written};
use values::{Answer, End, Format, Refusal, Shape, Table};

/// Checks a program.
pub fn check(table: Table, program: &[u8]) -> Result<(), Refusal> {
    accepted(|reply| hub_check_functional(table, program, reply)).map(drop)
}

/// Compiles a program to a netlist file.
pub fn compile(table: Table, program: &[u8], file: &mut [u8]) -> Result<Shape, Refusal> {
    let told = accepted(|reply| hub_compile_functional(table, program, file, reply));
    told.map(|told| written(told, file))
}

/// The end of a program by its own rules, with the times of a functional circuit, if
/// within the budget.
pub fn reference_run(
    table: Table,
    program: &[u8],
    words: &[u8],
    budget: u32,
) -> Result<Option<End>, Refusal> {
    let told = accepted(|reply| hub_reference_functional(table, program, words, budget, reply));
    told.map(|told| end(told, budget))
}

/// Begins a run.
pub fn begin(
    format: Format,
    file: &[u8],
    words: &[u8],
    state: &mut [u8],
) -> Result<Answer, Refusal> {
    let export = match format {
        Format::Full => hub_begin_functional,
        Format::Compact => hub_begin_functional_compact,
    };
    accepted(|reply| export(file, words, state, reply)).map(answer)
}

/// Continues a run by at most `n` instants.
pub fn continue_by(
    format: Format,
    file: &[u8],
    state: &mut [u8],
    n: u32,
) -> Result<Answer, Refusal> {
    let export = match format {
        Format::Full => hub_continue_functional,
        Format::Compact => hub_continue_functional_compact,
    };
    accepted(|reply| export(file, state, n, reply)).map(answer)
}

/// Gives a second start pulse at the next instant.
pub fn start(format: Format, file: &[u8], state: &mut [u8]) -> Result<Answer, Refusal> {
    let export = match format {
        Format::Full => hub_start_functional,
        Format::Compact => hub_start_functional_compact,
    };
    accepted(|reply| export(file, state, reply)).map(answer)
}

/// A full run of a netlist.
pub fn run_netlist(
    file: &[u8],
    words: &[u8],
    budget: u32,
    state: &mut [u8],
) -> Result<Answer, Refusal> {
    accepted(|reply| hub_run_functional(file, words, budget, state, reply)).map(answer)
}

/// A full run of a program; its netlist file and its last state are lent.
pub fn run_program(
    table: Table,
    program: &[u8],
    words: &[u8],
    budget: u32,
    file: &mut [u8],
    state: &mut [u8],
) -> Result<Answer, Refusal> {
    let told = accepted(|reply| {
        hub_run_functional_program(table, program, words, budget, file, state, reply)
    });
    told.map(answer)
}
