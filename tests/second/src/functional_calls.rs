//! The calls on functional circuits. Beside a program they are given a table
//! alone, if any: there are no procedures, and a pulse is high for one instant.

use crate::calls::end_of;
use crate::check::check_functional;
use crate::program::Program;
use crate::rules::Moment;
use crate::runs::{self, calls_on_runs};
use crate::table;
use values::{Answer, Circuit, End, Format, Refusal, Shape, Table};

const FUNCTIONAL: Circuit = Circuit::Functional;

/// Checks a program: refusals 19 to 21, 1 to 6, 28, 7, 8.
pub fn check(table: Table, program: &[u8]) -> Result<(), Refusal> {
    checked(table, program).map(drop)
}

/// Compiles a program to a netlist file: those of the check, 14.
pub fn compile(table: Table, program: &[u8], file: &mut [u8]) -> Result<Shape, Refusal> {
    runs::compile(FUNCTIONAL, &checked(table, program)?, file)
}

/// The end of a program by its own rules, with the times of a functional circuit,
/// if within the budget: those of the check, 13, 14.
pub fn reference_run(
    table: Table,
    program: &[u8],
    words: &[u8],
    budget: u32,
) -> Result<Option<End>, Refusal> {
    let end = last_moment(table, program, words, budget)?;
    Ok(end.map(end_of))
}

/// The same with the words of the arrays, which no answer shows.
pub fn last_moment(
    table: Table,
    program: &[u8],
    words: &[u8],
    budget: u32,
) -> Result<Option<Moment>, Refusal> {
    let program = checked(table, program)?;
    runs::last_moment(FUNCTIONAL, &program, words, budget)
}

calls_on_runs!(FUNCTIONAL);

/// A full run of a program: those of the check, 13, 14.
pub fn run_program(
    table: Table,
    program: &[u8],
    words: &[u8],
    budget: u32,
    file: &mut [u8],
    state: &mut [u8],
) -> Result<Answer, Refusal> {
    let program = checked(table, program)?;
    runs::run_program(FUNCTIONAL, &program, words, budget, file, state)
}

/// A program that passes its checks under a table that passes its own.
fn checked(table: Table, program: &[u8]) -> Result<Program, Refusal> {
    check_functional(program, &table::times(table)?)
}
