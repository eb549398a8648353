//! The calls on imperative circuits, on lent bytes and numbers.
//!
//! Each call makes all its checks, in the paper's order, before it writes a
//! lent byte, and writes no further than its result goes. Refusal 26 alone
//! comes up in a run, and leaves the state of the last good instant.
//!
//! A call that checks a program has in front what is given beside it: the pulse
//! length, whose refusal 27 comes before all others; the number of its
//! procedures; and it may be a table of operator times, whose refusals 19 to 21
//! come next; without it the built-in one serves.

use crate::check;
use crate::netfile;
use crate::parts;
use crate::program::Program;
use crate::rules::Moment;
use crate::runs::{self, calls_on_runs, put, shape};
use crate::table::{self, Times};
use crate::text;
use values::{Answer, Cell, Circuit, End, Format, Given, Part, Refusal, Shape, Table};

const IMPERATIVE: Circuit = Circuit::Imperative;

/// Checks a program: refusals 1 to 8, 22, 24 and 25.
pub fn check(given: Given, program: &[u8]) -> Result<(), Refusal> {
    checked(given, program).map(drop)
}

/// Compiles a program to a netlist file: refusals 1 to 8, 22, 24 and 25, 14.
pub fn compile(given: Given, program: &[u8], file: &mut [u8]) -> Result<Shape, Refusal> {
    runs::compile(IMPERATIVE, &checked(given, program)?, file)
}

/// Joins parts to the netlist file of their sequence: of each part 27, 19 to 21, 1
/// to 8, 22, 24 and 25, and 9 to 12, with no part the table's; then 29, 30, 31, 14.
pub fn join(table: Table, parts: &[Part], file: &mut [u8]) -> Result<Shape, Refusal> {
    for part in parts {
        check(parts::given(table, part), part.program)?;
        netfile::read(part.file)?;
    }
    table::times(table)?;
    parts::check(parts, |part| {
        let program = checked(parts::given(table, part), part.program);
        netfile::write(&runs::compiled(
            IMPERATIVE,
            &program.expect("it was checked"),
        ))
    })?;
    compile(parts::given(table, &parts[0]), &parts::whole(parts), file)
}

/// Reads a text to its program's bytes: refusals 17, 18, 1 to 8, 22, 24 and 25,
/// 14. Tells how many bytes these are.
pub fn read_text(given: Given, text: &[u8], program: &mut [u8]) -> Result<usize, Refusal> {
    let bytes = program_of(given, text)?;
    check(given, &bytes)?;
    put(&bytes, program)?;
    Ok(bytes.len())
}

/// Compiles a text: refusals 17, 18, and those of its program.
pub fn compile_text(given: Given, text: &[u8], file: &mut [u8]) -> Result<Shape, Refusal> {
    compile(given, &program_of(given, text)?, file)
}

/// Writes cells of six bytes to a netlist file: 27; 11 when they are no cells of
/// six bytes, otherwise what reading the file would refuse; then 14.
pub fn write_netlist(
    pulse: u8,
    cells: &[u8],
    finish: u16,
    file: &mut [u8],
) -> Result<Shape, Refusal> {
    check_pulse(pulse)?;
    let netlist = netfile::netlist_of(pulse, cells, finish)?;
    put(&netfile::write(&netlist), file)?;
    Ok(shape(&netlist))
}

/// Reads a netlist file to cells of six bytes: refusals 9 to 12, 14.
pub fn read_netlist(file: &[u8], cells: &mut [u8]) -> Result<Shape, Refusal> {
    let netlist = netfile::read(file)?;
    put(&Cell::all_bytes(&netlist.cells), cells)?;
    Ok(shape(&netlist))
}

calls_on_runs!(IMPERATIVE);

/// A full run of a program: refusals 1 to 8, 22, 24 and 25, 13, 14. Its netlist file
/// and its last state stand in the lent buffers.
pub fn run_program(
    given: Given,
    program: &[u8],
    words: &[u8],
    budget: u32,
    file: &mut [u8],
    state: &mut [u8],
) -> Result<Answer, Refusal> {
    let program = checked(given, program)?;
    runs::run_program(IMPERATIVE, &program, words, budget, file, state)
}

/// A full run of a program in which operators take their time: refusals 19 to 21, 1 to 8,
/// 22, 24 and 25, 13, 14. No pulse length is given: it is 1. Every cell's value at the last
/// instant stands in one lent buffer; the other, to work in, is left 0.
pub fn slow_run(
    table: Table,
    procedures: usize,
    program: &[u8],
    words: &[u8],
    budget: u32,
    values: &mut [u8],
    work: &mut [u8],
) -> Result<Answer, Refusal> {
    let times = table::times(table)?;
    let program = check::check(program, procedures, 1, &times)?;
    runs::slow_run(&program, &times, words, budget, values, work)
}

/// A full run of a text: refusals 17, 18, and those of its program's run.
pub fn run_text(
    given: Given,
    text: &[u8],
    words: &[u8],
    budget: u32,
    file: &mut [u8],
    state: &mut [u8],
) -> Result<Answer, Refusal> {
    let program = program_of(given, text)?;
    run_program(given, &program, words, budget, file, state)
}

/// The end of a program by its own rules, if within the budget: refusals 1 to
/// 8, 22, 24 and 25, 13, 14.
pub fn reference_run(
    given: Given,
    program: &[u8],
    words: &[u8],
    budget: u32,
) -> Result<Option<End>, Refusal> {
    let end = last_moment(given, program, words, budget)?;
    Ok(end.map(end_of))
}

/// What is told of a program's last moment.
pub(crate) fn end_of(last: Moment) -> End {
    End {
        instant: last.instant,
        words: last.contents.words,
    }
}

/// The same with the last words of the arrays, which no answer shows.
pub fn last_moment(
    given: Given,
    program: &[u8],
    words: &[u8],
    budget: u32,
) -> Result<Option<Moment>, Refusal> {
    let program = checked(given, program)?;
    runs::last_moment(IMPERATIVE, &program, words, budget)
}

/// A program that passes its checks under a table that passes its own.
fn checked(given: Given, program: &[u8]) -> Result<Program, Refusal> {
    let times = times(given)?;
    check::check(program, given.procedures, given.pulse, &times)
}

/// The bytes of a text's program; what is given beside it is refused before the
/// text.
fn program_of(given: Given, text: &[u8]) -> Result<Vec<u8>, Refusal> {
    times(given)?;
    text::program(text)
}

/// The operator times; refusals 27, 19 to 21.
fn times(given: Given) -> Result<Times, Refusal> {
    check_pulse(given.pulse)?;
    table::times(given.table)
}

/// Refusal 27 of a given pulse length.
pub(crate) fn check_pulse(pulse: u8) -> Result<(), Refusal> {
    if !netfile::PULSES.contains(&pulse) {
        return Err(Refusal::new(27, 0));
    }
    Ok(())
}
