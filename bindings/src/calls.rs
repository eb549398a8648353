//! The calls on lent bytes and numbers. A call that checks a program has in
//! front what is given beside it, one on a run's state the state's format.

use crate::exports::*;
use crate::reply::{accepted, answer, end, shape, written};
use values::{Answer, End, Format, Given, Part, Refusal, Shape, Table};

/// Checks a program.
pub fn check(given: Given, program: &[u8]) -> Result<(), Refusal> {
    let told =
        accepted(|reply| hub_check(given.table, given.procedures, given.pulse, program, reply));
    told.map(drop)
}

/// Compiles a program to a netlist file.
pub fn compile(given: Given, program: &[u8], file: &mut [u8]) -> Result<Shape, Refusal> {
    let told = accepted(|reply| {
        hub_compile(
            given.table,
            given.procedures,
            given.pulse,
            program,
            file,
            reply,
        )
    });
    told.map(|told| written(told, file))
}

/// Joins parts to the netlist file of their sequence.
pub fn join(table: Table, parts: &[Part], file: &mut [u8]) -> Result<Shape, Refusal> {
    let pieces = parts.iter().flat_map(|part| [part.program, part.file]);
    let pieces: Vec<&[u8]> = pieces.collect();
    let lengths: Vec<u32> = pieces.iter().map(|piece| piece.len() as u32).collect();
    let pulses: Vec<u8> = parts.iter().map(|part| part.pulse).collect();
    let bytes = pieces.concat();
    let told = accepted(|reply| hub_join(table, &lengths, &pulses, &bytes, file, reply));
    told.map(|told| written(told, file))
}

/// Reads a text to its program's bytes, and tells how many they are.
pub fn read_text(given: Given, text: &[u8], program: &mut [u8]) -> Result<usize, Refusal> {
    let told = accepted(|reply| {
        hub_read_text(
            given.table,
            given.procedures,
            given.pulse,
            text,
            program,
            reply,
        )
    });
    told.map(|told| told.first as usize)
}

/// Compiles a text to a netlist file.
pub fn compile_text(given: Given, text: &[u8], file: &mut [u8]) -> Result<Shape, Refusal> {
    let told = accepted(|reply| {
        hub_compile_text(
            given.table,
            given.procedures,
            given.pulse,
            text,
            file,
            reply,
        )
    });
    told.map(|told| written(told, file))
}

/// Writes cells of six bytes to a netlist file, for pulses of this length.
pub fn write_netlist(
    pulse: u8,
    cells: &[u8],
    finish: u16,
    file: &mut [u8],
) -> Result<Shape, Refusal> {
    let told = accepted(|reply| hub_write(pulse, cells, finish, file, reply));
    told.map(|told| written(told, file))
}

/// Reads a netlist file to cells of six bytes.
pub fn read_netlist(file: &[u8], cells: &mut [u8]) -> Result<Shape, Refusal> {
    accepted(|reply| hub_read(file, cells, reply)).map(shape)
}

/// Begins a run.
pub fn begin(
    format: Format,
    file: &[u8],
    words: &[u8],
    state: &mut [u8],
) -> Result<Answer, Refusal> {
    let export = match format {
        Format::Full => hub_begin,
        Format::Compact => hub_begin_compact,
    };
    accepted(|reply| export(file, words, state, reply)).map(answer)
}

/// Continues a run by at most `n` instants.
pub fn continue_by(
    format: Format,
    file: &[u8],
    state: &mut [u8],
    n: u32,
) -> Result<Answer, Refusal> {
    let export = match format {
        Format::Full => hub_continue,
        Format::Compact => hub_continue_compact,
    };
    accepted(|reply| export(file, state, n, reply)).map(answer)
}

/// Gives a second start pulse at the next instant.
pub fn start(format: Format, file: &[u8], state: &mut [u8]) -> Result<Answer, Refusal> {
    let export = match format {
        Format::Full => hub_start,
        Format::Compact => hub_start_compact,
    };
    accepted(|reply| export(file, state, reply)).map(answer)
}

/// A full run of a netlist.
pub fn run_netlist(
    file: &[u8],
    words: &[u8],
    budget: u32,
    state: &mut [u8],
) -> Result<Answer, Refusal> {
    accepted(|reply| hub_run_netlist(file, words, budget, state, reply)).map(answer)
}

/// A full run of a program; its netlist file and its last state are lent.
pub fn run_program(
    given: Given,
    program: &[u8],
    words: &[u8],
    budget: u32,
    file: &mut [u8],
    state: &mut [u8],
) -> Result<Answer, Refusal> {
    let told = accepted(|reply| {
        hub_run_program(
            given.table,
            given.procedures,
            given.pulse,
            program,
            words,
            budget,
            file,
            state,
            reply,
        )
    });
    told.map(answer)
}

/// A full run of a program in which operators take their time, with pulses of one instant;
/// every cell's value at its last instant, and a buffer to work in, are lent.
pub fn slow_run(
    table: Table,
    procedures: usize,
    program: &[u8],
    words: &[u8],
    budget: u32,
    values: &mut [u8],
    work: &mut [u8],
) -> Result<Answer, Refusal> {
    let told = accepted(|reply| {
        hub_slow_run(
            table, procedures, program, words, budget, values, work, reply,
        )
    });
    told.map(answer)
}

/// A full run of a text.
pub fn run_text(
    given: Given,
    text: &[u8],
    words: &[u8],
    budget: u32,
    file: &mut [u8],
    state: &mut [u8],
) -> Result<Answer, Refusal> {
    let told = accepted(|reply| {
        hub_run_text(
            given.table,
            given.procedures,
            given.pulse,
            text,
            words,
            budget,
            file,
            state,
            reply,
        )
    });
    told.map(answer)
}

/// The end of a program by its own rules, if within the budget.
pub fn reference_run(
    given: Given,
    program: &[u8],
    words: &[u8],
    budget: u32,
) -> Result<Option<End>, Refusal> {
    let told = accepted(|reply| {
        hub_reference(
            given.table,
            given.procedures,
            given.pulse,
            program,
            words,
            budget,
            reply,
        )
    });
    told.map(|told| end(told, budget))
}
