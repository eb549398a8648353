//! The product's calls, with buffers of the size that each result needs.

use crate::layout::{
    element_in, file_length, pulse_in, slow_length, state_length, store_bytes, words_in, CELLS,
    FILE, PROGRAM,
};
use crate::store::{self, Store, LENGTH, OF_ARRAYS};
use crate::types::{Answer, Beside, Cell, End, Format, Mode, Netlist, Node, Refusal, Wiring};
use bindings::{calls, cell_calls, functional_calls};

/// Checks a program.
pub fn check(beside: Beside, program: &[u8]) -> Result<(), Refusal> {
    match beside.wiring {
        Wiring::Imperative => calls::check(beside.given(), program),
        Wiring::Functional => functional_calls::check(beside.table, program),
    }
}

/// The bytes of an accepted text's program.
pub fn read_text(beside: Beside, text: &[u8]) -> Result<Vec<u8>, Refusal> {
    let mut program = vec![0; PROGRAM];
    let length = calls::read_text(beside.given(), text, &mut program)?;
    program.truncate(length);
    Ok(program)
}

/// The netlist file of a program.
pub fn compile(beside: Beside, program: &[u8]) -> Result<Vec<u8>, Refusal> {
    let mut file = vec![0; FILE];
    let shape = match beside.wiring {
        Wiring::Imperative => calls::compile(beside.given(), program, &mut file)?,
        Wiring::Functional => functional_calls::compile(beside.table, program, &mut file)?,
    };
    file.truncate(file_length(usize::from(shape.cells)));
    Ok(file)
}

/// The netlist in a file.
pub fn read_netlist(file: &[u8]) -> Result<Netlist, Refusal> {
    let mut cells = vec![Cell::new(0, 0, 0, 0); CELLS];
    let shape = cell_calls::read(file, 0, &mut cells)?;
    cells.truncate(usize::from(shape.cells));
    Ok(Netlist {
        cells,
        finish: shape.finish,
        pulse: pulse_in(file),
    })
}

/// Checks a netlist.
pub fn check_netlist(netlist: &Netlist) -> Result<(), Refusal> {
    cell_calls::check(&netlist.cells, netlist.finish)
}

/// The file of a netlist.
pub fn write_netlist(netlist: &Netlist) -> Result<Vec<u8>, Refusal> {
    let Netlist {
        cells,
        finish,
        pulse,
    } = netlist;
    let mut file = vec![0; FILE];
    let shape = cell_calls::write(*pulse, cells, *finish, &mut file)?;
    file.truncate(file_length(usize::from(shape.cells)));
    Ok(file)
}

/// Begins a run of a netlist file: its state at instant 0.
pub fn begin(
    mode: impl Into<Mode>,
    file: &[u8],
    start: &Store,
) -> Result<(Vec<u8>, Answer), Refusal> {
    let Mode { format, wiring } = mode.into();
    let mut state = state_for(format, file)?;
    let call = match wiring {
        Wiring::Imperative => calls::begin,
        Wiring::Functional => functional_calls::begin,
    };
    let answer = call(format, file, &store_bytes(start), &mut state)?;
    Ok((state, answer))
}

/// Room for a state of a netlist.
fn state_for(format: Format, file: &[u8]) -> Result<Vec<u8>, Refusal> {
    let cells = read_netlist(file)?.cells.len();
    Ok(vec![0; state_length(format, cells)])
}

/// Continues a run by at most `n` instants.
pub fn go(mode: impl Into<Mode>, file: &[u8], state: &mut [u8], n: u32) -> Result<Answer, Refusal> {
    let Mode { format, wiring } = mode.into();
    match wiring {
        Wiring::Imperative => calls::continue_by(format, file, state, n),
        Wiring::Functional => functional_calls::continue_by(format, file, state, n),
    }
}

/// Gives a second start pulse at the next instant.
pub fn start(mode: impl Into<Mode>, file: &[u8], state: &mut [u8]) -> Result<Answer, Refusal> {
    let Mode { format, wiring } = mode.into();
    match wiring {
        Wiring::Imperative => calls::start(format, file, state),
        Wiring::Functional => functional_calls::start(format, file, state),
    }
}

/// Whether a second start pulse would be taken, but for the instant that it comes
/// to.
pub fn is_idle(mode: impl Into<Mode>, file: &[u8], state: &[u8]) -> bool {
    let started = start(mode, file, &mut state.to_vec());
    !matches!(started, Err(Refusal { number: 23, .. }))
}

/// The words that an answer tells, and the elements of its state of so many
/// cells.
pub fn contents(format: Format, answer: &Answer, state: &[u8], cells: usize) -> Store {
    let mut store = store::of_words(&answer.words);
    for place in OF_ARRAYS {
        store[place] = element_in(format, state, cells, place);
    }
    store
}

/// A full run of a netlist file.
pub fn run_netlist(file: &[u8], start: &Store, budget: u32) -> Result<Answer, Refusal> {
    let mut state = state_for(Format::Full, file)?;
    calls::run_netlist(file, &store_bytes(start), budget, &mut state)
}

/// A full run of a program of so many cells with gates that take their time, and every
/// cell's word at its last instant. Its pulses are one instant long, whatever is given.
pub fn slow_run(
    beside: Beside,
    program: &[u8],
    start: &Store,
    budget: u32,
    cells: usize,
) -> Result<(Answer, Vec<u16>), Refusal> {
    let (mut values, mut work) = (vec![0; 2 * cells], vec![0; slow_length(cells)]);
    let answer = calls::slow_run(
        beside.table,
        beside.procedures,
        program,
        &store_bytes(start),
        budget,
        &mut values,
        &mut work,
    )?;
    Ok((answer, words_in(&values)))
}

/// Whether a netlist file may be run with this budget. A full run looks at the
/// budget before it looks at the room for its state, and here there is none.
pub fn check_budget(file: &[u8], budget: u32) -> Result<(), Refusal> {
    but_for_room(calls::run_netlist(
        file,
        &store_bytes(&[0; LENGTH]),
        budget,
        &mut [],
    ))
}

/// Whether the last sixteen cells of an accepted netlist are those of a functional
/// circuit.
pub fn check_last(file: &[u8]) -> Result<(), Refusal> {
    but_for_room(functional_calls::run_netlist(
        file,
        &store_bytes(&[0; LENGTH]),
        0,
        &mut [],
    ))
}

/// Why a run is refused that was lent no room.
fn but_for_room(ran: Result<Answer, Refusal>) -> Result<(), Refusal> {
    match ran {
        Err(refusal) if refusal.number != 14 => Err(refusal),
        _ => Ok(()),
    }
}

/// The end of a program by its own rules, if within the budget.
pub fn reference(
    beside: Beside,
    program: &[u8],
    start: &Store,
    budget: u32,
) -> Result<Option<End>, Refusal> {
    let words = store_bytes(start);
    match beside.wiring {
        Wiring::Imperative => calls::reference_run(beside.given(), program, &words, budget),
        Wiring::Functional => {
            functional_calls::reference_run(beside.table, program, &words, budget)
        }
    }
}

/// The nodes that stand in a program's bytes, four for each.
pub fn nodes(program: &[u8]) -> Vec<Node> {
    let node = |bytes: &[u8]| Node {
        kind: bytes[0],
        delay: bytes[1],
        n: u16::from_le_bytes([bytes[2], bytes[3]]),
    };
    program.chunks_exact(4).map(node).collect()
}

/// The bytes of a program's nodes.
pub fn program_bytes(nodes: &[Node]) -> Vec<u8> {
    let bytes = |node: &Node| {
        let [low, high] = node.n.to_le_bytes();
        [node.kind, node.delay, low, high]
    };
    nodes.iter().flat_map(bytes).collect()
}
