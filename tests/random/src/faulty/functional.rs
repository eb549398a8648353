//! Peers that go wrong about functional circuits: a simulator about latches and second
//! starts, compilers about an if's words and an assignment's time, rules, a check about
//! the order of its refusals, and a reader of files about the last cells.

use super::walking::{walked, walked_of, Fault};
use crate::lend::{cell_length, file_length, HEADER};
use peers::{Functional, Peer, Reply, SECOND};
use second::cells::*;
use second::netfile;
use values::{Cell, Circuit, Format, Given, Refusal, Shape};

const ASSIGN: u8 = 18;
const EQUAL: u8 = 8;
const DIFFERENCE: u8 = 5;

/// The second's, with some calls on functional circuits in place of its own.
const fn faulty(name: &'static str, functional: Functional) -> Peer {
    Peer {
        name,
        functional,
        ..SECOND
    }
}

/// Takes of b the word of the instant after the one at which a was 1.
pub const WORD_OF_THE_NEXT_INSTANT: Peer = Peer {
    name: "word of the next instant",
    continue_by: |format, file, n, state| {
        walked(Fault::WordOfTheNextInstant, format, file, n, state)
    },
    functional: Functional {
        continue_by: |format, file, n, state| {
            let fault = Fault::WordOfTheNextInstant;
            walked_of(Circuit::Functional, fault, format, file, n, state)
        },
        ..SECOND.functional
    },
    ..SECOND
};

/// Selects an if's words by the pulse of its second branch.
pub const SELECTED_BY_PULSE: Peer = faulty(
    "selected by pulse",
    Functional {
        compile: |table, program, file| {
            let right = (SECOND.functional.compile)(table, program, file);
            match right.result {
                Ok(shape) => selected_by_pulse(shape, &right.lent[0], file),
                Err(_) => right,
            }
        },
        ..SECOND.functional
    },
);

/// The netlist in which the mask of an if, a difference behind an equal behind the or
/// of its finishes, is set while the second of these is high.
fn selected_by_pulse(shape: Shape, compiled: &[u8], file: &[u8]) -> Reply<Shape> {
    let length = file_length(shape.cells.into());
    let Netlist {
        pulse, mut cells, ..
    } = netfile::read(&compiled[..length]).expect("a compiled netlist");
    for or in 0..cells.len() - 2 {
        let fails = or as u16 + 1;
        let [finish, equal, mask] = [cells[or], cells[or + 1], cells[or + 2]];
        let is_mask = (mask.kind, mask.a, mask.b) == (DIFFERENCE, ZERO, fails);
        if is_mask && (finish.kind, equal.kind, equal.b) == (OR, EQUAL, ZERO) {
            cells[or + 1] = Cell::new(CONSTANT, 0, u16::MAX, 0);
            cells[or + 2] = Cell::new(GATE, 0, finish.b, fails);
        }
    }
    (SECOND.write_netlist)(pulse, &Cell::all_bytes(&cells), shape.finish, file)
}

/// Starts again from the words that the last run has come to.
pub const PRESENT_WORDS: Peer = faulty(
    "present words",
    Functional {
        start: |format, file, state| {
            let right = (SECOND.functional.start)(format, file, state);
            match (right.result, netfile::read(file)) {
                (Ok(_), Ok(netlist)) => {
                    let present = with_present_words(format, &netlist, state);
                    (SECOND.functional.start)(format, file, &present)
                }
                _ => right,
            }
        },
        ..SECOND.functional
    },
);

fn with_present_words(format: Format, netlist: &Netlist, state: &[u8]) -> Vec<u8> {
    let mut present = state.to_vec();
    for (memory, last) in netlist.memories().into_iter().zip(netlist.lasts()) {
        let [to, from] = [memory, last].map(|cell| HEADER + cell_length(format) * cell);
        present.copy_within(from..from + 2, to);
    }
    present
}

/// Waits an instant more for each assignment, as the other circuit does.
pub const SLOW_ASSIGNMENT: Peer = faulty(
    "slow assignment",
    Functional {
        compile: |table, program, file| {
            let mut slow = program.to_vec();
            for node in slow.chunks_exact_mut(4) {
                if node[0] == ASSIGN && node[1] > 0 {
                    node[1] = node[1].saturating_add(1);
                }
            }
            let right = (SECOND.functional.compile)(table, program, file);
            match right.result {
                Ok(_) => (SECOND.functional.compile)(table, &slow, file),
                Err(_) => right,
            }
        },
        ..SECOND.functional
    },
);

/// Runs the rules with the times of the other circuit.
pub const IMPERATIVE_TIMES: Peer = faulty(
    "imperative times",
    Functional {
        reference_run: |table, program, words, budget| {
            let right = (SECOND.functional.reference_run)(table, program, words, budget);
            match right.result {
                Ok(_) => (SECOND.reference_run)(Given::table(table), program, words, budget),
                Err(_) => right,
            }
        },
        ..SECOND.functional
    },
);

/// Looks for exits before it looks for kinds.
pub const EXITS_FIRST: Peer = faulty(
    "exits first",
    Functional {
        check: |table, program| {
            let imperative = (SECOND.check)(Given::table(table), program);
            match imperative.result {
                Err(Refusal { number: 22, .. }) => imperative,
                _ => (SECOND.functional.check)(table, program),
            }
        },
        ..SECOND.functional
    },
);

/// Looks at the last fifteen cells.
pub const FIFTEEN_LASTS: Peer = faulty(
    "fifteen lasts",
    Functional {
        begin: |format, file, words, state| {
            let right = (SECOND.functional.begin)(format, file, words, state);
            match (right.result, netfile::read(file)) {
                (Err(Refusal { number: 12, .. }), Ok(netlist)) if has_fifteen(&netlist) => {
                    (SECOND.begin)(format, file, words, state)
                }
                _ => right,
            }
        },
        ..SECOND.functional
    },
);

fn has_fifteen(netlist: &Netlist) -> bool {
    let mut mended = netlist.clone();
    mended.cells[netlist.lasts()[0]] = Cell::new(7, 0, ZERO, ZERO);
    check_lasts(&mended).is_ok()
}
