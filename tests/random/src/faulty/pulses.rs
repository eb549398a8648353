//! Peers that go wrong about longer pulses: simulators about merges, the finish and
//! what remains of start, a check, and a reader of files.

use super::starts::{miscounted, started, taking, IN_FLIGHT};
use super::walking::{walked, Fault};
use crate::damage::mend_checks;
use crate::flight;
use crate::formats::{bytes_of, remaining_in, wire_of};
use peers::{Peer, Reply, SECOND};
use second::cells::Netlist;
use second::{netfile, table};
use values::{Answer, Format, Given, Refusal};

/// Drops the held bits of a merge at its output, as with pulses of one instant.
pub const DROPPED_AT_OUTPUT: Peer = Peer {
    name: "dropped at output",
    continue_by: |format, file, n, state| walked(Fault::DroppedAtOutput, format, file, n, state),
    ..SECOND
};

/// Takes a finish for due at its rise alone.
pub const DUE_ONCE: Peer = Peer {
    name: "due once",
    continue_by: |format, file, n, state| {
        let before = (SECOND.continue_by)(format, file, 0, state);
        let mut was_high = before.result.is_ok_and(|answer| answer.ended);
        let mut reply = (SECOND.continue_by)(format, file, n, state);
        while let (true, Ok(answer)) = (was_high, reply.result) {
            let left = n - answer.count;
            if !answer.ended || answer.count == 0 || left == 0 {
                break;
            }
            reply = (SECOND.continue_by)(format, file, left, &reply.lent[0]);
            was_high = reply.result.is_ok_and(|next| next.count == 1);
            reply.result = reply.result.map(|next| Answer {
                count: answer.count + next.count,
                ..next
            });
        }
        reply
    },
    ..SECOND
};

/// Doesn't count the start's remaining instants as in flight.
pub const REMAINING_UNCOUNTED: Peer = Peer {
    name: "remaining uncounted",
    begin: |format, file, words, state| {
        let right = (SECOND.begin)(format, file, words, state);
        miscounted(without_remaining, format, file, right)
    },
    continue_by: |format, file, n, state| {
        taking(without_remaining, format, file, state, |state| {
            (SECOND.continue_by)(format, file, n, state)
        })
    },
    start: |format, file, state| {
        taking(without_remaining, format, file, state, |state| {
            (SECOND.start)(format, file, state)
        })
    },
    ..SECOND
};

fn without_remaining(netlist: &Netlist, state: &[u8]) -> u32 {
    let remaining = remaining_in(bytes_of(Format::Full, state, 0));
    flight::counted(Format::Full, &netlist.cells, state) - u32::from(remaining)
}

/// Gives a start while the finish is high, if nothing is in flight.
pub const HIGH_FINISH: Peer = Peer {
    name: "high finish",
    start: |format, file, state| {
        let right = (SECOND.start)(format, file, state);
        match (netfile::read(file), right.result) {
            (Ok(netlist), Err(IN_FLIGHT)) if flight::told(state) == 0 => {
                debug_assert_eq!(wire_of(format, state, netlist.finish), 1);
                started(netlist, state)
            }
            _ => right,
        }
    },
    ..SECOND
};

/// Accepts a loop or a call whose delay is the pulse's length.
pub const DELAY_OF_THE_LENGTH: Peer = Peer {
    name: "delay of the length",
    check: |given, program| Reply::lending_none(checked_with_room(given, program.to_vec())),
    ..SECOND
};

/// The check, where a delay of the pulse's length is taken for one more.
fn checked_with_room(given: Given, mut program: Vec<u8>) -> Result<(), Refusal> {
    loop {
        match (SECOND.check)(given, &program).result {
            Err(Refusal { number: 7, place }) if is_of_length(given, &program, place) => {
                program[4 * place + 1] += 1;
            }
            other => return other,
        }
    }
}

fn is_of_length(given: Given, program: &[u8], place: usize) -> bool {
    let goes_round = [22, 23, 25, 27].contains(&program[4 * place]);
    goes_round && program[4 * place + 1] == given.pulse
}

/// Looks at the table before the length.
pub const TABLE_FIRST: Peer = Peer {
    name: "table first",
    check: |given, program| match given.table.map(table::read) {
        Some(Err(refusal)) => Reply::lending_none(Err(refusal)),
        _ => (SECOND.check)(given, program),
    },
    ..SECOND
};

/// Looks at the length in the first block alone.
pub const FIRST_BLOCK_ALONE: Peer = Peer {
    name: "first block alone",
    read_netlist: |file, cells| {
        let right = (SECOND.read_netlist)(file, cells);
        match right.result {
            Err(Refusal { number: 11, .. }) => (SECOND.read_netlist)(&of_one_length(file), cells),
            _ => right,
        }
    },
    ..SECOND
};

/// The file with the length of its first block in every block.
fn of_one_length(file: &[u8]) -> Vec<u8> {
    let mut file = file.to_vec();
    let length = file[1];
    for block in file.chunks_exact_mut(512) {
        block[1] = length;
    }
    mend_checks(&mut file);
    file
}

/// Runs a compact state with pulses of any length, as one of one instant.
pub const COMPACT_AT_ANY_LENGTH: Peer = Peer {
    name: "compact at any length",
    begin: |format, file, words, state| {
        (SECOND.begin)(format, &short_if_compact(format, file), words, state)
    },
    ..SECOND
};

fn short_if_compact(format: Format, file: &[u8]) -> Vec<u8> {
    match (format, netfile::read(file)) {
        (Format::Compact, Ok(netlist)) => netfile::write(&Netlist {
            pulse: 1,
            ..netlist
        }),
        _ => file.to_vec(),
    }
}
