//! Peers that go wrong about compact states: about the number of a line, and
//! about refusal 26.

use crate::flight;
use crate::formats::{bytes_of, expanded, instant_of, left_in, newest, LEFT};
use crate::lend::{cell_length, state_length, HEADER};
use peers::{Peer, Reply, SECOND};
use second::cells::{Netlist, DELAY};
use second::netfile;
use values::{Answer, Format, Refusal};

/// A pulse has one instant less to go than its line is long.
pub const ONE_OFF: Peer = Peer {
    name: "one off",
    begin: |format, file, words, state| {
        one_off(format, file, (SECOND.begin)(format, file, words, state))
    },
    continue_by: |format, file, n, state| {
        one_off(format, file, (SECOND.continue_by)(format, file, n, state))
    },
    start: |format, file, state| one_off(format, file, (SECOND.start)(format, file, state)),
    ..SECOND
};

/// A reply in whose state a pulse that has just entered is an instant older.
fn one_off(format: Format, file: &[u8], mut reply: Reply<Answer>) -> Reply<Answer> {
    if let (Format::Compact, Ok(netlist), Ok(_)) = (format, netfile::read(file), reply.result) {
        let cells = reply.lent[0][HEADER..].chunks_exact_mut(cell_length(format));
        for (cell, bytes) in netlist.cells.iter().zip(cells) {
            if cell.kind == DELAY && cell.delay > 1 && left_in(bytes) == cell.delay {
                bytes[LEFT] -= 1;
            }
        }
    }
    reply
}

/// Refuses with 26 rightly, and leaves the state of the instant that it refuses.
pub const BAD_INSTANT: Peer = Peer {
    name: "bad instant",
    continue_by: |format, file, n, state| {
        at_26(format, file, n, state, |bad, refusal| Reply {
            result: Err(refusal),
            lent: vec![bad],
        })
    },
    ..SECOND
};

/// Refuses with 26 an instant after a pulse has entered, if it is to go so far.
pub const LATE: Peer = Peer {
    name: "late",
    continue_by: |format, file, n, state| {
        at_26(format, file, n, state, |bad, refusal| {
            let done = instant_of(&bad) - instant_of(state) == n;
            let mut reply = (SECOND.continue_by)(format, file, 0, &bad);
            match &mut reply.result {
                Ok(answer) if done => answer.count = n,
                result => *result = Err(refusal),
            }
            reply
        })
    },
    ..SECOND
};

/// A continuing; where it meets 26, what is told of the buffer at the instant that
/// is refused.
fn at_26(
    format: Format,
    file: &[u8],
    n: u32,
    state: &[u8],
    told: impl FnOnce(Vec<u8>, Refusal) -> Reply<Answer>,
) -> Reply<Answer> {
    let right = (SECOND.continue_by)(format, file, n, state);
    match (netfile::read(file), right.result) {
        (Ok(netlist), Err(refusal)) if refusal.number == 26 => {
            told(crowded(&netlist, file, &right.lent[0]), refusal)
        }
        _ => right,
    }
}

/// A compact state's buffer an instant later: of a line's pulses the newest is
/// left.
fn crowded(netlist: &Netlist, file: &[u8], buffer: &[u8]) -> Vec<u8> {
    let cells = &netlist.cells;
    let (state, past) = buffer.split_at(state_length(Format::Compact, cells.len()));
    let full = expanded(cells, state);
    let next = (SECOND.continue_by)(Format::Full, file, 1, &full);
    let mut next = newest(cells, &next.lent[0]);
    let number = flight::counted(Format::Compact, cells, &next);
    flight::tell(&mut next, number);
    [&next, past].concat()
}

/// Refuses with 26, too, a pulse that enters as the old one comes out.
pub const NARROW: Peer = Peer {
    name: "narrow",
    continue_by: |format, file, n, state| {
        let right = (SECOND.continue_by)(format, file, n, state);
        match (format, netfile::read(file), right.result) {
            (Format::Compact, Ok(netlist), Ok(answer)) => {
                let met = met_by_instants(&netlist, file, answer.count, state);
                met.unwrap_or(right)
            }
            _ => right,
        }
    },
    ..SECOND
};

/// The first instant at which a pulse enters a line as one comes out of it.
fn met_by_instants(
    netlist: &Netlist,
    file: &[u8],
    count: u32,
    state: &[u8],
) -> Option<Reply<Answer>> {
    let mut before = state.to_vec();
    for _ in 0..count {
        let after = (SECOND.continue_by)(Format::Compact, file, 1, &before)
            .lent
            .remove(0);
        let left = |state: &[u8], cell| left_in(bytes_of(Format::Compact, state, cell));
        let at_once = |&cell: &usize| left(&before, cell) == 1 && left(&after, cell) > 0;
        if let Some(place) = (0..netlist.cells.len()).find(at_once) {
            return Some(Reply {
                result: Err(Refusal::new(26, place)),
                lent: vec![before],
            });
        }
        before = after;
    }
    None
}
