//! Peers that go wrong about the number in flight and about second starts.

use super::walking::{Fault, Walk};
use crate::flight;
use crate::formats::instant_of;
use crate::job::MOST_INSTANT;
use crate::lend::{cell_length, state_length, ARRAYS, HEADER, WORDS};
use peers::{Bytes, Peer, Reply, SECOND};
use second::cells::Netlist;
use second::netfile;
use std::cell::RefCell;
use values::{Answer, Circuit, Format, Refusal};

pub const IN_FLIGHT: Refusal = Refusal::new(23, 0);

/// Counts all inputs that a line keeps, those too that have come out.
pub const STALE_COUNT: Peer = Peer {
    name: "stale count",
    begin: |format, file, words, state| {
        miscounted(
            stale_count,
            format,
            file,
            (SECOND.begin)(format, file, words, state),
        )
    },
    continue_by: |format, file, n, state| {
        taking(stale_count, format, file, state, |state| {
            (SECOND.continue_by)(format, file, n, state)
        })
    },
    start: |format, file, state| match (format, netfile::read(file)) {
        (Format::Full, Ok(netlist)) if has_stale(&netlist, state) => refused(IN_FLIGHT, state),
        _ => taking(stale_count, format, file, state, |state| {
            (SECOND.start)(format, file, state)
        }),
    },
    ..SECOND
};

/// Whether a state that it wrote itself tells of stale inputs.
fn has_stale(netlist: &Netlist, state: &[u8]) -> bool {
    let whole = state.len() >= state_length(Format::Full, netlist.cells.len());
    let fits = whole && instant_of(state) < MOST_INSTANT;
    fits && flight::told(state) == stale_count(netlist, state) && flight::told(state) > 0
}

fn stale_count(netlist: &Netlist, state: &[u8]) -> u32 {
    flight::counted_up_to(&netlist.cells, state, |_| 256)
}

/// The number that a peer takes for that of a full state.
pub type Count = fn(&Netlist, &[u8]) -> u32;

/// A call on a state that tells such a number, which it takes for right.
pub fn taking(
    count: Count,
    format: Format,
    file: &[u8],
    state: &[u8],
    call: impl FnOnce(&[u8]) -> Reply<Answer>,
) -> Reply<Answer> {
    if format == Format::Compact {
        return call(state);
    }
    let mut taken = state.to_vec();
    if let Ok(netlist) = netfile::read(file) {
        if state.len() >= state_length(format, netlist.cells.len()) {
            let right = flight::counted(format, &netlist.cells, state);
            let believed = flight::told(state) == count(&netlist, state);
            flight::tell(&mut taken, if believed { right } else { right + 1 });
        }
    }
    let reply = call(&taken);
    match reply.result {
        Ok(_) => miscounted(count, format, file, reply),
        Err(refusal) => refused(refusal, state),
    }
}

/// A reply whose full state tells such a number.
pub fn miscounted(
    count: Count,
    format: Format,
    file: &[u8],
    mut reply: Reply<Answer>,
) -> Reply<Answer> {
    if let (Format::Full, Ok(netlist), Ok(_)) = (format, netfile::read(file), reply.result) {
        let number = count(&netlist, &reply.lent[0]);
        flight::tell(&mut reply.lent[0], number);
    }
    reply
}

/// Gives a start whatever is in flight.
pub const HASTY: Peer = Peer {
    name: "hasty",
    start: |format, file, state| {
        let right = (SECOND.start)(format, file, state);
        match (format, netfile::read(file), right.result) {
            (Format::Full, Ok(netlist), Err(IN_FLIGHT)) => started(netlist, state),
            _ => right,
        }
    },
    ..SECOND
};

pub fn started(netlist: Netlist, state: &[u8]) -> Reply<Answer> {
    let walk = Walk::new(netlist, Fault::None);
    let length = state_length(Format::Full, walk.netlist.cells.len());
    let (run, past) = state.split_at(length);
    let run = walk.next(run, true);
    Reply {
        result: Ok(walk.answer(Circuit::Imperative, &run, 1)),
        lent: vec![[&run, past].concat()],
    }
}

thread_local! {
    /// The words of the last beginning.
    static BEGUN: RefCell<Vec<u8>> = const { RefCell::new(Vec::new()) };
}

/// Runs again from the words that the first run was begun with.
pub const FORGETTING: Peer = Peer {
    name: "forgetting",
    begin: |format, file, words, state| {
        BEGUN.with(|begun| *begun.borrow_mut() = words.to_vec());
        (SECOND.begin)(format, file, words, state)
    },
    start: |format, file, state| {
        let right = (SECOND.start)(format, file, state);
        let (Ok(_), Ok(netlist)) = (right.result, netfile::read(file)) else {
            return right;
        };
        let mut forgotten = state.to_vec();
        BEGUN.with(|words| put_words(format, &netlist, &words.borrow(), &mut forgotten));
        (SECOND.start)(format, file, &forgotten)
    },
    ..SECOND
};

/// Puts start words into the memories and the arrays of a state.
fn put_words(format: Format, netlist: &Netlist, words: &[u8], state: &mut [u8]) {
    for (memory, word) in netlist.memories().into_iter().zip(words.chunks_exact(2)) {
        state[HEADER + cell_length(format) * memory..][..2].copy_from_slice(word);
    }
    let arrays = state_length(format, netlist.cells.len()) - ARRAYS;
    state[arrays..][..ARRAYS].copy_from_slice(&words[WORDS - ARRAYS..WORDS]);
}

/// Doesn't count the instant of a start for refusal 16.
pub const UNCOUNTED: Peer = Peer {
    name: "uncounted",
    start: |format, file, state| {
        let right = (SECOND.start)(format, file, state);
        match right.result {
            Err(Refusal { number: 16, .. }) if instant_of(state) == MOST_INSTANT => {
                beyond(format, file, state)
            }
            _ => right,
        }
    },
    ..SECOND
};

/// A start for the instant after the last.
fn beyond(format: Format, file: Bytes, state: Bytes) -> Reply<Answer> {
    let tell = |state: &mut [u8], instant: u32| state[..4].copy_from_slice(&instant.to_le_bytes());
    let mut earlier = state.to_vec();
    tell(&mut earlier, 0);
    let mut reply = (SECOND.start)(format, file, &earlier);
    match &mut reply.result {
        Ok(answer) => {
            answer.instant = MOST_INSTANT + 1;
            tell(&mut reply.lent[0], MOST_INSTANT + 1);
            reply
        }
        Err(refusal) => refused(*refusal, state),
    }
}

fn refused(refusal: Refusal, state: &[u8]) -> Reply<Answer> {
    Reply {
        result: Err(refusal),
        lent: vec![state.to_vec()],
    }
}
