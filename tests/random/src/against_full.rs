//! A peer's compact states beside its full ones: the circuit of a program, of either
//! kind, begun alike and given the same calls, refused ones among them, answers alike,
//! and after every call the compact state is the full one with a number for each line.
//! So wires, now and an instant ago, words and the number in flight are the same, no
//! line has two pulses on their way, and refusal 26 never comes up. With longer pulses
//! there is no compact state: refusal 27.

use crate::formats::{compacted, instant_of};
use crate::job::{Ask, Call, Job, Mode, Room};
use crate::lend::*;
use peers::{Peer, Reply};
use second::cells::Netlist;
use second::netfile;
use values::{Answer, Circuit, Format, Refusal};

/// So many instants after a beginning and after each call are gone through one
/// by one, too.
const SINGLE: usize = 8;

/// Compares, and tells how many calls on compact states it made.
pub fn compare(peer: &Peer, circuit: Circuit, job: &Job) -> Result<u64, String> {
    let compiled = match circuit {
        Circuit::Imperative => (peer.compile)(job.given(), &job.program, &lent(MOST_FILE)),
        Circuit::Functional => {
            let room = lent(MOST_FUNCTIONAL_FILE);
            (peer.functional.compile)(job.lent_table(), &job.program, &room)
        }
    };
    let Ok(shape) = compiled.result else {
        return Ok(0);
    };
    let file = &compiled.lent[0][..file_length(shape.cells.into())];
    let netlist = netfile::read(file).map_err(|refusal| format!("compiled: {refusal:?}"))?;
    if netlist.pulse > 1 {
        return no_compact_state(peer, file, &job.words, job.state_length).map(|()| 0);
    }
    let mut runs = Runs {
        peer,
        circuit,
        file,
        netlist: &netlist,
        states: Format::BOTH.map(|format| lent(state_length(format, netlist.cells.len()))),
        calls: 0,
    };
    runs.both("begin", |format, state| {
        peer.begin_of(circuit)(format, file, &job.words, state)
    })?;
    if job.words.len() < WORDS {
        return Ok(runs.calls);
    }
    runs.single_instants()?;
    for (index, call) in job.calls.iter().enumerate() {
        runs.call(&format!("call {index}"), *call)?;
        runs.single_instants()?;
    }
    Ok(runs.calls)
}

/// Every call on a compact state of a netlist with longer pulses is refusal 27,
/// whatever words and state are.
pub fn no_compact_state(
    peer: &Peer,
    file: &[u8],
    words: &[u8],
    length: usize,
) -> Result<(), String> {
    let state = lent(length);
    for (name, reply) in [
        ("begin", (peer.begin)(Format::Compact, file, words, &state)),
        ("go", (peer.continue_by)(Format::Compact, file, 1, &state)),
        ("start", (peer.start)(Format::Compact, file, &state)),
    ] {
        if reply.result != Err(Refusal::new(27, 0)) || reply.lent[0] != state {
            return Err(format!("{name}, compact: {:?}", reply.result));
        }
    }
    Ok(())
}

/// A run of a netlist, on a state of each format.
struct Runs<'a> {
    peer: &'a Peer,
    circuit: Circuit,
    file: &'a [u8],
    netlist: &'a Netlist,
    /// The full one and the compact one.
    states: [Vec<u8>; 2],
    /// The calls made on the compact one.
    calls: u64,
}

impl Runs<'_> {
    fn call(&mut self, name: &str, Call { ask, room }: Call) -> Result<(), String> {
        let (peer, file, instant) = (self.peer, self.file, instant_of(&self.states[0]));
        let circuit = self.circuit;
        self.both(&format!("{name}, {ask:?}"), |format, state| {
            let buffer = lent_with(state, room.around(state.len()));
            ask.of(peer, Mode::new(circuit, format), file, instant, &buffer)
        })
    }

    /// Single instants from here on, after which the run stands where it stood.
    fn single_instants(&mut self) -> Result<(), String> {
        let (ask, room) = (Ask::Go(1), Room::Exact);
        let states = self.states.clone();
        for single in 0..SINGLE {
            self.call(&format!("single instant {single}"), Call { ask, room })?;
        }
        self.states = states;
        Ok(())
    }

    /// Makes a call on both states. A refused one leaves them as they are.
    fn both(
        &mut self,
        name: &str,
        call: impl Fn(Format, &[u8]) -> Reply<Answer>,
    ) -> Result<(), String> {
        let [full, compact] = &self.states;
        let (full, compact) = (call(Format::Full, full), call(Format::Compact, compact));
        self.calls += 1;
        if full.result != compact.result {
            let (full, compact) = (full.result, compact.result);
            return Err(format!("{name}: full {full:?}, compact {compact:?}"));
        }
        if full.result.is_ok() {
            for (state, reply) in self.states.iter_mut().zip([full, compact]) {
                let length = state.len();
                state.copy_from_slice(&reply.lent[0][..length]);
            }
            self.check_states(name)?;
        }
        Ok(())
    }

    /// The compact state is the full one's.
    fn check_states(&self, name: &str) -> Result<(), String> {
        let [full, compact] = &self.states;
        let Some(expected) = compacted(&self.netlist.cells, full) else {
            return Err(format!("{name}: two pulses in one line"));
        };
        match (0..expected.len()).find(|&place| compact[place] != expected[place]) {
            Some(place) => Err(format!("{name}: byte {place} of the compact state")),
            None => Ok(()),
        }
    }
}
