//! A peer's simulator against the paper's equations, on a netlist of any
//! shape: demand 2, and continuing from states of any origin.

use crate::against_full::no_compact_state;
use crate::damage;
use crate::equations::{elements_of, Step};
use crate::flight;
use crate::formats::*;
use crate::job::MOST_INSTANT;
use crate::lend::{lent, state_length, ARRAYS};
use crate::xorshift::Random;
use peers::Peer;
use second::cells::Netlist;
use second::netfile;
use values::{Format, Refusal};

/// Enough instants to see a line of 256 inputs overflow.
const INSTANTS: u32 = 300;

/// Damaged states, and the instants that each is continued for.
const DAMAGED: usize = 8;
const INSTANTS_AFTER_DAMAGE: u32 = 12;

/// Compares on states of a format, and tells how often a run met refusal 26; the
/// error names the cell and the instant.
pub fn compare(
    peer: &Peer,
    format: Format,
    file: &[u8],
    words: &[u8],
    damage: u64,
) -> Result<u64, String> {
    let netlist = netfile::read(file).map_err(|refusal| format!("generated: {refusal:?}"))?;
    if format == Format::Compact && netlist.pulse > 1 {
        return no_compact_state(peer, file, words, 3_000).map(|()| 0);
    }
    let run = Run {
        peer,
        format,
        file,
        words,
        netlist: &netlist,
    };
    let begun = run.begin()?;
    let last = run.by_single_instants(begun.clone(), INSTANTS)?;
    run.check_in_one_go(begun.clone(), &last)?;
    let random = &mut Random::new(damage);
    let mut crowded = u64::from(instant_of(&last) < INSTANTS);
    run.with_starts(begun, INSTANTS, random)?;
    for _ in 0..DAMAGED {
        let damaged = damage::state(format, file, &last, random);
        // A refused state is no concern of the equations.
        match (peer.continue_by)(format, file, 0, &damaged).result {
            Ok(answer) if answer.instant <= MOST_INSTANT - INSTANTS_AFTER_DAMAGE => {
                let last = run.by_single_instants(damaged.clone(), INSTANTS_AFTER_DAMAGE)?;
                crowded += u64::from(instant_of(&last) < answer.instant + INSTANTS_AFTER_DAMAGE);
                run.with_starts(damaged, INSTANTS_AFTER_DAMAGE, random)?;
            }
            _ => {}
        }
    }
    Ok(crowded)
}

#[derive(Clone, Copy)]
struct Run<'a> {
    peer: &'a Peer,
    format: Format,
    file: &'a [u8],
    words: &'a [u8],
    netlist: &'a Netlist,
}

impl Run<'_> {
    /// The state at instant 0. Before it everything was 0.
    fn begin(&self) -> Result<Vec<u8>, String> {
        let length = state_length(self.format, self.netlist.cells.len());
        let mut reply = (self.peer.begin)(self.format, self.file, self.words, &lent(length));
        let after = reply.lent.remove(0);
        self.check(&vec![0; length], &after, 0, true)?;
        Ok(after)
    }

    /// The state some instants later, each made and checked by itself; where
    /// refusal 26 comes up, that of the last good one.
    fn by_single_instants(&self, begun: Vec<u8>, instants: u32) -> Result<Vec<u8>, String> {
        let mut state = begun;
        for _ in 0..instants {
            match self.next(&state, false)? {
                Some(after) => state = after,
                None => break,
            }
        }
        Ok(state)
    }

    /// The state an instant later, for which a start is given or not; none where
    /// refusal 26 comes up, as it must.
    fn next(&self, state: &[u8], starts: bool) -> Result<Option<Vec<u8>>, String> {
        let mut reply = match starts {
            true => (self.peer.start)(self.format, self.file, state),
            false => (self.peer.continue_by)(self.format, self.file, 1, state),
        };
        let (after, instant) = (reply.lent.remove(0), instant_of(state) + 1);
        match reply.result {
            Err(Refusal { number: 26, place }) if !starts && self.format == Format::Compact => {
                self.check_crowded(state, &after, place)?;
                Ok(None)
            }
            _ => {
                self.check(state, &after, instant, starts)?;
                Ok(Some(after))
            }
        }
    }

    /// Checks refusal 26 for the instant after a compact state. What its wires
    /// would have shown is told by the full state with the same pulses.
    fn check_crowded(&self, state: &[u8], after: &[u8], place: usize) -> Result<(), String> {
        let full = Run {
            format: Format::Full,
            ..*self
        };
        let cells = &self.netlist.cells;
        let next = full.next(&expanded(cells, state), false)?;
        let next = next.expect("a full state has room");
        let due = crowded(cells, state, |wire| wire_of(Format::Full, &next, wire) == 1);
        if due != Some(place) || after != state {
            let instant = instant_of(state) + 1;
            return Err(format!("26 at {place} for {instant}, expected {due:?}"));
        }
        Ok(())
    }

    /// Whether a start may be given after a state: nothing is in flight, and with
    /// longer pulses the finish is low.
    fn is_idle(&self, state: &[u8]) -> bool {
        let finish = wire_of(self.format, state, self.netlist.finish);
        flight::told(state) == 0 && (self.netlist.pulse == 1 || finish == 0)
    }

    /// The same with starts at some of the instants after which it is idle;
    /// elsewhere a start is refused.
    fn with_starts(
        &self,
        begun: Vec<u8>,
        instants: u32,
        random: &mut Random,
    ) -> Result<(), String> {
        let mut state = begun;
        for _ in 0..instants {
            let (instant, idle) = (instant_of(&state) + 1, self.is_idle(&state));
            let mut starts = random.once_in(4);
            if starts && !idle {
                let refused = (self.peer.start)(self.format, self.file, &state);
                if refused.result != Err(Refusal::new(23, 0)) || refused.lent[0] != state {
                    return Err(format!("start for {instant}: {:?}", refused.result));
                }
                starts = false;
            }
            match self.next(&state, starts)? {
                Some(after) => state = after,
                None => break,
            }
        }
        Ok(())
    }

    /// However the instants are parted among calls, the last state is the same.
    fn check_in_one_go(&self, begun: Vec<u8>, last: &[u8]) -> Result<(), String> {
        let mut state = begun;
        let mut left = INSTANTS;
        while left > 0 {
            let mut reply = (self.peer.continue_by)(self.format, self.file, left, &state);
            match reply.result {
                Ok(answer) if (1..=left).contains(&answer.count) => left -= answer.count,
                Err(Refusal { number: 26, .. }) if instant_of(last) < INSTANTS => left = 0,
                other => return Err(format!("in one go, {left} left: {other:?}")),
            }
            state = reply.lent.remove(0);
        }
        if state != last {
            return Err("in one go: the last state is another".to_string());
        }
        Ok(())
    }

    /// Checks every byte of the state of an instant.
    fn check(&self, before: &[u8], after: &[u8], instant: u32, starts: bool) -> Result<(), String> {
        let step = Step {
            format: self.format,
            netlist: self.netlist,
            words: self.words,
            before,
            after,
            instant,
            starts,
        };
        let in_flight = flight::counted(self.format, &self.netlist.cells, after);
        let header = [instant.to_le_bytes(), in_flight.to_le_bytes()].concat();
        if after[..8] != header {
            return Err(format!("instant {instant}: header {:?}", &after[..8]));
        }
        for cell in 0..self.netlist.cells.len() {
            let (found, expected) = (bytes_of(self.format, after, cell), step.expected(cell));
            if found != expected {
                return Err(format!(
                    "cell {cell}, instant {instant}: found {found:?}, expected {expected:?}"
                ));
            }
        }
        if let Some(cell) = step.crowded() {
            return Err(format!("instant {instant}: no 26 at cell {cell}"));
        }
        let (found, expected) = (elements_of(after), step.elements());
        match (0..ARRAYS).find(|&place| found[place] != expected[place]) {
            Some(place) => Err(format!("instant {instant}: byte {place} of the arrays")),
            None => Ok(()),
        }
    }
}
