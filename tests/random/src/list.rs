//! A list of calls on the circuit of a program, held against its rules: a beginning,
//! continuings and starts, refused ones among them, and a full run.

use crate::due::Run;
use crate::flight;
use crate::formats::wire_of;
use crate::job::{Ask, Call, Job, Mode, MOST_INSTANT};
use crate::lend::*;
use peers::{Peer, Reply};
use second::cells::Netlist;
use second::rules::Moment;
use second::{calls, functional_calls, netfile};
use std::fmt::Debug;
use values::{Answer, Circuit, End, Format, Refusal};

/// How a job came out, for the tally.
#[derive(Clone, Copy, Debug, PartialEq, Eq)]
pub struct Seen {
    pub outcome: Outcome,
    pub starts: Starts,
}

impl Seen {
    pub fn refused() -> Seen {
        Seen {
            outcome: Outcome::Refused,
            starts: Starts::default(),
        }
    }
}

#[derive(Clone, Copy, Debug, PartialEq, Eq)]
pub enum Outcome {
    Ended,
    Open,
    Refused,
}

/// The second starts of a job: refused before an end, refused while the finish is
/// high, given as soon as may be, and given later.
#[derive(Clone, Copy, Debug, Default, PartialEq, Eq)]
pub struct Starts {
    pub early: u64,
    pub at_the_finish: u64,
    pub at_once: u64,
    pub late: u64,
}

impl Starts {
    pub fn add(&mut self, others: Starts) {
        self.early += others.early;
        self.at_the_finish += others.at_the_finish;
        self.at_once += others.at_once;
        self.late += others.late;
    }
}

/// The calls of a job on a netlist of its program.
pub struct List<'a> {
    peer: &'a Peer,
    mode: Mode,
    job: &'a Job,
    /// The start words.
    words: &'a [u8],
    file: &'a [u8],
    netlist: Netlist,
    /// The length of the state.
    length: usize,
}

impl<'a> List<'a> {
    /// The list on a netlist file that is accepted.
    pub fn new(
        peer: &'a Peer,
        mode: Mode,
        job: &'a Job,
        words: &'a [u8],
        file: &'a [u8],
    ) -> Result<List<'a>, String> {
        let netlist = netfile::read(file).map_err(|refusal| format!("compiled: {refusal:?}"))?;
        let length = state_length(mode.format, netlist.cells.len());
        Ok(List {
            peer,
            mode,
            job,
            words,
            file,
            netlist,
            length,
        })
    }

    /// All calls; the error says which disagrees, and how.
    pub fn compare(&self) -> Result<Seen, String> {
        let first = self.first_run()?;
        let starts = self.check_calls(first)?;
        self.check_full_runs(first)?;
        let outcome = match first.end {
            Some(_) => Outcome::Ended,
            None => Outcome::Open,
        };
        Ok(Seen { outcome, starts })
    }

    /// The run from instant 0, as far as the job's calls can come.
    fn first_run(&self) -> Result<Run, String> {
        let budget = Some(self.job.budget).filter(|n| *n <= MOST_INSTANT);
        let reach = reach(&self.job.calls, 0).max(budget.unwrap_or(0));
        self.run_from(0, self.words, reach)
    }

    /// The run from a pulse at this instant, from these words, within so many
    /// instants: by the rules alone, counted from that pulse.
    fn run_from(&self, pulse: u32, words: &[u8], reach: u32) -> Result<Run, String> {
        let (moment, found) = self.by_the_rules(words, reach);
        let end = |moment: Moment| End {
            instant: moment.instant,
            words: moment.contents.words,
        };
        expect("the rules", found, moment.map(|moment| moment.map(end)))?;
        let moment = moment
            .map_err(|refused| format!("the rules refuse what the check accepts: {refused:?}"))?;
        let later = |moment: Moment| Moment {
            instant: pulse + moment.instant,
            ..moment
        };
        Ok(Run {
            end: moment.map(later),
            pulse: self.netlist.pulse.into(),
        })
    }

    /// The end by the second's rules, with the arrays, and by the peer's.
    #[allow(clippy::type_complexity)]
    fn by_the_rules(
        &self,
        words: &[u8],
        reach: u32,
    ) -> (
        Result<Option<Moment>, Refusal>,
        Result<Option<End>, Refusal>,
    ) {
        let (job, program) = (self.job, &self.job.program);
        match self.mode.circuit {
            Circuit::Imperative => (
                calls::last_moment(job.given(), program, words, reach),
                (self.peer.reference_run)(job.given(), program, words, reach).result,
            ),
            Circuit::Functional => {
                let table = job.lent_table();
                let reference_run = self.peer.functional.reference_run;
                (
                    functional_calls::last_moment(table, program, words, reach),
                    reference_run(table, program, words, reach).result,
                )
            }
        }
    }

    /// The words that a start after this end runs from.
    fn next_words(&self, end: Moment) -> Vec<u8> {
        match self.mode.circuit {
            Circuit::Imperative => end.contents.bytes(),
            Circuit::Functional => self.words.to_vec(),
        }
    }

    /// The beginning and the list of calls, the state threaded through.
    fn check_calls(&self, first: Run) -> Result<Starts, String> {
        let Mode { circuit, format } = self.mode;
        let begin = self.peer.begin_of(circuit);
        let begun = begin(format, self.file, self.words, &lent(self.length));
        self.check_answer("begin", first, &begun, first.stop(0, 0), 1)?;
        let mut state = begun.lent[0].clone();
        let (mut run, mut instant) = (first, 0);
        let mut starts = Starts::default();
        for (index, call) in self.job.calls.iter().enumerate() {
            let name = format!("call {index}, {:?}, {:?}", call.ask, self.mode);
            let buffer = lent_with(&state, call.room.around(self.length));
            let reply = call
                .ask
                .of(self.peer, self.mode, self.file, instant, &buffer);
            if let Some(number) = self.refusal(call, &buffer, run, instant) {
                expect(&name, reply.result, Err(Refusal::new(number, 0)))?;
                expect(&name, &reply.lent[0], &buffer)?;
                match run.is_due(instant) {
                    _ if number != 23 => {}
                    true => starts.at_the_finish += 1,
                    false => starts.early += 1,
                }
                continue;
            }
            if let (Ask::Start, Some(end)) = (call.ask, run.idle_by(instant)) {
                match run.idle_from(&end) == instant {
                    true => starts.at_once += 1,
                    false => starts.late += 1,
                }
                let reach = reach(&self.job.calls[index..], instant + 1);
                run = self.run_from(instant + 1, &self.next_words(end), reach)?;
            }
            let stop = run.stop(instant, call.ask.most(instant));
            self.check_answer(&name, run, &reply, stop, stop.0 - instant)?;
            let (after, past) = reply.lent[0].split_at(self.length);
            expect(&name, past, &buffer[self.length..])?;
            if stop.0 == instant {
                expect(&name, after, &state)?;
            }
            state = after.to_vec();
            instant = stop.0;
        }
        Ok(starts)
    }

    /// The refusal that a call must meet, if any.
    fn refusal(&self, call: &Call, buffer: &[u8], run: Run, instant: u32) -> Option<u8> {
        let last = u64::from(instant) + u64::from(call.ask.most(instant));
        if buffer.len() < self.length {
            Some(14)
        } else if last > u64::from(MOST_INSTANT) {
            Some(16)
        } else if call.ask == Ask::Start && run.idle_by(instant).is_none() {
            Some(23)
        } else {
            None
        }
    }

    /// Full runs, which are on full states: of the program and of the netlist.
    fn check_full_runs(&self, run: Run) -> Result<(), String> {
        if self.mode.format != Format::Full {
            return Ok(());
        }
        let state = lent(self.length);
        let run_netlist = self.peer.run_netlist_of(self.mode.circuit);
        let of_netlist = run_netlist(self.file, self.words, self.job.budget, &state);
        let of_program = self.run_of_program();
        for (name, reply) in [("run of a netlist", of_netlist), ("full run", of_program)] {
            if self.job.budget > MOST_INSTANT {
                expect(name, reply.result, Err(Refusal::new(13, 0)))?;
                continue;
            }
            let stop = run.full_stop(self.job.budget);
            match (self.mode.circuit, name) {
                // The state is that of the peer's own wiring.
                (Circuit::Functional, "full run") => {
                    self.check_told(name, run, reply.result, stop, stop.0 + 1)?;
                }
                _ => self.check_answer(name, run, &reply, stop, stop.0 + 1)?,
            }
        }
        Ok(())
    }

    fn run_of_program(&self) -> Reply<Answer> {
        let (job, program) = (self.job, &self.job.program);
        match self.mode.circuit {
            Circuit::Imperative => {
                let (file, state) = (lent(MOST_FILE), lent(MOST_STATE));
                let run = self.peer.run_program;
                run(job.given(), program, self.words, job.budget, &file, &state)
            }
            Circuit::Functional => {
                let (file, state) = (lent(MOST_FUNCTIONAL_FILE), lent(MOST_FUNCTIONAL_STATE));
                let run = self.peer.functional.run_program;
                let table = job.lent_table();
                run(table, program, self.words, job.budget, &file, &state)
            }
        }
    }

    /// Compares an answer with what is due, and its state, which is lent last.
    fn check_answer(
        &self,
        name: &str,
        run: Run,
        reply: &Reply<Answer>,
        stop: (u32, bool),
        count: u32,
    ) -> Result<(), String> {
        self.check_told(name, run, reply.result, stop, count)?;
        let state = &reply.lent[reply.lent.len() - 1][..self.length];
        self.check_state(name, run, stop.0, state)
    }

    /// From the end on the words are the program's last ones.
    fn check_told(
        &self,
        name: &str,
        run: Run,
        result: Result<Answer, Refusal>,
        (instant, ended): (u32, bool),
        count: u32,
    ) -> Result<(), String> {
        let found = result.map(|answer| (answer.ended, answer.instant, answer.count));
        expect(name, found, Ok((ended, instant, count)))?;
        match (run.ended_by(instant), result) {
            (Some(end), Ok(answer)) => expect(
                &format!("words after {name}"),
                answer.words,
                end.contents.words,
            ),
            _ => Ok(()),
        }
    }

    /// The state tells whether something is in flight, from the end on the last words
    /// of the arrays, and of a functional circuit always the start words.
    fn check_state(&self, name: &str, run: Run, instant: u32, state: &[u8]) -> Result<(), String> {
        let still = flight::told(state) == 0;
        let expected = run.is_still(instant).unwrap_or(still);
        expect(&format!("idle after {name}"), still, expected)?;
        let elements = &state[self.length - ARRAYS..];
        if let Some(end) = run.ended_by(instant) {
            let last = end.contents.arrays.bytes();
            expect(&format!("elements after {name}"), elements, &last)?;
        }
        if self.mode.circuit == Circuit::Functional {
            let memories = self.netlist.memories().into_iter();
            let word = |memory| wire_of(self.mode.format, state, memory as u16).to_le_bytes();
            let kept: Vec<u8> = memories.flat_map(word).collect();
            let whole = [&kept, elements].concat();
            expect(&format!("memories after {name}"), &whole[..], self.words)?;
        }
        Ok(())
    }
}

/// How far these calls can come from an instant on.
fn reach(calls: &[Call], instant: u32) -> u32 {
    let most = calls.iter().map(|call| call.ask.most(instant));
    let possible = most.filter(|n| *n <= MOST_INSTANT);
    let asked: u64 = possible.map(u64::from).sum();
    asked.min(u64::from(MOST_INSTANT - instant)) as u32
}

/// An error that names the call unless the two are equal.
pub fn expect<T: PartialEq + Debug>(name: &str, found: T, expected: T) -> Result<(), String> {
    if found == expected {
        return Ok(());
    }
    Err(format!("{name}: found {found:?}, expected {expected:?}"))
}
