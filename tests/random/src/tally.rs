//! What a run has seen.

use crate::job::Job;
use crate::list::{Outcome, Seen, Starts};
use crate::texts::{has_arrays, has_calls, has_loops};
use std::fmt::{Display, Formatter, Result};

#[derive(Default)]
pub struct Tally {
    pub ended: u64,
    pub open: u64,
    pub refused: u64,
    pub nodes: usize,
    /// Programs under a table of their own.
    pub tables: u64,
    pub arrays: u64,
    pub loops: u64,
    pub calls: u64,
    /// Programs with pulses of each length from 1 to 8 that are accepted, and those
    /// with a length that no pulse has.
    pub pulses: [u64; 8],
    pub no_pulses: u64,
    /// Starts with pulses of one instant, and with longer ones.
    pub starts: [Starts; 2],
    /// Programs by what became of their functional circuits: ended, open, refused; and
    /// the starts of these.
    pub functional: [u64; 3],
    pub functional_starts: Starts,
    /// Calls on compact states of programs, compared with full ones.
    pub compact: u64,
    /// Lists of parts that were joined, that met 29, 30 and 31, and others.
    pub parts: [u64; 5],
    pub netlists: u64,
    /// Runs of netlists that refusal 26 ended.
    pub crowded: u64,
}

impl Tally {
    /// Counts a list of parts, by the number of its refusal.
    pub fn add_parts(&mut self, met: Option<u8>) {
        let place = match met {
            None => 0,
            Some(number @ 29..=31) => usize::from(number) - 28,
            Some(_) => 4,
        };
        self.parts[place] += 1;
    }

    /// Counts a program.
    pub fn add(&mut self, job: &Job, seen: Seen, functional: Seen, compact: u64) {
        self.functional[functional.outcome as usize] += 1;
        self.functional_starts.add(functional.starts);
        self.compact += compact;
        self.nodes += job.program.len() / 4;
        self.tables += u64::from(job.table.is_some());
        self.arrays += u64::from(has_arrays(&job.program));
        self.loops += u64::from(has_loops(&job.program));
        self.calls += u64::from(has_calls(&job.program));
        self.starts[usize::from(job.pulse > 1)].add(seen.starts);
        match (job.pulse, seen.outcome) {
            (1..=8, Outcome::Refused) => {}
            (pulse @ 1..=8, _) => self.pulses[usize::from(pulse) - 1] += 1,
            _ => self.no_pulses += 1,
        }
        match seen.outcome {
            Outcome::Ended => self.ended += 1,
            Outcome::Open => self.open += 1,
            Outcome::Refused => self.refused += 1,
        }
    }
}

impl Display for Tally {
    fn fmt(&self, text: &mut Formatter) -> Result {
        let Tally {
            ended,
            open,
            refused,
            nodes,
            tables,
            arrays,
            loops,
            calls,
            pulses,
            no_pulses,
            starts: [short, long],
            functional: [handed, running, turned_down],
            functional_starts,
            compact,
            parts: [joined, number, pulses_differ, others, own],
            netlists,
            crowded,
        } = self;
        let programs = ended + open + refused;
        write!(text, "{programs} programs, {nodes} nodes in all, agree: ")?;
        write!(text, "{ended} ended, {open} open, {refused} refused, ")?;
        write!(text, "{tables} under a table, {arrays} with arrays, ")?;
        write!(text, "{loops} with loops, {calls} with calls; ")?;
        write!(text, "accepted with pulses of 1 to 8: {pulses:?}, ")?;
        write!(text, "{no_pulses} with others; starts: {short}; ")?;
        write!(text, "with longer pulses: {long}; ")?;
        write!(text, "functional: {handed} ended, {running} open, ")?;
        write!(text, "{turned_down} refused, starts: {functional_starts}; ")?;
        write!(text, "{compact} calls on compact states as on full ones; ")?;
        write!(text, "{joined} lists of parts joined, {number} met 29, ")?;
        write!(text, "{pulses_differ} 30, {others} 31, {own} others; ")?;
        write!(text, "{netlists} netlists agree, {crowded} runs met 26")
    }
}

impl Display for Starts {
    fn fmt(&self, text: &mut Formatter) -> Result {
        let Starts {
            early,
            at_the_finish,
            at_once,
            late,
        } = self;
        write!(
            text,
            "{early} too early, {at_the_finish} at a high finish, "
        )?;
        write!(text, "{at_once} as soon as may be, {late} later")
    }
}
