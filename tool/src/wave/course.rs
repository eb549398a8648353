//! The run that is recorded: begun, gone on with, and started again at some
//! instants.

use crate::product;
use crate::store::Store;
use crate::types::{Answer, Format, Refusal};

pub struct Course<'a> {
    file: &'a [u8],
    /// The instants of second starts, rising.
    starts: &'a [u32],
    pub state: Vec<u8>,
    pub answer: Answer,
}

impl<'a> Course<'a> {
    /// A run of a netlist file, at instant 0.
    pub fn begin(file: &'a [u8], start: &Store, starts: &'a [u32]) -> Result<Course<'a>, Refusal> {
        let (state, answer) = product::begin(Format::Full, file, start)?;
        Ok(Course {
            file,
            starts,
            state,
            answer,
        })
    }

    /// Goes on to an instant, over finishes on the way. At a start that is
    /// refused it stays in the instant before.
    pub fn reach(&mut self, instant: u32) -> Result<(), Refusal> {
        while self.answer.instant < instant {
            self.go(instant)?;
        }
        Ok(())
    }

    /// Goes on to the next start, to a finish, or to an instant that is ahead.
    pub fn go(&mut self, instant: u32) -> Result<(), Refusal> {
        let at = self.answer.instant;
        let ahead = self.starts.iter().find(|start| **start > at);
        let (file, state) = (self.file, &mut self.state);
        self.answer = match ahead {
            Some(start) if *start == at + 1 => product::start(Format::Full, file, state)?,
            Some(start) => product::go(Format::Full, file, state, instant.min(start - 1) - at)?,
            None => product::go(Format::Full, file, state, instant - at)?,
        };
        Ok(())
    }
}
