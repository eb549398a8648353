//! A program's run with gates that take their time, beside the ideal one.

use crate::input::Circuit;
use crate::kinds::{is_control, MEMORY};
use crate::layout::value_in;
use crate::product;
use crate::store::Store;
use crate::types::{Answer, Beside, Fault, Refusal};
use crate::wave::course::Course;

/// Both runs from the same start words.
pub struct Both<'a> {
    beside: Beside<'a>,
    program: &'a [u8],
    circuit: &'a Circuit,
    start: &'a Store,
    ideal: Course<'a>,
}

/// An instant of both: the ideal run's state, and every cell's word in the slow one.
#[derive(Clone, Debug)]
pub struct Moment {
    pub answer: Answer,
    pub state: Vec<u8>,
    pub slow: Vec<u16>,
}

impl<'a> Both<'a> {
    /// Both runs of a program at instant 0, with its circuit for pulses of one instant.
    pub fn begin(
        beside: Beside<'a>,
        program: &'a [u8],
        circuit: &'a Circuit,
        start: &'a Store,
    ) -> Result<Both<'a>, Refusal> {
        Ok(Both {
            beside,
            program,
            circuit,
            start,
            ideal: Course::begin(&circuit.file, start, &[])?,
        })
    }

    /// Both at an instant that a run may have, or where they have ended before it.
    pub fn at(&mut self, instant: u32) -> Result<Moment, Fault> {
        let refused = |met: Refusal| Fault::internal(format!("a run of both: {met}"));
        let answer = self.ideal.answer;
        if !answer.ended && answer.instant < instant {
            self.ideal.go(instant).map_err(refused)?;
        }
        let cells = self.circuit.netlist.cells.len();
        let (beside, program, start) = (self.beside, self.program, self.start);
        let ran = product::slow_run(beside, program, start, instant, cells);
        let (answer, slow) = ran.map_err(refused)?;
        let moment = Moment {
            answer,
            state: self.ideal.state.clone(),
            slow,
        };
        self.agree(&moment)?;
        Ok(moment)
    }

    /// The product proves that both answer alike, and that control wires and memories are
    /// the same: where they aren't, the tool has asked wrongly.
    fn agree(&self, moment: &Moment) -> Result<(), Fault> {
        let kind = |cell: usize| self.circuit.netlist.cells[cell].kind;
        let alike = |cell: &usize| is_control(kind(*cell)) || kind(*cell) == MEMORY;
        let differs = moment.differing().into_iter().find(alike);
        // A full run has evaluated every instant, and the last stretch of the ideal one fewer.
        let full = Answer {
            count: self.ideal.answer.instant + 1,
            ..self.ideal.answer
        };
        match moment.answer == full && differs.is_none() {
            true => Ok(()),
            false => Err(Fault::internal(
                "the ideal run and the one with gates that take their time disagree",
            )),
        }
    }
}

impl Moment {
    /// A cell's word in the ideal run.
    pub fn ideal(&self, cell: usize) -> u16 {
        value_in(&self.state, cell as u16)
    }

    /// The cells that show another word in the slow run.
    pub fn differing(&self) -> Vec<usize> {
        let cells = 0..self.slow.len();
        cells
            .filter(|cell| self.ideal(*cell) != self.slow[*cell])
            .collect()
    }
}
