//! The program's own rules, run on its trees; nothing here knows of a wire. Of
//! the circuit only its times are asked for.

use crate::contents::{Arrays, Contents};
use crate::program::{array_set, variable_set, Expression, Form, Program, Set, Statement};
use values::Circuit;

/// The end of a program run from these words, with the times of a circuit, if it
/// is no later than `budget`.
pub fn run(program: &Program, circuit: Circuit, contents: Contents, budget: u32) -> Option<Moment> {
    let begin = Moment {
        instant: 0,
        contents,
    };
    let rules = Rules {
        program,
        writing: match circuit {
            Circuit::Imperative => program.pulse.into(),
            Circuit::Functional => 0,
        },
        latching: match circuit {
            Circuit::Imperative => 0,
            Circuit::Functional => 1,
        },
        budget,
    };
    rules.end(&program.main, begin).ok()
}

/// All that the rules keep: an instant and the words.
#[derive(Clone, Copy, Debug, PartialEq, Eq)]
pub struct Moment {
    pub instant: u32,
    pub contents: Contents,
}

/// The end of a statement, or what keeps it from one.
type Course = Result<Moment, Stop>;

enum Stop {
    /// An exit is met, which the innermost loop around ends by.
    Left(Box<Moment>),
    /// The budget is exceeded.
    Open,
}

struct Rules<'a> {
    program: &'a Program,
    /// The instants that an assignment takes beside its delay.
    writing: u32,
    /// The instants that the words of a loop take to be latched: in while before
    /// each test's delay, in repeat before each run of P.
    latching: u32,
    budget: u32,
}

impl Rules<'_> {
    /// The moment at which a statement begun at `now` ends. An exit leaves all that
    /// is around it, up to its loop.
    fn end(&self, statement: &Statement, now: Moment) -> Course {
        let d = u32::from(statement.delay);
        match &statement.form {
            Form::Ok => Ok(now),
            Form::Tick => self.wait(now, d),
            Form::Assign(variable, e) => {
                let mut end = self.wait(now, d + self.writing)?;
                end.contents.words[*variable] = e.value(&now.contents);
                Ok(end)
            }
            Form::Sequence(p, q) => self.end(q, self.end(p, now)?),
            Form::Parallel(p, q) => self.end_of_parallel(p, q, now),
            Form::If(e, p, q) => {
                let branch = if holds(e, now) { p } else { q };
                self.end(branch, self.wait(now, d)?)
            }
            Form::While(e, p) => self.end_of_while(e, p, d, now),
            Form::Repeat(e, p) => self.end_of_repeat(e, p, d, now),
            Form::AssignElement(array, index, value) => {
                let [index, value] = [index, value].map(|e| e.value(&now.contents));
                let mut end = self.wait(now, d + self.writing)?;
                end.contents.arrays.put(*array, index, value);
                Ok(end)
            }
            Form::Loop(p) => self.end_of_loop(p, d, now),
            Form::Exit => Err(Stop::Left(Box::new(now))),
            Form::Call(procedure) => {
                let body = &self.program.bodies[*procedure];
                self.end(body, self.wait(now, d)?)
            }
        }
    }

    /// The same words `d` instants later, unless the budget is then exceeded.
    fn wait(&self, now: Moment, d: u32) -> Course {
        let instant = now.instant + d;
        let later = (instant <= self.budget).then_some(Moment { instant, ..now });
        later.ok_or(Stop::Open)
    }

    /// No side is left: refusal 22.
    fn end_of_parallel(&self, p: &Statement, q: &Statement, now: Moment) -> Course {
        let (p_end, q_end) = (self.end(p, now)?, self.end(q, now)?);
        let (p_writes, q_writes) = (self.program.writes(p), self.program.writes(q));
        let kept = |one: Set| match one {
            _ if p_writes & one != 0 => &p_end.contents,
            _ if q_writes & one != 0 => &q_end.contents,
            _ => &now.contents,
        };
        let word = |variable| kept(variable_set(variable)).words[variable];
        let array = |array| kept(array_set(array)).arrays.0[array];
        Ok(Moment {
            instant: p_end.instant.max(q_end.instant),
            contents: Contents {
                words: std::array::from_fn(word),
                arrays: Arrays(std::array::from_fn(array)),
            },
        })
    }

    fn end_of_while(&self, e: &Expression, p: &Statement, d: u32, mut now: Moment) -> Course {
        loop {
            let again = holds(e, now);
            now = self.wait(now, self.latching + d)?;
            if !again {
                return Ok(now);
            }
            now = self.end(p, now)?;
        }
    }

    fn end_of_repeat(&self, e: &Expression, p: &Statement, d: u32, mut now: Moment) -> Course {
        loop {
            now = self.end(p, self.wait(now, self.latching)?)?;
            let done = holds(e, now);
            now = self.wait(now, d)?;
            if done {
                return Ok(now);
            }
        }
    }

    /// Going round takes `d`, leaving nothing.
    fn end_of_loop(&self, p: &Statement, d: u32, mut now: Moment) -> Course {
        loop {
            now = match self.end(p, now) {
                Ok(end) => self.wait(end, d)?,
                Err(Stop::Left(end)) => return Ok(*end),
                Err(Stop::Open) => return Err(Stop::Open),
            };
        }
    }
}

/// Whether a condition holds on the words of this moment.
fn holds(e: &Expression, now: Moment) -> bool {
    e.value(&now.contents) != 0
}
