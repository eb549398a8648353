//! Compiling to a functional circuit, in which no memory is written.
//!
//! A statement goes from one point of the circuit to another: from the wire that its
//! start comes on, and the wires of the sixteen words that it starts from, which keep
//! their values while it runs, to its finish wire and the wires of its last words,
//! which are right when the finish is high and keep their values until it is started
//! again. So an assignment is its expression's wire in place of one word, and only a
//! loop, whose body is given the words that it gave itself, has to latch them.

use crate::cells::*;
use crate::contents::ARRAYS;
use crate::operator::Operator;
use crate::program::{variable_set, Expression, Form, Program, Statement};
use crate::wiring::{Sources, Wire, Wiring, GROUND_WIRE, START_WIRE};
use values::Cell;

/// The wires of the sixteen words.
type Words = [Wire; MEMORIES];

/// A wire on which a pulse comes, and the words that are handed on with it.
#[derive(Clone, Copy)]
struct Point {
    pulse: Wire,
    words: Words,
}

/// The netlist of a checked program without kinds that refusal 28 keeps out.
pub fn compile(program: &Program) -> Netlist {
    let mut wiring = Wiring::new();
    let memories = [(); MEMORIES].map(|()| wiring.cell(MEMORY, GROUND_WIRE, ZERO));
    let first_array = wiring.next();
    for array in 0..ARRAYS {
        wiring.push(Cell::new(ARRAY, array as u8, GROUND_WIRE, ZERO));
        wiring.cell(ADDRESS, ZERO, 0);
    }
    let mut walk = Walk {
        program,
        first_array,
        wiring,
    };
    let start = Point {
        pulse: START_WIRE,
        words: memories,
    };
    let finish = walk.statement(&program.main, start);
    for word in finish.words {
        walk.operation(Operator::Or, word, ZERO);
    }
    Netlist {
        pulse: program.pulse,
        cells: walk.wiring.cells,
        finish: finish.pulse,
    }
}

struct Walk<'a> {
    program: &'a Program,
    first_array: Wire,
    wiring: Wiring,
}

impl Walk<'_> {
    fn operation(&mut self, operator: Operator, a: Wire, b: Wire) -> Wire {
        self.wiring.cell(operator.kind(), a, b)
    }

    fn expression(&mut self, e: &Expression, words: Words) -> Wire {
        let first_array = self.first_array;
        let sources = Sources { words, first_array };
        self.wiring.expression(e, &sources)
    }

    fn statement(&mut self, statement: &Statement, start: Point) -> Point {
        let d = statement.delay;
        match &statement.form {
            Form::Ok => start,
            Form::Tick => self.delayed(d, start),
            Form::Assign(variable, e) => {
                let mut finish = self.delayed(d, start);
                finish.words[*variable] = self.expression(e, start.words);
                finish
            }
            Form::Sequence(p, q) => {
                let middle = self.statement(p, start);
                self.statement(q, middle)
            }
            Form::Parallel(p, q) => self.parallel(p, q, start),
            Form::If(e, p, q) => {
                let tested = self.delayed(d, start);
                self.choice(e, p, q, tested)
            }
            Form::While(e, p) => self.while_loop(e, p, d, start),
            Form::Repeat(e, p) => self.repeat_loop(e, p, d, start),
            Form::AssignElement(..) | Form::Loop(_) | Form::Exit | Form::Call(_) => {
                unreachable!("refusal 28")
            }
        }
    }

    /// The same words d instants later.
    fn delayed(&mut self, d: u8, from: Point) -> Point {
        let pulse = match d {
            0 => from.pulse,
            _ => self.wiring.delay(d, from.pulse),
        };
        Point { pulse, ..from }
    }

    /// Of two sides each changes other words.
    fn parallel(&mut self, p: &Statement, q: &Statement, start: Point) -> Point {
        let of_p = self.statement(p, start);
        let of_q = self.statement(q, start);
        let word = |variable: usize| match of_p.words[variable] {
            unchanged if unchanged == start.words[variable] => of_q.words[variable],
            changed => changed,
        };
        Point {
            pulse: self.wiring.cell(MERGE, of_p.pulse, of_q.pulse),
            words: std::array::from_fn(word),
        }
    }

    fn choice(&mut self, e: &Expression, p: &Statement, q: &Statement, tested: Point) -> Point {
        let condition = self.expression(e, tested.words);
        let [to_p, to_q] = self.switched(condition, tested);
        let of_p = self.statement(p, to_p);
        let of_q = self.statement(q, to_q);
        Point {
            pulse: self.wiring.cell(OR, of_p.pulse, of_q.pulse),
            words: self.chosen(condition, of_p.words, of_q.words),
        }
    }

    /// Where a pulse goes on when a condition holds, and where when it doesn't.
    fn switched(&mut self, condition: Wire, tested: Point) -> [Point; 2] {
        let Point { pulse, words } = tested;
        [WHEN, UNLESS].map(|kind| Point {
            pulse: self.wiring.cell(kind, pulse, condition),
            words,
        })
    }

    /// The words of one branch or the other, by the condition, which keeps its
    /// value; no pulse is there to choose by when the finish is over.
    fn chosen(&mut self, condition: Wire, p: Words, q: Words) -> Words {
        if p == q {
            return p;
        }
        let fails = self.operation(Operator::Equal, condition, ZERO);
        let mask = self.operation(Operator::Difference, ZERO, fails);
        std::array::from_fn(|variable| {
            let (p, q) = (p[variable], q[variable]);
            match p == q {
                true => p,
                false => self.changed(p, q, |walk, by| walk.operation(Operator::And, by, mask)),
            }
        })
    }

    /// The word of one wire, or that of the other where what is to be added to it
    /// goes through.
    fn changed(
        &mut self,
        from: Wire,
        to: Wire,
        through: impl FnOnce(&mut Self, Wire) -> Wire,
    ) -> Wire {
        let by = self.operation(Operator::Difference, to, from);
        let added = through(self, by);
        self.operation(Operator::Sum, from, added)
    }

    /// The words are latched at the start and at each finish of the body, and
    /// tested d after that.
    fn while_loop(&mut self, e: &Expression, p: &Statement, d: u8, start: Point) -> Point {
        let latched = self.latches(p, start.words);
        let tested = self.delayed(d, latched);
        let condition = self.expression(e, tested.words);
        let [to_p, finish] = self.switched(condition, tested);
        let round = self.statement(p, to_p);
        self.feed_latches(latched, start, round);
        finish
    }

    /// The words are latched at the start and at each test that fails; the body
    /// runs from them.
    fn repeat_loop(&mut self, e: &Expression, p: &Statement, d: u8, start: Point) -> Point {
        let latched = self.latches(p, start.words);
        let of_p = self.statement(p, latched);
        let tested = self.delayed(d, of_p);
        let condition = self.expression(e, tested.words);
        let [finish, round] = self.switched(condition, tested);
        self.feed_latches(latched, start, round);
        finish
    }

    /// A latch for each word that a loop's body writes, and the pulse an instant
    /// after they take their words; their inputs come later.
    fn latches(&mut self, body: &Statement, words: Words) -> Point {
        let written = self.program.writes(body);
        let latched = |variable| match written & variable_set(variable) {
            0 => words[variable],
            _ => self.wiring.cell(LATCH, 0, 0),
        };
        let words = std::array::from_fn(latched);
        let pulse = self.wiring.delay(1, 0);
        Point { pulse, words }
    }

    /// A latch takes the word that the loop starts from, and at the pulse of a next
    /// round the word of that one.
    fn feed_latches(&mut self, latched: Point, start: Point, round: Point) {
        let clock = self.wiring.cell(OR, start.pulse, round.pulse);
        self.wiring.feed(latched.pulse, clock);
        for (variable, &latch) in latched.words.iter().enumerate() {
            let (first, next) = (start.words[variable], round.words[variable]);
            if latch != first {
                let data = self.changed(first, next, |walk, by| {
                    walk.wiring.cell(GATE, round.pulse, by)
                });
                self.wiring.cells[usize::from(latch)] = Cell::new(LATCH, 0, clock, data);
            }
        }
    }
}
