//! A full run in which the operators of the walk take their time, by whole histories.
//!
//! A wire is the list of its changes, from instant 0 on, and never forgotten; so is each
//! word of an array. At each instant every cell is worked out from the histories of what
//! it names, in cell order, by its equation as the paper says it: nothing is woken, no
//! line is kept.

use crate::cells::*;
use crate::compile;
use crate::contents::{Contents, ARRAYS};
use crate::operator::Operator;
use crate::program::Program;
use crate::table::Times;
use values::{Answer, Cell};

type Instant = u32;

/// A word at every instant: the instants at which it changed, each with the new word.
/// Before instant 0 it is 0.
#[derive(Clone, Default)]
struct History(Vec<(Instant, u16)>);

impl History {
    fn record(&mut self, instant: Instant, word: u16) {
        if self.0.last().is_none_or(|&(_, last)| last != word) {
            self.0.push((instant, word));
        }
    }

    fn at(&self, instant: Instant) -> u16 {
        let past = self.0.partition_point(|&(since, _)| since <= instant);
        past.checked_sub(1).map_or(0, |last| self.0[last].1)
    }

    /// The word so long before an instant, and 0 before instant 0.
    fn before(&self, instant: Instant, time: u32) -> u16 {
        instant
            .checked_sub(time)
            .map_or(0, |earlier| self.at(earlier))
    }
}

/// A slow run under way.
pub struct SlowRun<'a> {
    cells: Vec<Cell>,
    finish: usize,
    /// Where the walk ends: operators from here on take no time.
    walk_end: usize,
    times: &'a Times,
    start: Contents,
    wires: Vec<History>,
    elements: Vec<History>,
    /// Of each merge whether it has held a, and b.
    held: Vec<(bool, bool)>,
}

const ELEMENTS: usize = 64;

/// A full run of a checked program of pulse length 1: its answer, and every cell's value
/// at its last instant.
pub fn run(program: &Program, times: &Times, start: Contents, budget: u32) -> (Answer, Vec<u16>) {
    let mut run = SlowRun::new(program, times, start);
    let mut instant = 0;
    run.evaluate(instant);
    while !run.finished(instant) && instant < budget {
        instant += 1;
        run.evaluate(instant);
    }
    let words = run.words(instant);
    let answer = Answer {
        ended: run.finished(instant),
        instant,
        count: instant + 1,
        words,
    };
    (answer, run.values(instant))
}

impl<'a> SlowRun<'a> {
    fn new(program: &Program, times: &'a Times, start: Contents) -> SlowRun<'a> {
        let (netlist, walk_end) = compile::compile_to_the_ors(program);
        let count = netlist.cells.len();
        SlowRun {
            cells: netlist.cells,
            finish: netlist.finish.into(),
            walk_end,
            times,
            start,
            wires: vec![History::default(); count],
            elements: vec![History::default(); ARRAYS * ELEMENTS],
            held: vec![(false, false); count],
        }
    }

    fn finished(&self, instant: Instant) -> bool {
        self.high(self.finish as u16, instant)
    }

    fn values(&self, instant: Instant) -> Vec<u16> {
        self.wires.iter().map(|wire| wire.at(instant)).collect()
    }

    fn words(&self, instant: Instant) -> [u16; MEMORIES] {
        let memories: Vec<usize> = self.memories().collect();
        std::array::from_fn(|variable| self.wires[memories[variable]].at(instant))
    }

    fn memories(&self) -> impl Iterator<Item = usize> + '_ {
        (0..self.cells.len()).filter(|&cell| self.cells[cell].kind == MEMORY)
    }

    fn word(&self, wire: u16, instant: Instant) -> u16 {
        self.wires[usize::from(wire)].at(instant)
    }

    fn high(&self, wire: u16, instant: Instant) -> bool {
        self.word(wire, instant) == 1
    }

    /// Whether a clock was high an instant ago and is so no more.
    fn falls(&self, clock: u16, instant: Instant) -> bool {
        instant > 0 && self.high(clock, instant - 1) && !self.high(clock, instant)
    }

    fn evaluate(&mut self, instant: Instant) {
        for number in 0..self.cells.len() {
            if self.cells[number].kind == ARRAY {
                self.write(number, instant);
            }
            let value = self.value(number, instant);
            self.wires[number].record(instant, value);
        }
    }

    /// "A write uses address and data of the instant before the clock falls."
    fn write(&mut self, number: usize, instant: Instant) {
        let array = self.cells[number];
        let first = ELEMENTS * usize::from(array.delay);
        if instant == 0 {
            for index in 0..ELEMENTS {
                let word = self.start.arrays.element(array.delay.into(), index as u16);
                self.elements[first + index].record(0, word);
            }
        }
        if self.falls(array.a, instant) {
            let address = self.word(self.cells[number + 1].a, instant - 1);
            let data = self.word(array.b, instant - 1);
            self.elements[first + usize::from(address) % ELEMENTS].record(instant, data);
        }
    }

    fn value(&mut self, number: usize, instant: Instant) -> u16 {
        let Cell { kind, delay, a, b } = self.cells[number];
        let (wire_a, wire_b) = (
            |run: &Self| run.word(a, instant),
            |run: &Self| run.word(b, instant),
        );
        match kind {
            CONSTANT => a,
            START => u16::from(instant == 0),
            GROUND | ARRAY | ADDRESS => 0,
            DELAY => self.wires[usize::from(a)].before(instant, delay.into()),
            OR => wire_a(self) | wire_b(self),
            WHEN => u16::from(self.high(a, instant) && wire_b(self) != 0),
            UNLESS => u16::from(self.high(a, instant) && wire_b(self) == 0),
            MERGE | RETURN => u16::from(self.merge(number, instant)),
            MEMORY => self.memory(number, instant),
            GATE => wire_a(self) * wire_b(self),
            READ => self.read(number, instant),
            _ => {
                let operator = Operator::of_kind(kind).expect("a kind that a program compiles to");
                let time = self.time(number, self.times.of(operator));
                let [a, b] = [a, b].map(|wire| self.wires[usize::from(wire)].before(instant, time));
                operator.apply(a, b)
            }
        }
    }

    /// An operator's time; behind the walk it has none.
    fn time(&self, number: usize, time: u32) -> u32 {
        if number < self.walk_end {
            time
        } else {
            0
        }
    }

    /// The words of its array are inputs, too.
    fn read(&self, number: usize, instant: Instant) -> u16 {
        let Cell { a, b, .. } = self.cells[number];
        let time = self.time(number, self.times.of_element());
        let Some(earlier) = instant.checked_sub(time) else {
            return 0;
        };
        let array = usize::from(self.cells[usize::from(a)].delay);
        let index = usize::from(self.word(b, earlier)) % ELEMENTS;
        self.elements[ELEMENTS * array + index].at(earlier)
    }

    fn memory(&self, number: usize, instant: Instant) -> u16 {
        let Cell { a, b, .. } = self.cells[number];
        let Some(before) = instant.checked_sub(1) else {
            let variable = self
                .memories()
                .take_while(|&memory| memory < number)
                .count();
            return self.start.words[variable];
        };
        if self.falls(a, instant) {
            return self.word(b, before);
        }
        self.wires[number].at(before)
    }

    /// A parallel's merge holds both, a call's its a alone.
    fn merge(&mut self, number: usize, instant: Instant) -> bool {
        let Cell { kind, a, b, .. } = self.cells[number];
        let (had_a, had_b) = self.held[number];
        let a = self.high(a, instant) || had_a;
        let b = self.high(b, instant) || (kind == MERGE && had_b);
        let out = a && b;
        self.held[number] = (a && !out, b && !out);
        out
    }
}
