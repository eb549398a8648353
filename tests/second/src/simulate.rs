//! The second simulator: event-driven, with transport delays.
//!
//! It doesn't evaluate every cell at every instant. A cell is woken when
//! something that its equation names has changed: an input at the same
//! instant, the input of a delay d instants ago, that of a latch an instant ago,
//! the held bits or the output of a merge, a word of the array that it reads. A cell that isn't woken has the
//! value that it had. Within an instant cells are taken in rising order, and
//! inputs of the same instant are lower, so each is evaluated once.

use crate::cells::*;
use crate::contents::{Arrays, Contents};
use crate::fanout::Fanout;
use crate::line::{Instant, Line};
use crate::operator::Operator;
use crate::wheel::Wheel;
use values::{Cell, Circuit, Format, Words};

/// What a cell shows of itself between instants.
#[derive(Clone, Debug)]
pub struct CellState {
    pub now: u16,
    pub ago: u16,
    pub held: Merge,
    pub line: Line,
    /// Of start: for how many more instants it is high.
    pub remaining: u8,
}

/// A pulse that enters a line in which another is on its way.
#[derive(Clone, Copy, Debug, PartialEq, Eq)]
pub struct Crowded {
    /// The lowest delay that it happens to.
    pub cell: usize,
    /// The instants before that one.
    pub good: u32,
}

/// The two bits that a merge holds.
#[derive(Clone, Copy, Debug, Default, PartialEq, Eq)]
pub struct Merge {
    pub a: bool,
    pub b: bool,
}

impl Merge {
    /// The bits held afterwards, and the output.
    fn step(self, _was: bool, a: bool, b: bool) -> (Merge, bool) {
        let (a, b) = (a || self.a, b || self.b);
        if a && b {
            (Merge::default(), true)
        } else {
            (Merge { a, b }, false)
        }
    }

    /// The same of a call's merge: only a is waited with, a lone b is forgotten.
    fn step_of_call(self, _was: bool, a: bool, b: bool) -> (Merge, bool) {
        let called = a || self.a;
        let held = Merge {
            a: called && !b,
            b: false,
        };
        (held, called && b)
    }

    /// The bits held and the output for pulses longer than an instant.
    fn long_step(self, was: bool, a: bool, b: bool) -> (Merge, bool) {
        let held = Merge {
            a: a || self.a,
            b: b || self.b,
        };
        held.until_it_falls(was, held.a && held.b && (a || b))
    }

    /// The same of a call's merge.
    fn long_step_of_call(self, was: bool, a: bool, b: bool) -> (Merge, bool) {
        let a = a || self.a;
        Merge { a, b: false }.until_it_falls(was, a && b)
    }

    /// The bits with this output, which was so an instant ago; none as it falls.
    fn until_it_falls(self, was: bool, output: bool) -> (Merge, bool) {
        match was && !output {
            true => (Merge::default(), output),
            false => (self, output),
        }
    }

    /// How many bits are held.
    pub fn count(self) -> u32 {
        u32::from(self.a) + u32::from(self.b)
    }
}

/// How a merge of one of the two kinds goes on from the bits that it holds,
/// given its output an instant ago and its inputs.
type Step = fn(Merge, bool, bool, bool) -> (Merge, bool);

/// A wire's present value, and the one before its last change.
#[derive(Clone, Copy, Default)]
struct Wire {
    now: u16,
    before: u16,
    changed: Instant,
}

/// The line of a cell, of which only a delay's is ever used.
fn empty_line(cell: &Cell) -> Line {
    Line::new(if cell.kind == DELAY { cell.delay } else { 0 })
}

pub struct Simulator<'a> {
    netlist: &'a Netlist,
    instant: Instant,
    wires: Vec<Wire>,
    held: Vec<Merge>,
    lines: Vec<Line>,
    arrays: Arrays,
    wheel: Wheel,
    fanout: Fanout,
    /// The last instant at which start is high, if that is still to come.
    high_until: Instant,
    /// At the first instant evaluated nothing is known to be unchanged.
    first: bool,
}

impl<'a> Simulator<'a> {
    /// A beginning: evaluates instant 0 from these words.
    pub fn begin(netlist: &'a Netlist, contents: Contents) -> Simulator<'a> {
        let mut simulator = Simulator::still(netlist, -1, contents.arrays);
        for (memory, word) in netlist.memories().into_iter().zip(contents.words) {
            simulator.set(memory, word, 0);
        }
        simulator.start();
        simulator
    }

    /// Takes up a run in the state that these cells and arrays tell of.
    pub fn resume(
        netlist: &'a Netlist,
        instant: Instant,
        cells: impl Iterator<Item = CellState>,
        arrays: Arrays,
    ) -> Simulator<'a> {
        let mut simulator = Simulator::still(netlist, instant, arrays);
        for (number, cell) in cells.enumerate() {
            simulator.wires[number] = Wire {
                now: cell.now,
                before: cell.ago,
                changed: instant,
            };
            simulator.held[number] = cell.held;
            simulator.lay_line(number, cell.line);
            simulator.high_until += Instant::from(cell.remaining);
        }
        simulator
    }

    /// All wires low and nothing held, every cell woken for the next instant.
    fn still(netlist: &'a Netlist, instant: Instant, arrays: Arrays) -> Simulator<'a> {
        let count = netlist.cells.len();
        let mut wheel = Wheel::new(count);
        for cell in 0..count {
            wheel.wake(cell, instant + 1);
        }
        Simulator {
            netlist,
            instant,
            wires: vec![Wire::default(); count],
            held: vec![Merge::default(); count],
            lines: netlist.cells.iter().map(empty_line).collect(),
            arrays,
            wheel,
            fanout: Fanout::of(netlist),
            high_until: instant,
            first: true,
        }
    }

    /// Gives a cell its line; what is still on its way there wakes it.
    fn lay_line(&mut self, cell: usize, line: Line) {
        for due in line.output_changes() {
            if due > self.instant {
                self.wheel.wake(cell, due);
            }
        }
        self.lines[cell] = line;
    }

    /// Evaluates instants until the finish is high or `n` are done; how many.
    /// Where a line has room for one pulse and a second one enters, that instant
    /// is evaluated too, and the simulator of no more use.
    pub fn advance(&mut self, format: Format, n: u32) -> Result<u32, Crowded> {
        for good in 0..n {
            self.step();
            if let Some(cell) = self.crowded(format) {
                return Err(Crowded { cell, good });
            }
            if self.finished() {
                return Ok(good + 1);
            }
        }
        Ok(n)
    }

    /// The lowest line with a second pulse; a full state has room for all.
    fn crowded(&self, format: Format) -> Option<usize> {
        let is_crowded = |line: &Line| line.is_crowded(self.instant);
        match format {
            Format::Full => None,
            Format::Compact => self.lines.iter().position(is_crowded),
        }
    }

    /// Evaluates the next instant, from which on start is high.
    pub fn start(&mut self) {
        self.high_until = self.instant + Instant::from(self.netlist.pulse);
        self.wheel.wake(0, self.instant + 1);
        self.step();
    }

    /// The pulses on their way in delays, the bits that merges hold, and the
    /// instants for which start will be high.
    pub fn in_flight(&self) -> u32 {
        let lines = self.lines.iter().map(|line| line.in_flight(self.instant));
        let held = self.held.iter().map(|held| held.count());
        lines.chain(held).sum::<u32>() + u32::from(self.remaining())
    }

    /// For how many more instants start is high.
    fn remaining(&self) -> u8 {
        (self.high_until - self.instant).max(0) as u8
    }

    /// Whether the finish wire is high at the present instant.
    pub fn finished(&self) -> bool {
        self.now(self.netlist.finish) == 1
    }

    /// The present instant.
    pub fn instant(&self) -> u32 {
        self.instant as u32
    }

    /// The words that a run's answer shows: those of the memories, or of the last
    /// sixteen cells.
    pub fn words(&self, circuit: Circuit) -> Words {
        let shown = match circuit {
            Circuit::Imperative => self.netlist.memories(),
            Circuit::Functional => self.netlist.lasts(),
        };
        std::array::from_fn(|variable| self.wires[shown[variable]].now)
    }

    /// The words of the arrays.
    pub fn arrays(&self) -> &Arrays {
        &self.arrays
    }

    /// What cell `number` shows of itself.
    pub fn cell_state(&self, number: usize) -> CellState {
        CellState {
            now: self.wires[number].now,
            ago: self.ago(number as u16),
            held: self.held[number],
            line: self.lines[number].clone(),
            remaining: match self.netlist.cells[number].kind {
                START => self.remaining(),
                _ => 0,
            },
        }
    }

    /// Evaluates the next instant.
    fn step(&mut self) {
        self.instant += 1;
        while let Some(cell) = self.wheel.take(self.instant) {
            let value = self.evaluate(cell);
            let changed = value != self.wires[cell].now;
            if changed {
                self.set(cell, value, self.instant);
            }
            if changed || self.first {
                self.announce(cell);
            }
        }
        self.first = false;
    }

    fn set(&mut self, cell: usize, value: u16, at: Instant) {
        self.wires[cell] = Wire {
            now: value,
            before: self.wires[cell].now,
            changed: at,
        };
    }

    /// Wakes whatever depends on this cell's wire.
    fn announce(&mut self, cell: usize) {
        self.wake_readers(cell);
        let level = self.wires[cell].now == 1;
        for &delay in &self.fanout.delays[cell] {
            if let Some(due) = self.lines[delay].record(self.instant, level) {
                self.wheel.wake(delay, due);
            }
        }
        for &latch in &self.fanout.latches[cell] {
            self.wheel.wake(latch, self.instant + 1);
        }
    }

    fn wake_readers(&mut self, cell: usize) {
        for &reader in &self.fanout.readers[cell] {
            self.wheel.wake(reader, self.instant);
        }
    }

    /// The value of a cell at the present instant, by its kind's equation.
    fn evaluate(&mut self, cell: usize) -> u16 {
        let Cell { kind, a, b, .. } = self.netlist.cells[cell];
        match kind {
            START => self.pulse(cell),
            GROUND => 0,
            CONSTANT => a,
            DELAY => u16::from(self.lines[cell].output(self.instant)),
            OR => self.now(a) | self.now(b),
            WHEN => u16::from(self.now(a) == 1 && self.now(b) != 0),
            UNLESS => u16::from(self.now(a) == 1 && self.now(b) == 0),
            MERGE if self.long() => self.merge(cell, Merge::long_step, a, b),
            MERGE => self.merge(cell, Merge::step, a, b),
            RETURN if self.long() => self.merge(cell, Merge::long_step_of_call, a, b),
            RETURN => self.merge(cell, Merge::step_of_call, a, b),
            MEMORY if self.falls(a) => self.ago(b),
            LATCH if self.ago(a) == 1 => self.ago(b),
            MEMORY | LATCH => self.wires[cell].now,
            GATE if self.now(a) == 1 => self.now(b),
            GATE => 0,
            ARRAY => self.write(cell, a, b),
            ADDRESS => 0,
            READ => self.arrays.element(self.array_of(a), self.now(b)),
            _ => {
                let operator = Operator::of_kind(kind).expect("refusal 12 keeps other kinds out");
                operator.apply(self.now(a), self.now(b))
            }
        }
    }

    /// Whether a pulse is longer than an instant.
    fn long(&self) -> bool {
        self.netlist.pulse > 1
    }

    /// Start: its fall has no cause but the instant itself.
    fn pulse(&mut self, cell: usize) -> u16 {
        let high = self.instant <= self.high_until;
        if high {
            self.wheel.wake(cell, self.instant + 1);
        }
        u16::from(high)
    }

    /// Merge: held bits or an output that changed are looked at again an instant
    /// later.
    fn merge(&mut self, cell: usize, step: Step, a: u16, b: u16) -> u16 {
        let was = self.wires[cell].now == 1;
        let (held, output) = step(self.held[cell], was, self.now(a) == 1, self.now(b) == 1);
        if held != self.held[cell] || output != was {
            self.held[cell] = held;
            self.wheel.wake(cell, self.instant + 1);
        }
        u16::from(output)
    }

    /// Array: at a fall of the clock, the data of the instant before goes where
    /// the address of that instant says; a new word wakes the reads.
    fn write(&mut self, cell: usize, clock: u16, data: u16) -> u16 {
        if self.falls(clock) {
            let address = self.netlist.cells[cell + 1].a;
            let (index, word) = (self.ago(address), self.ago(data));
            let array = self.array_of(cell as u16);
            if self.arrays.put(array, index, word) {
                self.wake_readers(cell);
            }
        }
        0
    }

    /// The number of the array that a cell is.
    fn array_of(&self, cell: u16) -> usize {
        usize::from(self.netlist.cells[usize::from(cell)].delay)
    }

    fn falls(&self, clock: u16) -> bool {
        self.now(clock) == 0 && self.ago(clock) == 1
    }

    fn now(&self, wire: u16) -> u16 {
        self.wires[usize::from(wire)].now
    }

    /// The value an instant ago.
    fn ago(&self, wire: u16) -> u16 {
        let wire = &self.wires[usize::from(wire)];
        if wire.changed == self.instant {
            wire.before
        } else {
            wire.now
        }
    }
}
