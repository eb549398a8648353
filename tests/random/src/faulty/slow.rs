//! Slow runs that go wrong in the ways that S-12 wants rejected. A run keeps a row of all
//! values for each instant; its cells are those of the compiled file, in which the data and
//! address ors are the or cells at the end: no walk ends with one.

use peers::{Bytes, Peer, Reply, SECOND};
use second::cells::*;
use second::netfile;
use second::operator::Operator;
use second::table::{self, Times};
use values::{Answer, Cell, Given, Table};

/// Goes wrong about nothing.
pub const BY_ROWS: Peer = faulty(
    "by rows",
    |table, procedures, program, words, n, values, work| {
        by_rows(
            Fault::None,
            [program, words, values, work],
            (table, procedures),
            n,
        )
    },
);

/// Its results are late, and not its inputs: before its time an operator shows 0. No
/// answer tells it.
pub const LATE_RESULTS: Peer = faulty(
    "late results",
    |table, procedures, program, words, n, values, work| {
        by_rows(
            Fault::LateResults,
            [program, words, values, work],
            (table, procedures),
            n,
        )
    },
);

/// Its data and address ors take their time, too.
pub const LATE_ORS: Peer = faulty(
    "late ors",
    |table, procedures, program, words, n, values, work| {
        by_rows(
            Fault::LateOrs,
            [program, words, values, work],
            (table, procedures),
            n,
        )
    },
);

/// Its reads show the element of the instant.
pub const READS_AT_ONCE: Peer = faulty(
    "reads at once",
    |table, procedures, program, words, n, values, work| {
        by_rows(
            Fault::ReadsAtOnce,
            [program, words, values, work],
            (table, procedures),
            n,
        )
    },
);

/// Its operators take an instant more than their time, so that a delay is one short.
pub const ONE_MORE: Peer = faulty(
    "one more",
    |table, procedures, program, words, n, values, work| {
        by_rows(
            Fault::OneMore,
            [program, words, values, work],
            (table, procedures),
            n,
        )
    },
);

type SlowRun = fn(Table, usize, Bytes, Bytes, u32, Bytes, Bytes) -> Reply<Answer>;

const fn faulty(name: &'static str, slow_run: SlowRun) -> Peer {
    Peer {
        name,
        slow_run,
        ..SECOND
    }
}

#[derive(Clone, Copy, PartialEq)]
enum Fault {
    None,
    LateResults,
    LateOrs,
    ReadsAtOnce,
    OneMore,
}

/// A slow run with a fault; what is refused is refused as it must be.
fn by_rows(
    fault: Fault,
    [program, words, values, work]: [Bytes; 4],
    (table, procedures): (Table, usize),
    budget: u32,
) -> Reply<Answer> {
    let mut reply = (SECOND.slow_run)(table, procedures, program, words, budget, values, work);
    let given = Given {
        table,
        procedures,
        pulse: 1,
    };
    let compiled = (SECOND.compile)(given, program, &[0; 6_656]);
    let (Ok(_), Ok(shape)) = (reply.result, compiled.result) else {
        return reply;
    };
    let blocks = usize::from(shape.cells).div_ceil(84);
    let netlist = netfile::read(&compiled.lent[0][..512 * blocks]).expect("a compiled file");
    let times = table::times(table).expect("it was accepted");
    let mut rows = Rows::new(netlist, times, words, fault);
    rows.evaluate();
    while !rows.finished() && rows.instant() < budget {
        rows.evaluate();
    }
    reply.result = Ok(Answer {
        ended: rows.finished(),
        instant: rows.instant(),
        count: rows.instant() + 1,
        words: rows.words(),
    });
    let shown: Vec<u8> = rows
        .last()
        .iter()
        .flat_map(|word| word.to_le_bytes())
        .collect();
    reply.lent[0][..shown.len()].copy_from_slice(&shown);
    reply
}

struct Rows {
    netlist: Netlist,
    times: Times,
    fault: Fault,
    walk_end: usize,
    start: Vec<u16>,
    /// The values of the cells, and the words of the arrays, at each instant so far.
    values: Vec<Vec<u16>>,
    elements: Vec<Vec<u16>>,
    held: Vec<(bool, bool)>,
}

impl Rows {
    fn new(netlist: Netlist, times: Times, words: &[u8], fault: Fault) -> Rows {
        let cells = &netlist.cells;
        let last = cells
            .iter()
            .rposition(|cell| cell.kind != Operator::Or.kind());
        let words = words.chunks_exact(2).take(272);
        Rows {
            walk_end: last.expect("start") + 1,
            held: vec![(false, false); cells.len()],
            start: words
                .map(|word| u16::from_le_bytes([word[0], word[1]]))
                .collect(),
            values: vec![],
            elements: vec![],
            netlist,
            times,
            fault,
        }
    }

    fn last(&self) -> &[u16] {
        self.values.last().expect("instant 0")
    }

    fn instant(&self) -> u32 {
        self.values.len() as u32 - 1
    }

    fn finished(&self) -> bool {
        self.last()[usize::from(self.netlist.finish)] == 1
    }

    fn words(&self) -> [u16; 16] {
        let memories = self.netlist.memories();
        std::array::from_fn(|variable| self.last()[memories[variable]])
    }

    /// One instant more.
    fn evaluate(&mut self) {
        let before = self
            .elements
            .last()
            .map_or(&self.start[16..], |words| words);
        self.elements.push(before.to_vec());
        self.values.push(vec![]);
        let mut memory = 0;
        for number in 0..self.netlist.cells.len() {
            let value = self.value(number, memory);
            memory += usize::from(self.netlist.cells[number].kind == MEMORY);
            let row = self.values.last_mut().expect("this instant");
            row.push(value);
        }
    }

    /// The value of a wire so many instants ago; those of this instant are lower.
    fn ago(&self, wire: u16, time: u32) -> u16 {
        let row = self.instant().checked_sub(time);
        row.map_or(0, |row| self.values[row as usize][usize::from(wire)])
    }

    fn falls(&self, clock: u16) -> bool {
        self.ago(clock, 1) == 1 && self.ago(clock, 0) != 1
    }

    fn time(&self, number: usize, time: u32) -> u32 {
        match self.fault {
            _ if number >= self.walk_end && self.fault != Fault::LateOrs => 0,
            Fault::OneMore => time + 1,
            _ => time,
        }
    }

    fn value(&mut self, number: usize, memory: usize) -> u16 {
        let Cell { kind, delay, a, b } = self.netlist.cells[number];
        match kind {
            CONSTANT => a,
            START => u16::from(self.instant() == 0),
            GROUND | ADDRESS => 0,
            DELAY => self.ago(a, delay.into()),
            OR => self.ago(a, 0) | self.ago(b, 0),
            WHEN => u16::from(self.ago(a, 0) == 1 && self.ago(b, 0) != 0),
            UNLESS => u16::from(self.ago(a, 0) == 1 && self.ago(b, 0) == 0),
            MERGE | RETURN => self.merge(number),
            MEMORY if self.instant() == 0 => self.start[memory],
            MEMORY if self.falls(a) => self.ago(b, 1),
            MEMORY => self.ago(number as u16, 1),
            GATE => self.ago(a, 0) * self.ago(b, 0),
            ARRAY => self.array(number),
            READ => self.read(number),
            _ => self.operator(number),
        }
    }

    fn merge(&mut self, number: usize) -> u16 {
        let Cell { kind, a, b, .. } = self.netlist.cells[number];
        let (had_a, had_b) = self.held[number];
        let a = self.ago(a, 0) == 1 || had_a;
        let b = self.ago(b, 0) == 1 || (had_b && kind == MERGE);
        self.held[number] = (a && !b, b && !a);
        u16::from(a && b)
    }

    fn array(&mut self, number: usize) -> u16 {
        let Cell { delay, a, b, .. } = self.netlist.cells[number];
        if self.falls(a) {
            let address = self.ago(self.netlist.cells[number + 1].a, 1) % 64;
            let data = self.ago(b, 1);
            let elements = self.elements.last_mut().expect("this instant");
            elements[64 * usize::from(delay) + usize::from(address)] = data;
        }
        0
    }

    fn read(&self, number: usize) -> u16 {
        let Cell { a, b, .. } = self.netlist.cells[number];
        let time = match self.fault {
            Fault::ReadsAtOnce => 0,
            _ => self.time(number, self.times.of_element()),
        };
        let array = usize::from(self.netlist.cells[usize::from(a)].delay);
        let index = usize::from(self.ago(b, time) % 64);
        let row = self.instant().checked_sub(time);
        row.map_or(0, |row| self.elements[row as usize][64 * array + index])
    }

    fn operator(&self, number: usize) -> u16 {
        let Cell { kind, a, b, .. } = self.netlist.cells[number];
        let operator = Operator::of_kind(kind).expect("a kind that a program compiles to");
        let time = self.time(number, self.times.of(operator));
        if self.fault == Fault::LateResults && self.instant() < time {
            return 0;
        }
        operator.apply(self.ago(a, time), self.ago(b, time))
    }
}
