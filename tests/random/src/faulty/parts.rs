//! Joining that goes wrong in the ways that S-13 wants rejected. It moves the cells of the
//! parts' netlists, and makes the ors by the ors that the parts have.

use peers::{Peer, Reply, SECOND};
use second::cells::*;
use second::netfile;
use values::{Cell, Part, Refusal, Shape, Table};

/// Goes wrong about nothing.
pub const BY_MOVING: Peer = faulty("by moving", |table, parts, file| {
    joined(Fault::None, table, parts, file)
});

/// The ors of each part are joined, and these with each other.
pub const ORS_BY_PARTS: Peer = faulty("ors by parts", |table, parts, file| {
    joined(Fault::OrsByParts, table, parts, file)
});

/// Every part starts with the whole.
pub const START_STAYS: Peer = faulty("start stays", |table, parts, file| {
    joined(Fault::StartStays, table, parts, file)
});

/// A netlist is a program's if it is as long as the program's own is.
pub const AS_LONG: Peer = faulty("as long", |table, parts, file| {
    let compiled =
        |part: &Part| (SECOND.compile)(second::parts::given(table, part), part.program, file);
    let own: Vec<Vec<u8>> = parts
        .iter()
        .map(|part| compiled(part).lent[0].clone())
        .collect();
    let given = |(part, own): (&Part<'_>, &Vec<u8>)| own[..part.file.len().min(own.len())].to_vec();
    let files: Vec<Vec<u8>> = match refused(table, parts, file) {
        Some(Refusal { number: 31, .. }) => parts.iter().zip(&own).map(given).collect(),
        _ => parts.iter().map(|part| part.file.to_vec()).collect(),
    };
    let with = |(part, file)| Part { file, ..part };
    let parts: Vec<Part> = parts
        .iter()
        .copied()
        .zip(files.iter().map(Vec::as_slice))
        .map(with)
        .collect();
    (SECOND.join)(table, &parts, file)
});

/// 31 comes before 30.
pub const PULSES_LAST: Peer = faulty("pulses last", |table, parts, file| {
    let told = (SECOND.join)(table, parts, file);
    let differs = matches!(told.result, Err(Refusal { number: 30, .. }));
    let compiled =
        |part: &Part| (SECOND.compile)(second::parts::given(table, part), part.program, file);
    let other = |part: &Part| compiled(part).lent[0].get(..part.file.len()) != Some(part.file);
    match parts.iter().position(other) {
        Some(place) if differs => Reply {
            result: Err(Refusal::new(31, place)),
            ..told
        },
        _ => told,
    }
});

type Join = fn(Table, &[Part], &[u8]) -> Reply<Shape>;

const fn faulty(name: &'static str, join: Join) -> Peer {
    Peer {
        name,
        join,
        ..SECOND
    }
}

fn refused(table: Table, parts: &[Part], file: &[u8]) -> Option<Refusal> {
    (SECOND.join)(table, parts, file).result.err()
}

#[derive(Clone, Copy, PartialEq)]
enum Fault {
    None,
    OrsByParts,
    StartStays,
}

/// Variables, and arrays behind them.
const VARIABLES: usize = MEMORIES + 4;

/// A part's netlist, and where its regions are.
struct Own {
    cells: Vec<Cell>,
    finish: u16,
    delays: usize,
    memory: usize,
    end: usize,
}

/// Where a part stands in the whole.
#[derive(Clone, Copy)]
struct Stand {
    memory: usize,
    start: u16,
    delay: usize,
    walk: usize,
}

fn own(part: &Part) -> Own {
    let Netlist { cells, finish, .. } = netfile::read(part.file).expect("it was accepted");
    let run = |from: usize, kind: u8| {
        cells[from..]
            .iter()
            .take_while(|cell| cell.kind == kind)
            .count()
    };
    let delays = run(3, DELAY);
    let memory = 3 + delays + run(3 + delays, OR);
    let ors = cells.iter().rev().take_while(|cell| cell.kind == 7).count();
    Own {
        delays,
        memory,
        end: cells.len() - ors,
        cells,
        finish,
    }
}

impl Own {
    fn number(&self, at: Stand, wire: u16) -> u16 {
        let j = usize::from(wire);
        (match j {
            0 => return at.start,
            1 | 2 => j,
            _ if j < self.memory => at.delay + j - 3,
            _ if j < self.memory + 24 => at.memory + j - self.memory,
            _ => at.walk + j - (self.memory + 24),
        }) as u16
    }

    fn moved(&self, at: Stand, cell: &Cell) -> Cell {
        let Cell { kind, delay, a, b } = *cell;
        match kind {
            CONSTANT => *cell,
            3 | DELAY => Cell::new(kind, delay, self.number(at, a), b),
            _ => Cell::new(kind, delay, self.number(at, a), self.number(at, b)),
        }
    }

    /// The wires that ors of the part join to this one, which an or region has from
    /// this cell on; the value without any is none.
    fn sources(&self, at: Stand, wire: u16, none: u16, region: std::ops::Range<usize>) -> Vec<u16> {
        if wire == none {
            return vec![];
        }
        if !region.contains(&wire.into()) {
            return vec![self.number(at, wire)];
        }
        let Cell { a, b, .. } = self.cells[usize::from(wire)];
        let mut all = self.sources(at, a, none, region);
        all.push(self.number(at, b));
        all
    }

    /// Of each variable and array its clock, its data and its address, as sources.
    fn inputs(&self, at: Stand, y: usize) -> [Vec<u16>; 3] {
        let (clocks, words) = (3 + self.delays..self.memory, self.end..self.cells.len());
        let (cell, address) = match y {
            0..MEMORIES => (self.cells[self.memory + y], 2),
            _ => {
                let place = self.memory + MEMORIES + 2 * (y - MEMORIES);
                (self.cells[place], self.cells[place + 1].a)
            }
        };
        [
            self.sources(at, cell.a, 1, clocks),
            self.sources(at, cell.b, 2, words.clone()),
            self.sources(at, address, 2, words),
        ]
    }
}

/// Ors of wires from a number on, and the wire that they come to.
fn chain(kind: u8, next: usize, wires: &[u16], none: u16) -> (Vec<Cell>, u16) {
    let mut cells = vec![];
    let Some((first, others)) = wires.split_first() else {
        return (cells, none);
    };
    let mut wire = *first;
    for other in others {
        cells.push(Cell::new(kind, 0, wire, *other));
        wire = (next + cells.len() - 1) as u16;
    }
    (cells, wire)
}

/// The same of each part, and then of these.
fn ors(fault: Fault, kind: u8, next: usize, parts: &[Vec<u16>], none: u16) -> (Vec<Cell>, u16) {
    if fault != Fault::OrsByParts {
        return chain(kind, next, &parts.concat(), none);
    }
    let (mut cells, mut wires) = (vec![], vec![]);
    for part in parts.iter().filter(|part| !part.is_empty()) {
        let (own, wire) = chain(kind, next + cells.len(), part, none);
        cells.extend(own);
        wires.push(wire);
    }
    let (last, wire) = chain(kind, next + cells.len(), &wires, none);
    cells.extend(last);
    (cells, wire)
}

fn joined(fault: Fault, table: Table, parts: &[Part], file: &[u8]) -> Reply<Shape> {
    let told = (SECOND.join)(table, parts, file);
    if told.result.is_err() {
        return told;
    }
    let owns: Vec<Own> = parts.iter().map(own).collect();
    let netlist = whole(fault, &owns, parts[0].pulse);
    Reply::lending(file, |file| {
        let written = netfile::write(&netlist);
        file[..written.len()].copy_from_slice(&written);
        Ok(Shape {
            cells: netlist.cells.len() as u16,
            finish: netlist.finish,
        })
    })
}

/// The parts one after another, where the first memory is that.
fn stands(fault: Fault, owns: &[Own], memory: usize) -> (Vec<Stand>, u16) {
    let mut at = Stand {
        memory,
        start: 0,
        delay: 3,
        walk: memory + 24,
    };
    let mut stands = vec![];
    for own in owns {
        stands.push(at);
        at = Stand {
            memory,
            start: own.number(at, own.finish),
            delay: at.delay + own.delays,
            walk: at.walk + own.end - (own.memory + 24),
        };
        if fault == Fault::StartStays {
            at.start = 0;
        }
    }
    let last = owns.last().expect("there are parts");
    (
        stands.clone(),
        last.number(stands[owns.len() - 1], last.finish),
    )
}

fn whole(fault: Fault, owns: &[Own], pulse: u8) -> Netlist {
    let after = 3 + owns.iter().map(|own| own.delays).sum::<usize>();
    let inputs = |stands: &[Stand], which: usize| -> Vec<Vec<Vec<u16>>> {
        let of = |y| {
            owns.iter()
                .zip(stands)
                .map(|(own, at)| own.inputs(*at, y)[which].clone())
                .collect()
        };
        (0..VARIABLES).map(of).collect()
    };
    let all_ors = |stands: &[Stand], which: usize, kind: u8, from: usize, none: u16| {
        let (mut cells, mut wires) = (vec![], vec![]);
        for sources in inputs(stands, which) {
            let (own, wire) = ors(fault, kind, from + cells.len(), &sources, none);
            cells.extend(own);
            wires.push(wire);
        }
        (cells, wires)
    };
    let counted = all_ors(&stands(fault, owns, after).0, 0, OR, after, 1)
        .0
        .len();
    let (stands, finish) = stands(fault, owns, after + counted);
    let (clock_ors, clocks) = all_ors(&stands, 0, OR, after, 1);
    let moved = |from: fn(&Own) -> usize, end: fn(&Own) -> usize| -> Vec<Cell> {
        let of = |(own, at): (&Own, &Stand)| -> Vec<Cell> {
            own.cells[from(own)..end(own)]
                .iter()
                .map(|cell| own.moved(*at, cell))
                .collect()
        };
        owns.iter().zip(&stands).flat_map(of).collect()
    };
    let delays = moved(|_| 3, |own| 3 + own.delays);
    let walk = moved(|own| own.memory + 24, |own| own.end);
    let words = after + counted + 24 + walk.len();
    let (data_ors, datas) = all_ors(&stands, 1, 7, words, 2);
    let (address_ors, addresses) = all_ors(&stands, 2, 7, words + data_ors.len(), 2);
    let mut kept = owns[0].cells[owns[0].memory..owns[0].memory + 24].to_vec();
    for y in 0..VARIABLES {
        let place = if y < MEMORIES { y } else { 2 * y - MEMORIES };
        (kept[place].a, kept[place].b) = (clocks[y], datas[y]);
        if y >= MEMORIES {
            kept[place + 1].a = addresses[y];
        }
    }
    let front = owns[0].cells[..3].to_vec();
    Netlist {
        pulse,
        cells: [front, delays, clock_ors, kept, walk, data_ors, address_ors].concat(),
        finish,
    }
}
