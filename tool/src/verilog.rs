//! A netlist as Verilog: what a cell keeps between instants is a register, and an edge
//! of the clock moves all registers on by an instant.

mod testbench;

pub use testbench::{testbench, Expected};

use crate::kinds::*;
use crate::store::{Store, ELEMENTS, VARIABLES};
use crate::types::{Cell, Netlist, Wiring};

/// The edges of the clock that are an instant.
#[derive(Clone, Copy, Debug, PartialEq, Eq)]
pub enum Edges {
    Rising,
    /// Rising and falling: half as many for a simulator, and not for gates.
    Both,
}

/// The module `hub`: a clock in, the finish wire and the words out, x0 lowest. Before
/// the first edge the wires have their values of instant 0. Its parameters are the
/// words that it starts with; a note tells what a cell is for.
pub fn module(
    netlist: &Netlist,
    wiring: Wiring,
    edges: Edges,
    start: &Store,
    notes: &[Option<String>],
) -> String {
    let writer = Writer { netlist };
    let edge = match edges {
        Edges::Rising => "posedge clk",
        Edges::Both => "posedge clk or negedge clk",
    };
    let words: Vec<String> = writer
        .words(wiring)
        .into_iter()
        .rev()
        .map(|cell| format!("w{cell}"))
        .collect();
    let value = |writer: &Writer, number: usize, cell: Cell| {
        let note = notes.get(number).cloned().flatten();
        noted(writer.value(number, cell), note)
    };
    let cells = netlist.cells.len();
    format!(
        "// A circuit of {cells} cells, written by 'hub verilog'.\nmodule hub #(\n{}\n) (\n  input clk,\n  output finish,\n  output [255:0] words\n);\n{}{}{}  \
         always @({edge}) begin\n{}  end\n  assign finish = w{};\n  assign words = {{{}}};\nendmodule\n",
        writer.parameters(start),
        writer.all(Writer::declaration),
        writer.all(Writer::register),
        writer.all(value),
        writer.all(Writer::on_edge),
        netlist.finish,
        words.join(", ")
    )
}

/// A line with what its cell is for, where that is known.
fn noted(line: String, note: Option<String>) -> String {
    match note {
        Some(note) => format!("{} // {note}\n", line.trim_end()),
        None => line,
    }
}

struct Writer<'a> {
    netlist: &'a Netlist,
}

impl Writer<'_> {
    /// A part of the text for each cell.
    fn all(&self, part: impl Fn(&Self, usize, Cell) -> String) -> String {
        let cells = self.needed().into_iter();
        cells
            .map(|(number, cell)| part(self, number, cell))
            .collect()
    }

    /// The sixteen memories, in order.
    fn memories(&self) -> impl Iterator<Item = usize> + '_ {
        let cells = self.netlist.cells.iter().enumerate();
        let memories = cells.filter(|(_, cell)| cell.kind == MEMORY);
        memories.map(|(number, _)| number)
    }

    /// The cells that show the words: the memories or, in a functional circuit, where
    /// these keep the words that it starts with, the last sixteen.
    fn words(&self, wiring: Wiring) -> Vec<usize> {
        let cells = self.netlist.cells.len();
        match wiring {
            Wiring::Imperative => self.memories().collect(),
            Wiring::Functional => (cells - VARIABLES..cells).collect(),
        }
    }

    /// The cells but for the arrays that are neither written nor read, and their
    /// addresses: every netlist has all four.
    fn needed(&self) -> Vec<(usize, Cell)> {
        let cells = self.netlist.cells.iter().copied().enumerate();
        let is_needed = |(number, cell): &(usize, Cell)| match cell.kind {
            ARRAY => self.is_used(*number),
            ADDRESS => self.is_used(*number - 1),
            _ => true,
        };
        cells.filter(is_needed).collect()
    }

    /// Whether an array is written or read.
    fn is_used(&self, array: usize) -> bool {
        let cells = &self.netlist.cells;
        let reads = |cell: &Cell| cell.kind == ELEMENT && usize::from(cell.a) == array;
        !is_idle(&cells[array]) || cells.iter().any(reads)
    }

    /// The arrays that are used, each by its number and its cell.
    fn arrays(&self) -> Vec<(usize, usize)> {
        let used = self.needed().into_iter();
        let arrays = used.filter(|(_, cell)| cell.kind == ARRAY);
        arrays
            .map(|(number, cell)| (usize::from(cell.delay), number))
            .collect()
    }

    fn parameters(&self, start: &Store) -> String {
        let words = (0..VARIABLES)
            .map(|variable| format!("  parameter [15:0] X{variable} = {}", word(start[variable])));
        let arrays = self.arrays().into_iter().map(|(array, _)| {
            let value = elements(start, array);
            format!("  parameter [1023:0] A{array} = {value}")
        });
        words.chain(arrays).collect::<Vec<String>>().join(",\n")
    }

    fn declaration(&self, number: usize, cell: Cell) -> String {
        match is_control(cell.kind) {
            true => format!("  wire w{number};\n"),
            false => format!("  wire [15:0] w{number};\n"),
        }
    }

    /// What a cell keeps, with its value before the first edge. An array keeps its words
    /// and what a memory does, and its address, the next cell, an index.
    fn register(&self, number: usize, cell: Cell) -> String {
        let control = |name: &str| format!("  reg {name}{number} = 0;\n");
        let word = |name: &str| format!("  reg [15:0] {name}{number} = 0;\n");
        match cell.kind {
            START => format!("  reg [3:0] left{number} = {};\n", self.netlist.pulse),
            DELAY => format!("  reg [{}:0] line{number} = 0;\n", cell.delay - 1),
            MERGE => control("held_a") + &control("held_b") + &self.before(number),
            RETURN => control("held_a") + &self.before(number),
            MEMORY => {
                let variable = self.memories().position(|memory| memory == number);
                let variable = variable.expect("it is a memory");
                let kept = format!("  reg [15:0] kept{number} = X{variable};\n");
                control("clock") + &word("data") + &kept
            }
            ARRAY => {
                let Cell { a, delay, .. } = cell;
                let kept = format!(
                    "  reg [15:0] kept{number} [0:63];\n  wire falls{number} = ~w{a} & clock{number};\n  \
                     integer at{number};\n  initial for (at{number} = 0; at{number} < 64; \
                     at{number} = at{number} + 1) kept{number}[at{number}] = A{delay}[16 * at{number} +: 16];\n"
                );
                control("clock") + &word("data") + &kept
            }
            ADDRESS => format!("  reg [5:0] index{number} = 0;\n"),
            LATCH => word("kept"),
            _ => String::new(),
        }
    }

    /// With longer pulses a merge goes by its output of the instant before.
    fn before(&self, number: usize) -> String {
        match self.netlist.pulse {
            1 => String::new(),
            _ => format!("  reg before{number} = 0;\n"),
        }
    }

    /// The equation of a cell at one instant. A read shows the write of its instant.
    fn value(&self, number: usize, cell: Cell) -> String {
        let Cell { kind, delay, a, b } = cell;
        let right = match kind {
            START => format!("left{number} != 0"),
            GROUND => "1'b0".to_string(),
            CONSTANT => word(a),
            DELAY => format!("line{number}[{}]", delay - 1),
            EITHER => format!("w{a} | w{b}"),
            WHEN_TRUE => format!("w{a} & (w{b} != 0)"),
            WHEN_FALSE => format!("w{a} & (w{b} == 0)"),
            MERGE => {
                let both = format!("(w{a} | held_a{number}) & (w{b} | held_b{number})");
                match self.netlist.pulse {
                    1 => both,
                    _ => format!("{both} & (w{a} | w{b})"),
                }
            }
            RETURN => format!("(w{a} | held_a{number}) & w{b}"),
            MEMORY => format!("(~w{a} & clock{number}) ? data{number} : kept{number}"),
            GATED => format!("w{a} ? w{b} : 16'd0"),
            ARRAY | ADDRESS => "16'd0".to_string(),
            ELEMENT => format!(
                "(falls{a} & (index{} == w{b}[5:0])) ? data{a} : kept{a}[w{b}[5:0]]",
                a + 1
            ),
            LATCH => format!("kept{number}"),
            _ => operation(kind, a, b),
        };
        format!("  assign w{number} = {right};\n")
    }

    /// How an edge moves what a cell keeps.
    fn on_edge(&self, number: usize, cell: Cell) -> String {
        let Cell { kind, delay, a, b } = cell;
        let held = |name: &str, input: u16| {
            let holds = match self.netlist.pulse {
                1 => format!("~w{number}"),
                _ => format!("(~before{number} | w{number})"),
            };
            format!("    held_{name}{number} <= (w{input} | held_{name}{number}) & {holds};\n")
        };
        let before = match self.netlist.pulse {
            1 => String::new(),
            _ => format!("    before{number} <= w{number};\n"),
        };
        match kind {
            START => format!("    if (left{number} != 0) left{number} <= left{number} - 4'd1;\n"),
            DELAY if delay == 1 => format!("    line{number} <= w{a};\n"),
            DELAY => format!(
                "    line{number} <= {{line{number}[{}:0], w{a}}};\n",
                delay - 2
            ),
            MERGE => held("a", a) + &held("b", b) + &before,
            RETURN => held("a", a) + &before,
            MEMORY => format!(
                "    clock{number} <= w{a};\n    data{number} <= w{b};\n    kept{number} <= w{number};\n"
            ),
            ARRAY => format!(
                "    if (falls{number}) kept{number}[index{}] <= data{number};\n    \
                 clock{number} <= w{a};\n    data{number} <= w{b};\n",
                number + 1
            ),
            ADDRESS => format!("    index{number} <= w{a}[5:0];\n"),
            LATCH => format!("    if (w{a}) kept{number} <= w{b};\n"),
            _ => String::new(),
        }
    }
}

fn operation(kind: u8, a: u16, b: u16) -> String {
    match kind {
        COMPLEMENT => format!("~w{a}"),
        SUM => format!("w{a} + w{b}"),
        DIFFERENCE => format!("w{a} - w{b}"),
        AND => format!("w{a} & w{b}"),
        OR => format!("w{a} | w{b}"),
        EQUAL => format!("{{15'b0, w{a} == w{b}}}"),
        LESS => format!("{{15'b0, $signed(w{a}) < $signed(w{b})}}"),
        other => unreachable!("refusal 12 keeps kind {other} out"),
    }
}

fn word(word: u16) -> String {
    format!("16'd{word}")
}

/// The words of an array as one number, the first element lowest.
fn elements(store: &Store, array: usize) -> String {
    let words = &store[VARIABLES + array * ELEMENTS..][..ELEMENTS];
    let digits: String = words
        .iter()
        .rev()
        .map(|word| format!("{word:04x}"))
        .collect();
    match digits.trim_start_matches('0') {
        "" => "1024'h0".to_string(),
        digits => format!("1024'h{digits}"),
    }
}
