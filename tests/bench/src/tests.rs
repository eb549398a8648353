//! The engines in C and in Verilog against the second simulator, on the compiled
//! netlists of the vectors and on those with latches.

use crate::workload::{Workload, START};
use crate::{c_engine, icarus};
use second::calls;
use second::cells::{fields, Netlist, ADDRESS, ARRAY};
use second::contents::Contents;
use second::simulate::Simulator;
use values::{Answer, Cell, Format};

/// Arrays, loops, procedures, longer pulses and latches came one after the other.
const FOLDERS: [&str; 6] = [
    "compile",
    "s05/compile",
    "s06/compile",
    "s08/compile",
    "s10/compile",
    "s11/calls",
];

const INSTANTS: u32 = 2_000;

/// So many instants are gone through one by one.
const WATCHED: u32 = 500;

fn workloads() -> Vec<Workload> {
    let all = FOLDERS.into_iter().flat_map(Workload::all);
    all.collect()
}

/// Those for which there are compact states.
fn of_one_instant() -> Vec<Workload> {
    let mut short = workloads();
    short.retain(|workload| workload.netlist.pulse == 1);
    short
}

/// A run of the second simulator up to the finish, and the state that it leaves.
fn expected(workload: &Workload, format: Format) -> (Answer, Vec<u8>) {
    let (file, mut state) = (&workload.file, workload.state(format));
    let mut answer = calls::begin(format, file, &START, &mut state);
    if let Ok(Answer { ended: false, .. }) = answer {
        answer = calls::continue_by(format, file, &mut state, INSTANTS);
    }
    (answer.expect("a compiled netlist"), state)
}

#[test]
fn every_kind_of_cell_occurs() {
    let netlists = workloads().into_iter().map(|workload| workload.netlist);
    let cells: Vec<Cell> = netlists.flat_map(|netlist| netlist.cells).collect();
    for kind in (0..=255).filter(|&kind| fields(kind).is_some()) {
        assert!(cells.iter().any(|cell| cell.kind == kind), "kind {kind}");
    }
}

/// Holds C against the second simulator: every byte of the state and the words.
fn assert_same_in_c(format: Format, workloads: Vec<Workload>) {
    let program = c_engine::build(format);
    for workload in workloads {
        let (measured, state) = c_engine::run(&program, &workload, INSTANTS);
        let (answer, expected) = expected(&workload, format);
        assert!(state == expected, "the state of {}", workload.name);
        assert_eq!(measured.words, answer.words, "{}", workload.name);
    }
}

#[test]
fn c_leaves_the_same_full_states() {
    assert_same_in_c(Format::Full, workloads());
}

#[test]
fn c_leaves_the_same_compact_states() {
    assert_same_in_c(Format::Compact, of_one_instant());
}

/// The wires of a netlist, but for those of arrays and addresses, which show 0.
fn wires(netlist: &Netlist) -> Vec<usize> {
    let shown = |&cell: &usize| ![ARRAY, ADDRESS].contains(&netlist.cells[cell].kind);
    (0..netlist.cells.len()).filter(shown).collect()
}

/// A bench that prints the wires at each instant, a line for each.
fn watching(netlist: &Netlist) -> String {
    let wires = wires(netlist).into_iter();
    let shown: String = wires
        .map(|wire| format!("$write(\"%0d \", hub.w{wire});\n"))
        .collect();
    format!(
        "module watch;\nreg clk;\ninteger instants;\nhub hub(clk,,);\ninitial begin\n\
         if (!$value$plusargs(\"instants=%d\", instants)) instants = 0;\n#1;\n\
         repeat (instants) begin\n{shown}$write(\"\\n\");\nclk = clk !== 1'b1;\n#1;\nend\n\
         $finish(0);\nend\nendmodule\n"
    )
}

/// The same lines by the second simulator.
fn watched(netlist: &Netlist) -> String {
    let wires = wires(netlist);
    let mut simulator = Simulator::begin(netlist, Contents::of_bytes(&START));
    let mut lines = String::new();
    for _ in 0..WATCHED {
        let shown = |&wire: &usize| format!("{} ", simulator.cell_state(wire).now);
        lines.extend(wires.iter().map(shown));
        lines.push('\n');
        let advanced = simulator.advance(Format::Full, 1);
        assert_eq!(advanced, Ok(1));
    }
    lines
}

#[test]
#[ignore = "asks for Icarus Verilog"]
fn verilog_shows_the_same_wires() {
    for workload in &workloads() {
        let Workload { name, netlist, .. } = workload;
        let program = icarus::build(workload, &watching(netlist));
        let (found, expected) = (icarus::run(&program, WATCHED), watched(netlist));
        let differ = |(found, expected): (&str, &str)| found != expected;
        let instant = found.lines().zip(expected.lines()).position(differ);
        assert_eq!(instant, None, "{name}");
        assert_eq!(found.len(), expected.len(), "{name}");
    }
}
