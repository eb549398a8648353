//! The plain engine in C (c/published.c): the same design as the proved one,
//! on the same bytes, by which the proved one's code is judged.

use crate::engine::{Engine, Measured, Row};
use crate::tool::{folder, measured, output};
use crate::workload::{Workload, START};
use bindings::calls;
use std::fs;
use std::path::{Path, PathBuf};
use std::process::Command;
use values::Format;

const INSTANTS: u32 = 1_000_000;

/// After so many instants every byte of the state is compared.
const COMPARED: u32 = 1_000;

pub fn row(workload: &Workload) -> Row {
    Row::with_tools("C", &["gcc"], || engine(workload, Format::Full))
}

pub fn compact_row(workload: &Workload) -> Row {
    Row::with_tools("C, compact", &["gcc"], || engine(workload, Format::Compact))
}

fn engine(workload: &Workload, format: Format) -> Engine {
    let (program, workload) = (build(format), workload.clone());
    let (_, state) = run(&program, &workload, COMPARED);
    let proved = proved_state(&workload, format);
    assert!(state == proved, "C on {}", workload.name);
    Engine::new(INSTANTS, move || run(&program, &workload, INSTANTS).0)
}

/// Builds the engine for states of a format.
pub fn build(format: Format) -> PathBuf {
    let (name, options) = match format {
        Format::Full => ("full", &["-O3"][..]),
        Format::Compact => ("compact", &["-O3", "-DCOMPACT"][..]),
    };
    let program = folder("c", name).join("published");
    let source = Path::new(env!("CARGO_MANIFEST_DIR")).join("c/published.c");
    output(
        Command::new("gcc")
            .args(options)
            .arg("-o")
            .arg(&program)
            .arg(source),
    );
    program
}

/// One run, and the state that it leaves.
pub fn run(program: &Path, workload: &Workload, instants: u32) -> (Measured, Vec<u8>) {
    let [netlist, state] = ["netlist", "state"].map(|name| program.with_file_name(name));
    fs::write(&netlist, &workload.file).expect("the folder can be written");
    let measured = measured(
        Command::new(program)
            .arg(&netlist)
            .arg(instants.to_string())
            .arg(&state),
    );
    let state = fs::read(&state).expect("the run has written it");
    (measured, state)
}

fn proved_state(workload: &Workload, format: Format) -> Vec<u8> {
    let (file, mut state) = (&workload.file, workload.state(format));
    calls::begin(format, file, &START, &mut state)
        .and_then(|_| calls::continue_by(format, file, &mut state, COMPARED))
        .expect("the workloads are good netlists");
    state
}
