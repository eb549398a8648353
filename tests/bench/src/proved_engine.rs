//! The proved simulator, by its public calls: a full run, a beginning and a
//! continuing of a compact state, and a slow run of the program.

use crate::engine::{Engine, Measured, Row};
use crate::workload::{Workload, START};
use bindings::calls;
use std::time::Instant;
use values::{Answer, Format, Refusal};

const INSTANTS: u32 = 1_000_000;

pub fn row(workload: &Workload) -> Row {
    row_of("proved", workload, Format::Full, |file, state| {
        calls::run_netlist(file, &START, INSTANTS, state)
    })
}

pub fn compact_row(workload: &Workload) -> Row {
    row_of(
        "proved, compact",
        workload,
        Format::Compact,
        |file, state| {
            calls::begin(Format::Compact, file, &START, state)?;
            calls::continue_by(Format::Compact, file, state, INSTANTS)
        },
    )
}

/// A run in which operators take their time; it comes to the same words.
pub fn slow_row(workload: &Workload) -> Row {
    let program = workload.program.clone().expect("a workload's program");
    let cells = workload.netlist.cells.len();
    let engine = Engine::new(INSTANTS, move || {
        let (mut values, mut work) = (vec![0; 2 * cells], vec![0; 512 * (2 * cells + 1)]);
        let begin = Instant::now();
        let result = calls::slow_run(None, 0, &program, &START, INSTANTS, &mut values, &mut work);
        let nanoseconds = begin.elapsed().as_nanos() as u64;
        let words = result.expect("the workloads are good programs").words;
        Measured { nanoseconds, words }
    });
    Row::of("proved, slow", engine)
}

fn row_of(
    name: &'static str,
    workload: &Workload,
    format: Format,
    run: fn(&[u8], &mut [u8]) -> Result<Answer, Refusal>,
) -> Row {
    let (file, state) = (workload.file.clone(), workload.state(format));
    let engine = Engine::new(INSTANTS, move || {
        let (mut state, begin) = (state.clone(), Instant::now());
        let result = run(&file, &mut state);
        let nanoseconds = begin.elapsed().as_nanos() as u64;
        let answer = result.expect("the workloads are good netlists");
        assert!(!answer.ended, "the workloads stay open");
        let words = answer.words;
        Measured { nanoseconds, words }
    });
    Row::of(name, engine)
}
