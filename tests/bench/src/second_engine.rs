//! The second simulator, by its public calls.

use crate::engine::{Engine, Measured, Row};
use crate::workload::{Workload, START};
use second::calls;
use std::time::Instant;
use values::{Format, Words};

const INSTANTS: u32 = 1_000_000;

pub fn row(workload: &Workload) -> Row {
    let (file, state) = (workload.file.clone(), workload.state(Format::Full));
    let engine = Engine::new(INSTANTS, move || run(&file, INSTANTS, state.clone()));
    Row::of("second", engine)
}

/// The words after a number of instants, which other engines must have too.
pub fn words_after(workload: &Workload, instants: u32) -> Words {
    run(&workload.file, instants, workload.state(Format::Full)).words
}

fn run(file: &[u8], instants: u32, mut state: Vec<u8>) -> Measured {
    let begin = Instant::now();
    let result = calls::run_netlist(file, &START, instants, &mut state);
    let nanoseconds = begin.elapsed().as_nanos() as u64;
    let answer = result.expect("the workloads are good netlists");
    assert_eq!(answer.instant, instants, "the workloads stay open");
    Measured {
        nanoseconds,
        words: answer.words,
    }
}
