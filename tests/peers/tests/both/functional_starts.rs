//! Functional circuits of programs: when a start may be given and what it runs from,
//! beside what a plain run of the same file shows; their last sixteen cells; tables.

use crate::expect::{refused, start_with, words_with, START};
use crate::functional::{compiled, runs};
use crate::nodes::*;
use crate::run::Run;
use peers::BOTH;
use second::netfile;
use second::table::Times;
use values::{Circuit, Format};

/// From 3: four tests of 1 + 1, and three times 17.
fn count_down() -> Vec<u8> {
    let down = assign(0, difference(variable(0), constant(1)), 17);
    while_do(variable(0), 1, down)
}

/// Before the end a start is 23, at each instant.
#[test]
fn a_start_before_the_end_is_refused() {
    let program = sequence(while_do(variable(0), 1, tick(2)), ok());
    let program = parallel(program, assign(1, constant(4), 3));
    for mut run in runs(&program, &START) {
        for instant in 0..3 {
            assert!(!run.go(u32::from(instant > 0)).ended);
            run.assert_start_refused(23);
        }
        assert!(run.go(1).ended);
        assert!(!run.start().ended);
        run.assert_start_refused(23);
    }
}

/// x0 := x0 + 1 from 7 is 8 each time, by the circuit that hands words on, and
/// counts on by the other.
#[test]
fn a_second_start_runs_from_the_start_words() {
    let program = assign(0, sum(variable(0), constant(1)), 16);
    for mut run in runs(&program, &start_with([7])) {
        assert_eq!(run.go(100).words, words_with([8]));
        run.go(20);
        for _ in 0..3 {
            run.start();
            assert_eq!(run.go(100).words, words_with([8]));
        }
    }
    let mut imperative = Run::of_program(&program, &start_with([7]));
    assert_eq!(imperative.go(100).words, words_with([8]));
    imperative.start();
    assert_eq!(imperative.go(100).words, words_with([9]));
}

/// A netlist is the same file for a run that shows the memories.
#[test]
fn a_plain_run_of_a_functional_circuit_shows_the_start_words() {
    for file in compiled(None, &count_down()) {
        let mut plain = Run::begin(&file, &start_with([3]));
        let answer = plain.go(1_000);
        assert_eq!((answer.ended, answer.instant), (true, 59));
        assert_eq!(answer.words, words_with([3]));
        // A call may be of either kind on the same state.
        plain.circuit = Circuit::Functional;
        assert_eq!(plain.go(0).words, [0; 16]);
    }
}

/// The last sixteen cells are ors with cell 2, the others a netlist as any.
#[test]
fn the_last_sixteen_cells_carry_the_words() {
    for program in [ok(), assign(3, constant(1), 1), count_down()] {
        for file in compiled(None, &program) {
            let netlist = netfile::read(&file).expect("a good netlist");
            assert_eq!(netlist.pulse, 1);
            let lasts = &netlist.cells[netlist.cells.len() - 16..];
            assert!(lasts.iter().all(|cell| (cell.kind, cell.b) == (7, 2)));
            for memory in netlist.memories() {
                assert_eq!(netlist.cells[memory].a, 1, "a clock that never falls");
            }
        }
    }
}

/// Cases of the paper under a table of other times.
#[test]
fn a_table_tells_which_delays_will_do() {
    let slow = Times([0, 0, 1, 60, 60, 1, 1, 60, 60, 60]).file();
    let fast = Times([0, 0, 1, 1, 1, 1, 1, 1, 1, 1]).file();
    let program = |d| assign(0, sum(variable(0), constant(1)), d);
    for (table, least) in [(None, 16), (Some(&slow[..]), 60), (Some(&fast[..]), 1)] {
        let check = |d| (BOTH.functional.check)(table, &program(d)).result;
        assert_eq!(check(least), Ok(()));
        assert_eq!(check(least - 1), refused(7, 0));
        let words = start_with([4]);
        let ended = (BOTH.functional.reference_run)(table, &program(least), &words, 100);
        let end = ended.result.expect("it is accepted").expect("it ends");
        assert_eq!((end.instant, end.words), (least.into(), words_with([5])));
        for file in compiled(table, &program(least)) {
            let mut run = Run::begin_of(Circuit::Functional, Format::Full, &file, &words);
            assert_eq!(run.go(100).instant, least.into());
        }
    }
}
