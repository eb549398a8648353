//! What the calls on functional circuits refuse: kinds that document 01 doesn't have,
//! with 28, and files whose last sixteen cells carry no words, with 12; and the order
//! in which these come among the others.

use crate::expect::{refused, start_with, state_length, START};
use crate::netlist::*;
use crate::nodes::*;
use crate::run::Run;
use crate::stack::deepest;
use peers::{BOTH, PROVED, SECOND};
use second::cells::{Netlist, CONSTANT, GATE};
use second::netfile;
use values::{Cell, Circuit, Format, Refusal, Table};

fn check(program: &[u8]) -> Result<(), Refusal> {
    check_with(None, program)
}

/// All calls on a program refuse it alike, and change nothing.
fn check_with(table: Table, program: &[u8]) -> Result<(), Refusal> {
    let checked = (BOTH.functional.check)(table, program).result;
    let (file, state) = ([0xa5; 50_000], vec![0xa5; 300_000]);
    let compiled = (BOTH.functional.compile)(table, program, &file);
    assert_eq!(compiled.result.map(drop), checked);
    let ended = (BOTH.functional.reference_run)(table, program, &START, 10);
    assert_eq!(ended.result.map(drop), checked);
    let ran = (BOTH.functional.run_program)(table, program, &START, 10, &file, &state);
    assert_eq!(ran.result.map(drop), checked);
    if checked.is_err() {
        assert!(compiled.lent == [&file[..]] && ran.lent == [&file[..], &state]);
    }
    checked
}

#[test]
fn kinds_that_came_later_are_28() {
    let read = assign(0, element(0, constant(1)), 4);
    assert_eq!(check(&read), refused(28, 1));
    assert_eq!(
        check(&assign_element(0, constant(1), constant(2), 1)),
        refused(28, 0)
    );
    assert_eq!(check(&loop_of(1, ok())), refused(28, 0));
    assert_eq!(check(&exit()), refused(28, 0));
    assert_eq!(check(&call(0, 1)), refused(28, 0));
}

#[test]
fn the_first_such_node_is_told() {
    let later = [
        assign_element(3, constant(1), constant(2), 1),
        loop_of(1, exit()),
        call(7, 1),
        assign(0, element(3, constant(1)), 4),
    ];
    for (place, program) in [0, 0, 0, 1].into_iter().zip(&later) {
        for second in &later {
            let both = sequence(program.clone(), second.clone());
            assert_eq!(check(&both), refused(28, 1 + place));
            let behind = sequence(assign(0, variable(1), 1), both);
            assert_eq!(check(&behind), refused(28, 4 + place));
        }
    }
    // In the condition, in the else branch, in the body.
    let condition = if_then_else(element(0, constant(0)), 4, ok(), ok());
    assert_eq!(check(&condition), refused(28, 1));
    assert_eq!(
        check(&if_then_else(constant(0), 0, ok(), exit())),
        refused(28, 3)
    );
    assert_eq!(check(&while_do(constant(0), 1, call(0, 1))), refused(28, 2));
}

#[test]
fn tables_lengths_nodes_and_reading_come_before_28() {
    let program = exit();
    assert_eq!(check_with(Some(&[0; 511]), &program), refused(19, 0));
    let mut table = second::table::BUILT_IN.file();
    table[300] = 1;
    assert_eq!(check_with(Some(&table), &program), refused(20, 0));
    (table[300], table[302], table[303]) = (0, 255, 255);
    (table[300], table[301]) = (1, 0);
    assert_eq!(check_with(Some(&table), &program), refused(21, 300));
    assert_eq!(check(&exit().repeat(201)), refused(1, 0));
    assert_eq!(check(&exit()[..3]), refused(1, 0));
    let with = |node: [u8; 4]| sequence(exit(), node.to_vec());
    assert_eq!(check(&with([99, 0, 0, 0])), refused(2, 2));
    assert_eq!(check(&with([16, 1, 0, 0])), refused(3, 2));
    assert_eq!(
        check(&sequence(exit(), assign(16, constant(0), 1))),
        refused(4, 2)
    );
    assert_eq!(check(&with([1, 0, 0, 0])), refused(5, 2));
    assert_eq!(check(&sequence(exit(), vec![])), refused(6, 2));
    assert_eq!(check(&[exit(), ok()].concat()), refused(6, 1));
}

/// A body that stands before the main program is a node that is left.
#[test]
fn there_are_no_procedures() {
    assert_eq!(check(&[tick(1), call(0, 1)].concat()), refused(6, 1));
    assert_eq!(check(&[call(0, 1), tick(1)].concat()), refused(6, 1));
}

#[test]
fn twenty_eight_comes_before_22_24_7_25_and_8() {
    // An exit without a loop, a call of no procedure, and earlier nodes that are 7, 8.
    assert_eq!(check(&exit()), refused(28, 0));
    assert_eq!(check(&call(9, 0)), refused(28, 0));
    let short = assign(0, sum(constant(1), constant(1)), 15);
    assert_eq!(check(&short), refused(7, 0));
    assert_eq!(check(&sequence(short.clone(), exit())), refused(28, 5));
    let clash = parallel(assign(1, constant(1), 1), assign(2, variable(1), 1));
    assert_eq!(check(&clash), refused(8, 0));
    assert_eq!(check(&sequence(clash.clone(), call(0, 1))), refused(28, 6));
    assert_eq!(check(&sequence(clash, short)), refused(7, 6));
    let shared = parallel(call(0, 1), call(0, 1));
    assert_eq!(check(&shared), refused(28, 1));
}

/// 13 and 14 after the program's; the room is that of each compiler's own netlist.
#[test]
fn budget_and_room_come_after_the_program() {
    let (program, bad) = (assign(0, constant(5), 1), exit());
    let run = |program: &[u8], words: &[u8], budget| {
        let (file, state) = (vec![7; 50_000], vec![7; 300_000]);
        let ran = (BOTH.functional.run_program)(None, program, words, budget, &file, &state);
        let ended = (BOTH.functional.reference_run)(None, program, words, budget).result;
        assert_eq!(ran.result.map(drop), ended.map(drop));
        ran.result.map(drop)
    };
    assert_eq!(run(&bad, &[], 1_000_001), refused(28, 0));
    assert_eq!(run(&program, &[], 1_000_001), refused(13, 0));
    assert_eq!(run(&program, &START[..543], 1_000_000), refused(14, 0));
    assert_eq!(run(&program, &START, 1_000_000), Ok(()));
    for peer in [PROVED, SECOND] {
        let compiled = (peer.functional.compile)(None, &program, &[7; 512]);
        let cells = compiled.result.expect("one block").cells;
        let length = state_length(Format::Full, cells.into());
        for (file, state, fits) in [
            (512, length, true),
            (511, length, false),
            (512, length - 1, false),
        ] {
            let lent = [vec![7; file], vec![7; state]];
            let ran = (peer.functional.run_program)(None, &program, &START, 5, &lent[0], &lent[1]);
            assert_eq!(ran.result.is_ok(), fits, "{}", peer.name);
            if !fits {
                assert_eq!(ran.result, refused(14, 0));
                assert_eq!(ran.lent, lent);
            }
        }
        let short = (peer.functional.compile)(None, &program, &[7; 511]);
        assert_eq!(short.result, refused(14, 0));
        assert_eq!(short.lent, [[7; 511]]);
    }
}

/// The idle cells and so many ors of cell 2 with itself, changed at will.
fn with_lasts(change: impl FnOnce(&mut Vec<Cell>)) -> Vec<Cell> {
    let mut cells = [idle(), vec![Cell::new(7, 0, 2, 2); 16]].concat();
    change(&mut cells);
    cells
}

/// A file is good for a plain run; a functional one refuses it with 12 at this
/// place, or not, by every call and in both formats.
fn assert_read(cells: &[Cell], expected: Result<(), Refusal>) {
    let file = file(cells, 0);
    for format in Format::BOTH {
        let lent = Run::lent(Circuit::Functional, format, &file).state;
        let begun = (BOTH.begin)(format, &file, &START, &lent);
        assert!(begun.result.is_ok(), "as a plain run");
        let state = &begun.lent[0];
        for reply in [
            (BOTH.functional.begin)(format, &file, &START, &lent),
            (BOTH.functional.continue_by)(format, &file, 1, state),
            (BOTH.functional.start)(format, &file, state),
        ] {
            assert_eq!(reply.result.map(drop), expected);
            assert!(expected.is_ok() || [&lent, state].contains(&&reply.lent[0]));
        }
        let lent = Run::lent(Circuit::Functional, Format::Full, &file).state;
        let ran = (BOTH.functional.run_netlist)(&file, &START, 5, &lent);
        assert_eq!(ran.result.map(drop), expected);
    }
}

#[test]
fn the_last_sixteen_cells_are_ors_with_cell_2() {
    assert_read(&with_lasts(|_| {}), Ok(()));
    assert_read(&with_lasts(|cells| cells[27].a = 5), Ok(()));
    // One cell before them is as any.
    assert_read(
        &with_lasts(|cells| cells.insert(27, Cell::new(CONSTANT, 0, 1, 0))),
        Ok(()),
    );
    for place in 27..43 {
        for bad in [
            Cell::new(CONSTANT, 0, 0, 0),
            Cell::new(6, 0, 2, 2),
            Cell::new(7, 0, 2, 3),
            Cell::new(GATE, 0, 1, 2),
            Cell::new(45, 0, 0, 2),
            Cell::new(35, 0, 0, 0),
        ] {
            assert_read(&with_lasts(|cells| cells[place] = bad), refused(12, place));
            let two = with_lasts(|cells| (cells[place], cells[42]) = (bad, bad));
            assert_read(&two, refused(12, place));
        }
    }
}

/// Of a netlist with fewer the first of its last sixteen is told.
#[test]
fn fifteen_last_cells_are_too_few() {
    let lacking = |count| [idle(), vec![Cell::new(7, 0, 2, 2); count]].concat();
    for count in 0..16 {
        assert_read(&lacking(count), refused(12, 11 + count));
    }
    let one_early = with_lasts(|cells| cells.push(Cell::new(CONSTANT, 0, 1, 0)));
    assert_read(&one_early, refused(12, 43));
    assert_read(&lacking(17), Ok(()));
}

/// All other rules of 12 first, the finish on a word wire among them; then 13 to 16.
#[test]
fn the_rule_of_the_last_cells_comes_after_all_of_12() {
    let begin = |file: &[u8], format| (BOTH.functional.begin)(format, file, &[], &[]).result;
    let lacking = with_lasts(|cells| cells[30] = Cell::new(CONSTANT, 0, 1, 0));
    let worse = |change: fn(&mut Vec<Cell>)| {
        let mut cells = lacking.clone();
        change(&mut cells);
        file(&cells, 0)
    };
    for format in Format::BOTH {
        let refusal = |file: &[u8]| begin(file, format).map(drop);
        assert_eq!(refusal(&file(&lacking, 0)), refused(12, 30));
        assert_eq!(refusal(&worse(|cells| cells[41].a = 99)), refused(12, 41));
        assert_eq!(refusal(&file(&lacking, 40)), refused(12, 40));
        let seventeen = worse(|cells| cells[29] = Cell::new(40, 0, 1, 2));
        assert_eq!(refusal(&seventeen), refused(12, 43));
        // Before the longer pulse of a compact state and the room for words.
        let long = pulsed_file(3, &lacking, 0);
        assert_eq!(refusal(&long), refused(12, 30));
    }
    let ran = (BOTH.functional.run_netlist)(&file(&lacking, 0), &[], 2_000_000, &[]);
    assert_eq!(ran.result, refused(12, 30));
    let continued = (BOTH.functional.continue_by)(Format::Full, &file(&lacking, 0), u32::MAX, &[]);
    assert_eq!(continued.result, refused(12, 30));
}

/// A functional run in all else: 9 to 11, 27, 13 to 16 and 23.
#[test]
fn the_other_refusals_are_those_of_any_run() {
    let good = file(&with_lasts(|_| {}), 0);
    let begin = |file: &[u8], format| (BOTH.functional.begin)(format, file, &START, &[]).result;
    assert_eq!(begin(&good[..511], Format::Full), refused(9, 0));
    let mut wrong = good.clone();
    wrong[20] ^= 1;
    assert_eq!(begin(&wrong, Format::Full), refused(10, 0));
    assert_eq!(
        begin(&file(&with_lasts(|_| {}), 43), Format::Full),
        refused(11, 0)
    );
    let long = pulsed_file(2, &with_lasts(|_| {}), 0);
    assert_eq!(begin(&long, Format::Compact), refused(27, 0));
    assert_eq!(begin(&long, Format::Full), refused(14, 0));
    let ran =
        |budget, words: &[u8]| (BOTH.functional.run_netlist)(&good, words, budget, &[]).result;
    assert_eq!(ran(1_000_001, &[]), refused(13, 0));
    assert_eq!(ran(1_000_000, &[]), refused(14, 0));
    for format in Format::BOTH {
        let mut run = Run::begin_of(Circuit::Functional, format, &good, &START);
        run.assert_refused(1_000_001, 16);
        run.tell_instant(1_000_000);
        run.assert_start_refused(16);
        run.tell_in_flight(1);
        run.assert_refused(0, 15);
    }
}

/// A file with a longer pulse is run as that netlist runs.
#[test]
fn a_longer_pulse_is_no_refusal_of_a_functional_run() {
    let cells = with_lasts(|cells| cells[27].a = 3);
    let long = pulsed_file(3, &cells, 0);
    let mut run = Run::begin_of(Circuit::Functional, Format::Full, &long, &start_with([9]));
    for instant in 0..5 {
        let answer = run.go(u32::from(instant > 0));
        assert_eq!(answer.ended, instant < 3);
        assert_eq!(answer.words, crate::expect::words_with([9]));
    }
}

/// What is compiled is accepted by a functional run, and by the call on its cells.
#[test]
fn a_program_as_large_as_may_be_fits() {
    let program = deepest();
    assert_eq!(check(&program), Ok(()));
    for file in crate::functional::compiled(None, &program) {
        let Netlist { cells, finish, .. } = netfile::read(&file).expect("it is accepted");
        assert!(cells.len() <= 7_074, "{} cells", cells.len());
        assert_eq!((BOTH.check_cells)(&cells, finish).result, Ok(()));
    }
}
