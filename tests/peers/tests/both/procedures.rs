//! Procedures and calls: when a program ends by the rules and by the circuit,
//! the cells of bodies and calls, and what is refused.

use crate::expect::{refused, start_with, words_with, START};
use crate::nodes::*;
use crate::run::Run;
use peers::BOTH;
use values::{Cell, Given, Refusal, Words};

/// A budget above the end of every program here that has one.
const BUDGET: u32 = 2_000;

/// Bodies, and the main program behind them.
fn program<const COUNT: usize>(bodies: [Vec<u8>; COUNT], main: Vec<u8>) -> (usize, Vec<u8>) {
    (COUNT, [bodies.concat(), main].concat())
}

/// The instant and the words at a program's end, on which rules and circuit
/// agree; none of an open run.
fn end_of<const COUNT: usize>(
    (procedures, program): &(usize, Vec<u8>),
    first: [u16; COUNT],
) -> Option<(u32, Words)> {
    let (given, words) = (Given::procedures(*procedures), start_with(first));
    let (file, state) = ([0; 6_656], [0; 42_000]);
    let ran = (BOTH.run_program)(given, program, &words, BUDGET, &file, &state);
    let answer = ran
        .result
        .unwrap_or_else(|refusal| panic!("{program:?}: {refusal}"));
    let end = answer.ended.then_some((answer.instant, answer.words));
    let by_the_rules = (BOTH.reference_run)(given, program, &words, BUDGET).result;
    let told = by_the_rules.map(|end| end.map(|end| (end.instant, end.words)));
    assert_eq!(told, Ok(end), "{program:?}");
    end
}

/// The program ends at this instant with these words, all others 0.
fn assert_ends<const START: usize, const LAST: usize>(
    program: (usize, Vec<u8>),
    start: [u16; START],
    instant: u32,
    last: [u16; LAST],
) {
    let expected = Some((instant, words_with(last)));
    assert_eq!(end_of(&program, start), expected, "{program:?}");
}

fn check(procedures: usize, program: &[u8]) -> Result<(), Refusal> {
    (BOTH.check)(Given::procedures(procedures), program).result
}

fn assert_refused((procedures, program): (usize, Vec<u8>), number: u8, place: usize) {
    let checked = check(procedures, &program);
    assert_eq!(checked, refused(number, place), "{program:?}");
}

/// x := n, which takes 2.
fn set(x: u16, n: u16) -> Vec<u8> {
    assign(x, constant(n), 1)
}

/// x0 := x0 + 1, which takes 17.
fn count_up() -> Vec<u8> {
    assign(0, sum(variable(0), constant(1)), 16)
}

/// x0 := x0 - 1, which takes 18.
fn count_down() -> Vec<u8> {
    assign(0, difference(variable(0), constant(1)), 17)
}

#[test]
fn a_call_takes_its_delay_and_then_the_body() {
    assert_ends(program([tick(3)], call(0, 2)), [], 5, []);
    assert_ends(program([tick(3)], call(0, 255)), [], 258, []);
    assert_ends(program([set(4, 7)], call(0, 1)), [], 3, [0, 0, 0, 0, 7]);
    let between = sequence(tick(4), sequence(call(0, 2), tick(5)));
    assert_ends(program([tick(3)], between), [], 4 + 5 + 5, []);
}

#[test]
fn a_body_may_take_no_time() {
    assert_ends(program([ok()], call(0, 1)), [], 1, []);
    let twice = sequence(call(0, 1), call(0, 2));
    assert_ends(program([ok()], twice.clone()), [], 3, []);
    let choice = if_then_else(variable(0), 0, ok(), tick(6));
    assert_ends(program([choice.clone()], twice.clone()), [1], 3, [1]);
    assert_ends(program([choice], twice), [0], 15, []);
}

#[test]
fn callers_one_after_the_other_each_wait_for_their_own() {
    let twice = sequence(call(0, 2), call(0, 4));
    assert_ends(program([count_up()], twice), [], 2 + 17 + 4 + 17, [2]);
    // The second caller has seen the body's finish before it calls.
    let apart = sequence(call(0, 1), sequence(tick(9), call(0, 1)));
    assert_ends(program([tick(3)], apart), [], 4 + 9 + 4, []);
    let thrice = sequence(call(0, 1), sequence(call(0, 1), call(0, 1)));
    assert_ends(program([count_up()], thrice), [5], 3 * 18, [8]);
}

#[test]
fn a_body_runs_from_the_words_as_they_then_are() {
    let copy = assign(1, variable(0), 1);
    let main = sequence(set(0, 5), sequence(call(0, 1), set(0, 9)));
    assert_ends(program([copy.clone()], main), [3], 2 + 3 + 2, [9, 5]);
    // What follows a call waits for the body, however long the delay is.
    let late = sequence(call(0, 30), set(0, 9));
    assert_ends(program([copy], late), [3], 30 + 2 + 2, [9, 3]);
}

#[test]
fn bodies_may_call_earlier_ones() {
    let second = sequence(call(0, 2), call(0, 3));
    let main = call(1, 4);
    let nested = program([tick(1), second.clone()], main);
    assert_ends(nested, [], 4 + (2 + 1) + (3 + 1), []);
    let both = sequence(call(1, 4), call(0, 5));
    assert_ends(program([tick(1), second], both), [], 11 + 6, []);
    // Eight, each calling the one before.
    let chain = |k: u16| if k == 0 { tick(1) } else { call(k - 1, 1) };
    let bodies: [Vec<u8>; 8] = std::array::from_fn(|k| chain(k as u16));
    assert_ends(program(bodies, call(7, 1)), [], 9, []);
}

#[test]
fn calls_stand_in_loops_and_branches() {
    let rounds = while_do(variable(0), 1, call(0, 3));
    assert_ends(program([count_down()], rounds), [3], 4 + 3 * (3 + 18), [0]);
    let until = repeat_until(call(0, 3), equal(variable(0), constant(0)), 6);
    assert_ends(program([count_down()], until), [3], 3 * (3 + 18 + 6), [0]);
    let choice = if_then_else(variable(0), 0, call(0, 3), call(0, 5));
    for (x0, instant) in [(0, 10), (1, 8)] {
        assert_ends(program([tick(5)], choice.clone()), [x0], instant, [x0]);
    }
}

/// An exit ends the loop of its own body, and what is after the call runs.
#[test]
fn a_body_may_be_a_loop_that_is_left() {
    let leave = if_then_else(variable(0), 0, ok(), exit());
    let body = loop_of(5, sequence(count_down(), leave));
    let main = loop_of(9, sequence(call(0, 2), exit()));
    assert_ends(program([body], main), [2], 2 + 18 + 5 + 18, [0]);
}

#[test]
fn one_side_of_a_parallel_node_may_call() {
    for (others, instant) in [(9, 9), (2, 5)] {
        let sides = parallel(call(0, 1), tick(others));
        assert_ends(program([tick(4)], sides), [], instant, []);
        let sides = parallel(tick(others), call(0, 1));
        assert_ends(program([tick(4)], sides), [], instant, []);
    }
    let twice = parallel(sequence(call(0, 1), call(0, 1)), set(3, 1));
    assert_ends(program([tick(4)], twice), [], 10, [0, 0, 0, 1]);
    let both = parallel(call(0, 1), call(1, 2));
    assert_ends(program([set(0, 5), set(1, 6)], both), [], 4, [5, 6]);
    // A body with sides of its own.
    let body = parallel(set(0, 5), tick(7));
    let main = sequence(call(0, 1), call(0, 1));
    assert_ends(program([body], main), [], 16, [5]);
}

#[test]
fn a_body_that_never_ends_keeps_its_caller_waiting() {
    let endless = program([loop_of(1, tick(1))], sequence(call(0, 1), set(0, 7)));
    assert_eq!(end_of(&endless, [3]), None);
    // Nobody calls it.
    assert_ends(program([loop_of(1, tick(1))], tick(4)), [], 4, []);
}

/// While the body runs, its pulse and its caller's held bit are in flight; of a
/// caller in a body both callers' bits are.
#[test]
fn an_activation_is_two_in_flight() {
    let numbers = |(procedures, program): (usize, Vec<u8>), instants: u32| -> Vec<u32> {
        let given = Given::procedures(procedures);
        let mut run = Run::of_given(given, &program, &START);
        let mut numbers = vec![run.in_flight()];
        for _ in 0..instants {
            run.go(1);
            numbers.push(run.in_flight());
        }
        numbers
    };
    let one = program([tick(3)], call(0, 2));
    assert_eq!(numbers(one, 6), [1, 1, 2, 2, 2, 0, 0]);
    assert_eq!(numbers(program([ok()], call(0, 1)), 2), [1, 0, 0]);
    let nested = program([tick(2), call(0, 1)], call(1, 1));
    assert_eq!(numbers(nested, 5), [1, 2, 3, 3, 0, 0]);
    let twice = program([tick(2)], sequence(call(0, 1), call(0, 1)));
    assert_eq!(numbers(twice, 7), [1, 2, 2, 1, 2, 2, 0, 0]);
}

/// A second start finds all callers' merges cleared.
#[test]
fn a_hub_with_procedures_is_started_again() {
    let (procedures, program) = program([count_up()], sequence(call(0, 2), call(0, 4)));
    let given = Given::procedures(procedures);
    let mut run = Run::of_given(given, &program, &start_with([5]));
    for (instant, x0) in [(40, 7), (81, 9), (122, 11)] {
        let ended = run.go(BUDGET);
        assert_eq!((ended.ended, ended.instant), (true, instant));
        assert_eq!(ended.words, words_with([x0]));
        assert_eq!(run.in_flight(), 0);
        run.start();
    }
}

/// All cells of a program, and its finish.
fn cells_of((procedures, program): (usize, Vec<u8>)) -> (Vec<Cell>, u16) {
    let compiled = (BOTH.compile)(Given::procedures(procedures), &program, &[0; 512]);
    let shape = compiled.result.expect("it is accepted");
    let lent = vec![Cell::new(0, 0, 0, 0); usize::from(shape.cells)];
    let read = (BOTH.read_cells)(&compiled.lent[0], 0, &lent);
    (read.lent[0].clone(), shape.finish)
}

fn delay(d: u8, a: u16) -> Cell {
    Cell::new(34, d, a, 0)
}

fn or(a: u16, b: u16) -> Cell {
    Cell::new(35, 0, a, b)
}

fn returns(a: u16, b: u16) -> Cell {
    Cell::new(39, 0, a, b)
}

/// One caller has no or: its delay starts the body.
#[test]
fn the_cells_of_one_call() {
    let (cells, finish) = cells_of(program([tick(3)], call(0, 2)));
    assert_eq!(cells[3..5], [delay(3, 4), delay(2, 0)]);
    assert_eq!(cells[29..], [returns(4, 3)]);
    assert_eq!(finish, 29);
}

/// The walk of the body comes first, and begins with its callers' or.
#[test]
fn the_cells_of_two_callers() {
    let twice = sequence(call(0, 2), call(0, 4));
    let (cells, finish) = cells_of(program([count_up()], twice));
    let delays = [delay(16, 31), delay(1, 3), delay(2, 0), delay(4, 35)];
    assert_eq!(cells[3..7], delays);
    assert_eq!(cells[7], Cell::new(40, 0, 3, 34));
    let walk = [
        or(5, 6),
        Cell::new(1, 0, 1, 0),
        Cell::new(4, 0, 7, 32),
        Cell::new(41, 0, 3, 33),
        returns(5, 4),
        returns(6, 4),
    ];
    assert_eq!(cells[31..], walk);
    assert_eq!(finish, 36);
}

/// Procedure 0 is called by procedure 1 and twice by the main program: its ors
/// join delays in node order, that of the body first. A body of time 0 has its
/// start as its finish.
#[test]
fn callers_are_joined_in_node_order_over_all_nodes() {
    let main = sequence(call(0, 2), sequence(call(1, 3), call(0, 4)));
    let (cells, finish) = cells_of(program([ok(), call(0, 1)], main));
    // Delays: 3 in body 1, 4 to 6 in the main program. The walk begins at 31.
    let delays = [delay(1, 5), delay(2, 0), delay(3, 34), delay(4, 35)];
    assert_eq!(cells[3..7], delays);
    let walk = [
        or(3, 4),
        or(31, 6),
        returns(3, 32),
        returns(4, 32),
        returns(5, 33),
        returns(6, 32),
    ];
    assert_eq!(cells[31..], walk);
    assert_eq!(finish, 36);
}

#[test]
fn a_body_that_is_never_called_starts_from_ground() {
    let (cells, finish) = cells_of(program([tick(5), ok()], ok()));
    assert_eq!(cells[3], delay(5, 1));
    assert_eq!((cells.len(), finish), (28, 0));
}

/// The number of procedures is looked at with the length, before the nodes.
#[test]
fn more_than_eight_procedures_are_refusal_1() {
    let all = |count: usize| ok().repeat(count + 1);
    assert_eq!(check(8, &all(8)), Ok(()));
    assert_eq!(check(9, &all(9)), refused(1, 0));
    assert_eq!(check(usize::MAX, &all(9)), refused(1, 0));
    assert_eq!(check(256, &ok()), refused(1, 0));
    assert_eq!(check(9, &node(255, 0, 0)), refused(1, 0));
    let given = Given {
        table: Some(&[]),
        ..Given::procedures(9)
    };
    assert_eq!((BOTH.check)(given, &ok()).result, refused(19, 0));
}

/// The bodies stand within the 200 nodes.
#[test]
fn two_hundred_nodes_hold_bodies_and_main() {
    let of_nodes = |ticks: usize| {
        let chain = (1..ticks).fold(tick(1), |rest, _| sequence(tick(1), rest));
        program([tick(1)], chain)
    };
    let (procedures, program) = of_nodes(100);
    assert_eq!(program.len(), 800);
    assert_eq!(check(procedures, &program), Ok(()));
    assert_refused(of_nodes(101), 1, 0);
}

/// As many statements as there are procedures, and then one.
#[test]
fn each_root_is_a_statement() {
    assert_eq!(check(1, &ok()), refused(6, 1));
    assert_eq!(check(3, &ok().repeat(2)), refused(6, 2));
    assert_eq!(check(0, &ok().repeat(2)), refused(6, 1));
    assert_eq!(check(1, &ok().repeat(3)), refused(6, 2));
    assert_refused(program([constant(1)], ok()), 5, 0);
    assert_refused(program([ok()], constant(1)), 5, 1);
    assert_refused(program([tick(1), variable(3)], ok()), 5, 1);
    assert_eq!(
        check(1, &[tick(1), sequence(ok(), vec![])].concat()),
        refused(6, 3)
    );
}

#[test]
fn a_call_has_a_delay_a_number_and_no_children() {
    assert_refused(program([ok()], call(0, 0)), 7, 1);
    assert_refused(program([ok()], [call(0, 1), ok()].concat()), 6, 2);
    assert_refused(program([ok()], assign(0, call(0, 1), 1)), 5, 2);
    assert_eq!(check(1, &[ok(), call(0, 255)].concat()), Ok(()));
}

#[test]
fn calls_of_itself_a_later_and_an_absent_procedure_are_24() {
    assert_refused(program([call(0, 1)], ok()), 24, 0);
    assert_refused(program([tick(1), call(1, 1)], ok()), 24, 1);
    assert_refused(program([call(1, 1), ok()], ok()), 24, 0);
    assert_refused(
        program([ok(), sequence(ok(), call(2, 1)), ok()], ok()),
        24,
        3,
    );
    for absent in [1, 2, 255, 256, 65_535] {
        assert_refused(program([ok()], call(absent, 1)), 24, 1);
    }
    assert_eq!(check(0, &call(0, 1)), refused(24, 0));
    let first = sequence(call(0, 1), sequence(call(4, 1), call(3, 1)));
    assert_refused(program([ok()], first), 24, 4);
}

#[test]
fn an_exit_stays_within_its_body() {
    let around = loop_of(1, call(0, 1));
    assert_refused(program([exit()], around.clone()), 22, 0);
    let body = if_then_else(variable(0), 0, exit(), ok());
    assert_refused(program([ok(), body], around), 22, 3);
    let own = program(
        [loop_of(1, exit())],
        loop_of(1, sequence(call(0, 1), exit())),
    );
    assert_eq!(check(own.0, &own.1), Ok(()));
}

#[test]
fn refusals_come_in_their_order() {
    // 6 before 24, 22 before an earlier 24, 24 before an earlier 7.
    assert_refused(program([], [call(5, 1), ok()].concat()), 6, 1);
    assert_refused(program([], sequence(call(5, 1), exit())), 22, 2);
    assert_refused(program([], sequence(tick(0), call(5, 1))), 24, 2);
    // 7 before an earlier 25.
    let shared = || parallel(call(0, 1), call(0, 1));
    assert_refused(program([ok()], sequence(shared(), tick(0))), 7, 5);
    // 25 before an earlier 8.
    let clash = || parallel(set(0, 1), set(0, 2));
    assert_refused(program([ok()], sequence(clash(), shared())), 25, 7);
    assert_refused(program([ok(), clash()], shared()), 25, 6);
    assert_refused(program([ok(), clash()], call(1, 1)), 8, 1);
}

#[test]
fn a_procedure_that_both_sides_reach_is_25() {
    assert_refused(program([ok()], parallel(call(0, 1), call(0, 1))), 25, 1);
    let through = parallel(call(0, 1), call(1, 1));
    assert_refused(program([ok(), call(0, 1)], through.clone()), 25, 2);
    assert_eq!(check(2, &[ok(), tick(1), through].concat()), Ok(()));
    // Two calls deep, on both sides.
    let deep = [ok(), call(0, 1), call(0, 1), call(1, 1)];
    let sides = parallel(call(2, 1), call(3, 1));
    assert_refused(program(deep, sides), 25, 4);
    // Twice on one side.
    let twice = parallel(sequence(call(0, 1), call(0, 1)), tick(1));
    assert_eq!(check(1, &[ok(), twice].concat()), Ok(()));
    // The outer of two nodes, or the inner one.
    let inner = || parallel(call(0, 1), call(0, 1));
    assert_refused(program([ok()], parallel(call(0, 1), inner())), 25, 1);
    assert_refused(program([ok()], parallel(tick(1), inner())), 25, 3);
    // In a body that nobody calls.
    assert_refused(program([ok(), inner()], ok()), 25, 1);
}

#[test]
fn refusal_8_looks_through_calls() {
    let copy = || assign(1, variable(0), 1);
    for sides in [parallel(call(0, 1), copy()), parallel(copy(), call(0, 1))] {
        assert_refused(program([set(0, 1)], sides), 8, 2);
    }
    // Two calls deep.
    let deep = [copy(), call(0, 1)];
    assert_refused(program(deep, parallel(set(0, 1), call(1, 1))), 8, 3);
    // Reading on both sides is free, and so is what another body does.
    let reads = [copy(), assign(2, variable(0), 1)];
    let both = parallel(call(0, 1), call(1, 1));
    assert_eq!(check(2, &[reads.concat(), both].concat()), Ok(()));
    let writes = [set(0, 1), ok()];
    let other = parallel(call(1, 1), copy());
    assert_eq!(check(2, &[writes.concat(), other].concat()), Ok(()));
}

/// All calls that take a program are given the number, texts among them: a text
/// has one statement, so that there are none for the procedures.
#[test]
fn every_call_is_given_the_number() {
    let (procedures, program) = program([tick(3)], call(0, 2));
    let given = Given::procedures(procedures);
    let (file, state) = ([0; 512], [0; 5_000]);
    let ran = (BOTH.run_program)(given, &program, &START, BUDGET, &file, &state);
    assert_eq!(ran.result.map(|answer| answer.instant), Ok(5));
    let ended = (BOTH.reference_run)(given, &program, &START, BUDGET).result;
    assert_eq!(ended.map(|end| end.map(|end| end.instant)), Ok(Some(5)));
    let none = Given::NOTHING;
    let left = (BOTH.reference_run)(none, &program, &START, BUDGET).result;
    assert_eq!(left, refused(6, 1));
    let left = (BOTH.run_program)(none, &program, &START, BUDGET, &file, &state);
    assert_eq!(left.result, refused(6, 1));
    assert_eq!((BOTH.compile)(none, &program, &file).result, refused(6, 1));
    for (given, refusal) in [
        (given, refused(6, 1)),
        (Given::procedures(9), refused(1, 0)),
    ] {
        let text = b"ok";
        let read = (BOTH.read_text)(given, text, &[0; 4]).result;
        assert_eq!(read.map(drop), refusal);
        let compiled = (BOTH.compile_text)(given, text, &file).result;
        assert_eq!(compiled.map(drop), refusal);
        let ran = (BOTH.run_text)(given, text, &START, 1, &file, &state).result;
        assert_eq!(ran.map(drop), refusal);
    }
}

/// hubrun is given no number.
#[test]
fn hubrun_has_no_procedures() {
    let input = |program: Vec<u8>| [vec![0; 32], vec![100, 0, 0, 0], program].concat();
    let printed = |program: Vec<u8>| (BOTH.hubrun_text)(&input(program));
    assert_eq!(printed(call(0, 1)), b"refused 24 0\n");
    assert_eq!(printed([tick(3), call(0, 2)].concat()), b"refused 6 1\n");
}
