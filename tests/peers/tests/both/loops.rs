//! Loops and exits: when a loop ends by the rules and by the circuit, the cells
//! of its exits, and refusal 22.

use crate::expect::{read, refused, start_with, words_with};
use crate::nodes::*;
use peers::BOTH;
use values::{Cell, Format, Given, Refusal, Words};

/// A budget above the end of every program here that has one.
const BUDGET: u32 = 2_000;

/// The instant and the words at a program's end, on which rules and circuit
/// agree; none of an open run.
fn end_of<const COUNT: usize>(program: &[u8], first: [u16; COUNT]) -> Option<(u32, Words)> {
    let words = start_with(first);
    let (file, state) = ([0; 6_656], [0; 42_000]);
    let ran = (BOTH.run_program)(Given::NOTHING, program, &words, BUDGET, &file, &state);
    let answer = ran
        .result
        .unwrap_or_else(|refusal| panic!("{program:?}: {refusal}"));
    let end = answer.ended.then_some((answer.instant, answer.words));
    let by_the_rules = (BOTH.reference_run)(Given::NOTHING, program, &words, BUDGET).result;
    let told = by_the_rules.map(|end| end.map(|end| (end.instant, end.words)));
    assert_eq!(told, Ok(end), "{program:?}");
    end
}

/// The program ends at this instant with these words, all others 0.
fn assert_ends<const START: usize, const LAST: usize>(
    program: &[u8],
    start: [u16; START],
    instant: u32,
    last: [u16; LAST],
) {
    let expected = Some((instant, words_with(last)));
    assert_eq!(end_of(program, start), expected, "{program:?}");
}

fn assert_open(program: &[u8]) {
    assert_eq!(end_of(program, [1, 1]), None, "{program:?}");
}

fn check(program: &[u8]) -> Result<(), Refusal> {
    (BOTH.check)(Given::NOTHING, program).result
}

/// x := n, which takes 2.
fn set(x: u16, n: u16) -> Vec<u8> {
    assign(x, constant(n), 1)
}

/// x0 := x0 - 1, which takes 18.
fn count_down() -> Vec<u8> {
    assign(0, difference(variable(0), constant(1)), 17)
}

/// An exit unless x0 holds.
fn exit_at_0() -> Vec<u8> {
    if_then_else(variable(0), 0, ok(), exit())
}

/// An exit that comes after the setting of a word.
fn exit_after(x: u16, n: u16) -> Vec<u8> {
    sequence(set(x, n), exit())
}

#[test]
fn leaving_takes_no_time() {
    assert_ends(&loop_of(9, exit()), [], 0, [0]);
    assert_ends(&loop_of(255, sequence(tick(3), exit())), [], 3, [0]);
    let followed = sequence(loop_of(9, exit()), set(0, 5));
    assert_ends(&followed, [], 2, [5]);
}

/// Three rounds of 18, and 5 between two.
#[test]
fn going_round_takes_the_delay() {
    let program = loop_of(5, sequence(count_down(), exit_at_0()));
    assert_ends(&program, [3], 3 * 18 + 2 * 5, [0]);
    assert_ends(&program, [1], 18, [0]);
}

#[test]
fn a_body_may_take_no_time() {
    let program = loop_of(1, exit_at_0());
    assert_ends(&program, [0], 0, [0]);
    assert_open(&program);
}

#[test]
fn the_first_of_several_exits_that_is_met_ends_the_loop() {
    let first = if_then_else(variable(0), 1, exit(), tick(2));
    let second = if_then_else(variable(1), 3, exit_after(2, 7), ok());
    let body = sequence(first, sequence(second, set(0, 1)));
    let program = loop_of(4, body);
    assert_ends(&program, [1, 1], 1, [1, 1]);
    assert_ends(&program, [1, 0], 1, [1, 0]);
    assert_ends(&program, [0, 1], 1 + 2 + 3 + 2, [0, 1, 7]);
    assert_ends(&program, [0, 0], 1 + 2 + 3 + 2 + 4 + 1, [1, 0]);
}

#[test]
fn exits_in_both_branches_end_the_loop() {
    let choice = if_then_else(variable(0), 3, exit_after(1, 6), exit_after(2, 7));
    let program = loop_of(4, sequence(choice, tick(50)));
    assert_ends(&program, [1], 5, [1, 6]);
    assert_ends(&program, [0], 5, [0, 0, 7]);
}

#[test]
fn what_follows_an_exit_does_not_run() {
    let dead = [
        set(0, 5),
        tick(9),
        exit(),
        loop_of(1, ok()),
        parallel(set(0, 5), set(1, 6)),
        while_do(constant(1), 1, ok()),
    ];
    for after in dead {
        let program = loop_of(1, sequence(exit(), after.clone()));
        assert_ends(&program, [3], 0, [3]);
        let deeper = loop_of(1, sequence(sequence(tick(2), exit()), after));
        assert_ends(&sequence(deeper, set(1, 7)), [3], 4, [3, 7]);
    }
    let at_times = loop_of(1, sequence(if_else_ok(exit()), set(0, 5)));
    assert_ends(&at_times, [1], 0, [1]);
    assert_ends(&at_times, [0], 3, [5]);
}

/// if x0 @0 then p else ok
fn if_else_ok(p: Vec<u8>) -> Vec<u8> {
    if_then_else(variable(0), 0, p, ok())
}

#[test]
fn an_exit_leaves_all_that_is_around_it_up_to_its_loop() {
    let held = || constant(1);
    assert_ends(&loop_of(9, while_do(held(), 2, exit())), [], 2, [0]);
    assert_ends(&loop_of(9, repeat_until(exit(), held(), 7)), [], 0, [0]);
    let branch = if_then_else(constant(0), 3, ok(), exit());
    assert_ends(&loop_of(9, branch), [], 3, [0]);
    let inner = if_then_else(held(), 3, sequence(exit(), tick(50)), ok());
    let repeated = repeat_until(sequence(inner, tick(50)), held(), 7);
    let all = loop_of(9, sequence(while_do(held(), 2, repeated), tick(50)));
    assert_ends(&sequence(all, tick(4)), [], 2 + 3 + 4, [0]);
}

/// While and repeat go round, by their own delays, until the exit.
#[test]
fn an_exit_is_met_in_a_later_round_of_a_while_or_repeat() {
    let body = || sequence(count_down(), exit_at_0());
    let by_while = loop_of(9, while_do(constant(1), 2, body()));
    assert_ends(&by_while, [3], 3 * (2 + 18), [0]);
    let by_repeat = loop_of(9, repeat_until(body(), constant(0), 7));
    assert_ends(&by_repeat, [3], 3 * 18 + 2 * 7, [0]);
}

#[test]
fn an_exit_ends_the_innermost_loop_alone() {
    let inner = loop_of(9, sequence(tick(2), exit()));
    let body = sequence(inner, sequence(count_down(), exit_at_0()));
    assert_ends(&loop_of(4, body), [2], 2 * 20 + 4, [0]);
    let innermost = sequence(loop_of(9, exit()), exit_after(0, 7));
    let outermost = sequence(loop_of(9, innermost), exit_after(1, 8));
    assert_ends(&loop_of(9, outermost), [], 4, [7, 8]);
    let in_branch = if_then_else(variable(0), 1, loop_of(5, exit()), exit());
    let program = loop_of(3, sequence(in_branch, set(0, 0)));
    assert_ends(&program, [1], 1 + 2 + 3 + 1, [0]);
}

#[test]
fn a_loop_without_exits_never_ends() {
    let ever = || loop_of(1, ok());
    let endless = [
        ever(),
        loop_of(3, count_down()),
        loop_of(1, loop_of(1, exit())),
        loop_of(2, sequence(loop_of(1, exit()), tick(1))),
        loop_of(1, sequence(ever(), exit())),
        sequence(ever(), set(0, 5)),
        parallel(ever(), set(0, 5)),
        parallel(set(0, 5), ever()),
        if_else_ok(ever()),
    ];
    for program in endless {
        assert_open(&program);
    }
    assert_ends(&if_else_ok(ever()), [0], 0, [0]);
}

/// Nothing after an endless loop is begun, so its words stay.
#[test]
fn what_follows_an_endless_loop_does_not_run() {
    let program = sequence(loop_of(1, tick(1)), set(0, 5));
    let (file, state) = ([0; 1_024], [0; 5_000]);
    let ran = (BOTH.run_program)(
        Given::NOTHING,
        &program,
        &start_with([3]),
        BUDGET,
        &file,
        &state,
    );
    let answer = ran.result.expect("it is accepted");
    assert!(!answer.ended);
    assert_eq!(answer.words, words_with([3]));
}

#[test]
fn the_sides_of_a_parallel_node_may_be_loops() {
    let side = |x: u16, d: u8| loop_of(9, sequence(tick(d), exit_after(x, 7)));
    assert_ends(&parallel(side(0, 3), side(1, 8)), [], 10, [7, 7]);
    let around = loop_of(4, sequence(parallel(side(0, 3), ok()), exit()));
    assert_ends(&around, [], 5, [7]);
    let again = sequence(parallel(side(1, 3), tick(7)), count_down());
    let rounds = loop_of(4, sequence(again, exit_at_0()));
    assert_ends(&rounds, [2], 2 * (7 + 18) + 4, [0, 7]);
}

/// A loop that is left at each even number, within a while.
#[test]
fn a_loop_is_begun_again_after_it_is_left() {
    let odd = operation(6, variable(0), constant(1));
    let inner = loop_of(
        2,
        sequence(count_down(), if_then_else(odd, 1, ok(), exit())),
    );
    let program = while_do(variable(0), 1, inner);
    let round = 1 + 18 + 1 + 2 + 18 + 1;
    assert_ends(&program, [4], 2 * round + 1, [0]);
}

/// From a loop's end on, its circuit rests.
#[test]
fn nothing_goes_round_after_the_end() {
    let program = loop_of(5, sequence(count_down(), exit_at_0()));
    let compiled = (BOTH.compile)(Given::NOTHING, &program, &[0; 512]);
    let begun = (BOTH.begin)(
        Format::Full,
        &compiled.lent[0],
        &start_with([2]),
        &[0; 5_000],
    );
    let ended = (BOTH.continue_by)(Format::Full, &compiled.lent[0], BUDGET, &begun.lent[0]);
    let end = ended.result.expect("it is continued");
    assert_eq!((end.ended, end.instant), (true, 41));
    let later = (BOTH.continue_by)(Format::Full, &compiled.lent[0], BUDGET, &ended.lent[0]);
    let answer = later.result.expect("it is continued");
    assert_eq!((answer.ended, answer.instant), (false, 41 + BUDGET));
    assert_eq!(answer.words, end.words);
}

/// The delay cells of a program, those of its walk, and its finish. There are
/// 24 cells of memories and arrays between them.
fn cells_of(program: &[u8], delays: usize) -> (Vec<Cell>, Vec<Cell>, u16) {
    let compiled = (BOTH.compile)(Given::NOTHING, program, &[0; 512]);
    let shape = compiled.result.expect("it is accepted");
    let count = usize::from(shape.cells);
    let lent = vec![Cell::new(0, 0, 0, 0); count];
    let cells = (BOTH.read_cells)(&compiled.lent[0], 0, &lent).lent[0].clone();
    let (delays, walk) = (&cells[3..3 + delays], &cells[3 + delays + 24..]);
    (delays.to_vec(), walk.to_vec(), shape.finish)
}

fn delay(d: u8, a: u16) -> Cell {
    Cell::new(34, d, a, 0)
}

fn or(a: u16, b: u16) -> Cell {
    Cell::new(35, 0, a, b)
}

#[test]
fn the_finish_of_a_loop_with_one_exit_is_where_that_starts() {
    let expected = (vec![delay(9, 1)], vec![or(0, 3)], 28);
    assert_eq!(cells_of(&loop_of(9, exit()), 1), expected);
    let expected = (vec![delay(9, 1), delay(2, 29)], vec![or(0, 3)], 4);
    let ticked = loop_of(9, sequence(tick(2), exit()));
    assert_eq!(cells_of(&ticked, 2), expected);
}

#[test]
fn the_finish_of_a_loop_without_exits_is_ground() {
    let expected = (vec![delay(9, 28)], vec![or(0, 3)], 1);
    assert_eq!(cells_of(&loop_of(9, ok()), 1), expected);
    let nested = loop_of(1, loop_of(2, exit()));
    let delays = vec![delay(1, 30), delay(2, 1)];
    let expected = (delays, vec![or(0, 3), or(29, 4)], 1);
    assert_eq!(cells_of(&nested, 2), expected);
}

/// The last of them starts from ground, since nothing comes to it.
#[test]
fn several_exits_are_joined_in_node_order() {
    let program = loop_of(1, sequence(exit(), exit()));
    let expected = (vec![delay(1, 1)], vec![or(0, 3), or(28, 1)], 29);
    assert_eq!(cells_of(&program, 1), expected);
    let branches = if_then_else(variable(0), 0, exit(), sequence(exit(), exit()));
    let switches = [Cell::new(36, 0, 28, 4), Cell::new(37, 0, 28, 4)];
    let ors = [or(1, 1), or(29, 30), or(32, 1)];
    let walk = [&[or(0, 3)], &switches[..], &ors].concat();
    let expected = (vec![delay(1, 31)], walk, 33);
    assert_eq!(cells_of(&loop_of(1, branches), 1), expected);
}

/// The exits of an inner loop are joined before those of the outer one, and are
/// none of them.
#[test]
fn each_loop_joins_its_own_exits() {
    let twice = || sequence(exit(), exit());
    let program = loop_of(1, sequence(exit(), sequence(loop_of(2, twice()), exit())));
    let walk = vec![or(0, 3), or(1, 4), or(30, 1), or(29, 31)];
    let expected = (vec![delay(1, 1), delay(2, 1)], walk, 32);
    assert_eq!(cells_of(&program, 2), expected);
}

#[test]
fn an_exit_without_a_loop_around_it_is_22() {
    assert_eq!(check(&exit()), refused(22, 0));
    let held = || constant(1);
    let without = [
        (sequence(ok(), exit()), 2),
        (while_do(held(), 1, exit()), 2),
        (repeat_until(exit(), held(), 1), 2),
        (if_then_else(held(), 0, exit(), ok()), 2),
        (if_then_else(held(), 0, ok(), exit()), 3),
        (parallel(exit(), ok()), 1),
        (sequence(loop_of(1, exit()), exit()), 3),
        (sequence(exit(), loop_of(1, exit())), 1),
    ];
    for (program, place) in without {
        assert_eq!(check(&program), refused(22, place), "{program:?}");
    }
}

#[test]
fn a_parallel_node_between_an_exit_and_its_loop_is_22() {
    let held = || constant(1);
    let between = [
        (loop_of(1, parallel(exit(), ok())), 2),
        (loop_of(1, parallel(ok(), exit())), 3),
        (loop_of(1, sequence(exit(), parallel(ok(), exit()))), 5),
        (loop_of(1, parallel(ok(), while_do(held(), 1, exit()))), 5),
        (loop_of(1, while_do(held(), 1, parallel(exit(), ok()))), 4),
        (loop_of(1, parallel(loop_of(1, exit()), exit())), 4),
        (loop_of(1, parallel(exit(), loop_of(1, exit()))), 2),
        (loop_of(1, loop_of(1, parallel(exit(), ok()))), 3),
    ];
    for (program, place) in between {
        assert_eq!(check(&program), refused(22, place), "{program:?}");
    }
    let within = loop_of(1, parallel(loop_of(1, exit()), ok()));
    assert_eq!(check(&within), Ok(()));
    let beside = loop_of(1, sequence(parallel(ok(), ok()), exit()));
    assert_eq!(check(&beside), Ok(()));
}

#[test]
fn the_first_exit_of_several_is_the_place_of_22() {
    let two = sequence(exit(), exit());
    assert_eq!(check(&two), refused(22, 1));
    let good_first = sequence(loop_of(1, exit()), sequence(exit(), exit()));
    assert_eq!(check(&good_first), refused(22, 4));
    let between = loop_of(1, parallel(exit(), exit()));
    assert_eq!(check(&sequence(between, exit())), refused(22, 3));
}

/// Two sides that both write x0.
fn clash() -> Vec<u8> {
    parallel(set(0, 1), set(0, 2))
}

#[test]
fn refusal_22_comes_after_6_and_before_7() {
    assert_eq!(check(&[exit(), ok()].concat()), refused(6, 1));
    assert_eq!(check(&[node(19, 0, 0), exit()].concat()), refused(6, 2));
    assert_eq!(check(&sequence(exit(), constant(1))), refused(5, 2));
    assert_eq!(check(&sequence(exit(), tick(0))), refused(22, 1));
    assert_eq!(check(&sequence(tick(0), exit())), refused(22, 2));
    assert_eq!(check(&sequence(clash(), exit())), refused(22, 6));
    let nothing_to_22 = sequence(clash(), sequence(tick(0), loop_of(1, exit())));
    assert_eq!(check(&nothing_to_22), refused(7, 7));
    let table_first = (BOTH.check)(Given::table(Some(&[])), &exit()).result;
    assert_eq!(table_first, refused(19, 0));
    let ran = (BOTH.run_program)(Given::NOTHING, &exit(), &[], BUDGET + 1_000_000, &[], &[]);
    assert_eq!(ran.result, refused(22, 0));
}

#[test]
fn dead_code_is_refused_as_other_code_is() {
    let after_exit = |dead| check(&loop_of(1, sequence(exit(), dead)));
    assert_eq!(after_exit(tick(0)), refused(7, 3));
    assert_eq!(after_exit(clash()), refused(8, 3));
    assert_eq!(after_exit(parallel(exit(), ok())), refused(22, 4));
    assert_eq!(after_exit(constant(0)), refused(5, 3));
}

#[test]
fn a_loop_has_a_delay_and_a_child_and_an_exit_nothing() {
    assert_eq!(check(&loop_of(0, exit())), refused(7, 0));
    assert_eq!(check(&loop_of(1, loop_of(0, exit()))), refused(7, 1));
    assert_eq!(check(&[node(25, 1, 1), exit()].concat()), refused(3, 0));
    assert_eq!(check(&loop_of(1, node(26, 1, 0))), refused(3, 1));
    assert_eq!(check(&loop_of(1, node(26, 0, 1))), refused(3, 1));
    assert_eq!(check(&loop_of(1, node(28, 0, 0))), refused(2, 1));
    assert_eq!(check(&node(25, 1, 0)), refused(6, 1));
    assert_eq!(check(&loop_of(1, constant(1))), refused(5, 1));
    assert_eq!(check(&assign(0, exit(), 1)), refused(5, 1));
    assert_eq!(check(&assign(0, loop_of(1, exit()), 1)), refused(5, 1));
    assert_eq!(check(&while_do(exit(), 1, ok())), refused(5, 1));
}

/// Loops 66 deep, each left after the one in it: 199 nodes.
#[test]
fn loops_may_nest_as_deep_as_there_are_nodes() {
    let nested = (0..66).fold(exit(), |inner, _| loop_of(255, sequence(inner, exit())));
    assert_eq!(nested.len(), 4 * 199);
    assert_ends(&nested, [], 0, [0]);
    let endless = (0..199).fold(exit(), |inner, _| loop_of(1, inner));
    assert_eq!(endless.len(), 4 * 200);
    assert_open(&endless);
}

#[test]
fn there_are_no_words_for_loops_and_exits() {
    for text in ["exit", "loop ok @1 end", "loop"] {
        assert_eq!(read(text), refused(17, 0), "{text:?}");
    }
    assert_eq!(read("ok; exit"), refused(17, 4));
}
