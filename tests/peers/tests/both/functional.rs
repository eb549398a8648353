//! Functional circuits of programs: their ends, by the functional rules and by the
//! circuits of both compilers on states of both formats, instant by instant; their
//! last words; from a beginning and from second starts, each from the start words.

use crate::expect::{start_with, words_with, START};
use crate::nodes::*;
use crate::run::*;
use peers::{Peer, BOTH, PROVED, SECOND};
use second::netfile;
use values::{Circuit, Format, Table, Words};

/// How far a run is looked at after its end.
const AFTER: u32 = 12;

/// The netlist files of both compilers, of an accepted program.
pub fn compiled(table: Table, program: &[u8]) -> [Vec<u8>; 2] {
    let agreed = (BOTH.functional.compile)(table, program, &vec![0; 100_352]);
    agreed.result.expect("it is accepted");
    [PROVED, SECOND].map(|peer| compiled_by(&peer, table, program))
}

fn compiled_by(peer: &Peer, table: Table, program: &[u8]) -> Vec<u8> {
    let compiled = (peer.functional.compile)(table, program, &vec![0; 100_352]);
    let shape = compiled.result.expect("it is accepted");
    let length = 512 * usize::from(shape.cells).div_ceil(84);
    compiled.lent[0][..length].to_vec()
}

/// Runs of a program's circuits by both compilers, on states of both formats.
pub fn runs(program: &[u8], words: &[u8]) -> Vec<Run> {
    let begun = |file: Vec<u8>| {
        Format::BOTH.map(|format| Run::begin_of(Circuit::Functional, format, &file, words))
    };
    let files = compiled(None, program).into_iter();
    files.flat_map(begun).collect()
}

/// A program's end and last words, by the rules and by each circuit, whose finish
/// is high at that instant and at no other, from a beginning and from two starts.
fn assert_ends(program: &[u8], words: &[u8], end: u32, last: Words) {
    let ended = (BOTH.functional.reference_run)(None, program, words, 10_000).result;
    let ended = ended.expect("it is accepted").expect("it ends");
    assert_eq!((ended.instant, ended.words), (end, last));
    let early = (BOTH.functional.reference_run)(None, program, words, end.saturating_sub(1));
    assert_eq!(early.result.is_ok_and(|found| found.is_none()), end > 0);
    for mut run in runs(program, words) {
        assert_run(&mut run, words, 0, end, last);
        let second = AFTER + end + 1;
        run.start();
        assert_run(&mut run, words, second, second + end, last);
    }
    assert_starts_at_once(program, words, end, last);
    assert_full_runs(program, words, end, last);
}

/// The instants of a run from a pulse on, up to some after its end.
fn assert_run(run: &mut Run, words: &[u8], pulse: u32, end: u32, last: Words) {
    for instant in pulse..=end + AFTER {
        let answer = run.go(u32::from(instant > pulse));
        let name = format!("{:?}, at {instant}", run.format);
        assert_eq!(
            (answer.ended, answer.instant),
            (instant == end, instant),
            "{name}"
        );
        assert_eq!(run.in_flight() == 0, instant >= end, "{name}");
        if instant >= end {
            assert_eq!(answer.words, last, "{name}");
        }
        assert_memories_keep(run, words);
    }
}

/// Memories and elements are those of the start.
fn assert_memories_keep(run: &Run, words: &[u8]) {
    let netlist = netfile::read(&run.file).expect("a good netlist");
    let memories = netlist.memories().into_iter();
    let shown: Vec<u8> = memories
        .flat_map(|memory| run.word(memory as u16).to_le_bytes())
        .collect();
    assert_eq!(shown, words[..32]);
    assert!(run.state.ends_with(&words[32..]));
}

/// A start in the instant after the end, three times over.
fn assert_starts_at_once(program: &[u8], words: &[u8], end: u32, last: Words) {
    for mut run in runs(program, words) {
        run.go(end);
        for times in 1..=3 {
            let pulse = times * (end + 1);
            let started = run.start();
            assert_eq!((started.ended, started.instant), (end == 0, pulse));
            let answer = if end == 0 { started } else { run.go(10_000) };
            assert_eq!((answer.ended, answer.instant), (true, pulse + end));
            assert_eq!(answer.words, last);
        }
    }
}

/// Full runs of the program and of its netlists, with just enough instants and with
/// one too few.
fn assert_full_runs(program: &[u8], words: &[u8], end: u32, last: Words) {
    let (file, state) = (vec![0; 100_352], vec![0; 300_000]);
    for budget in [end, end + 7, 10_000] {
        let ran = (BOTH.functional.run_program)(None, program, words, budget, &file, &state);
        let ran = ran.result.expect("it is accepted");
        assert_eq!((ran.ended, ran.instant, ran.count), (true, end, end + 1));
        assert_eq!(ran.words, last);
        for file in compiled(None, program) {
            let netlist = (BOTH.functional.run_netlist)(&file, words, budget, &state);
            assert_eq!(netlist.result, Ok(ran));
        }
    }
    if end > 0 {
        let ran = (BOTH.functional.run_program)(None, program, words, end - 1, &file, &state);
        let ran = ran.result.expect("it is accepted");
        assert_eq!((ran.ended, ran.instant, ran.count), (false, end - 1, end));
    }
}

/// From words of which the first are these.
fn assert_ends_from<const FROM: usize, const TO: usize>(
    program: &[u8],
    first: [u16; FROM],
    end: u32,
    last: [u16; TO],
) {
    assert_ends(program, &start_with(first), end, words_with(last));
}

/// x0 := x0 - 1, which takes 17.
fn count_down() -> Vec<u8> {
    assign(0, difference(variable(0), constant(1)), 17)
}

#[test]
fn ok_and_tick_hand_on_the_start_words() {
    let all: Words = std::array::from_fn(|k| 4_000 * k as u16 + 1);
    let mut words = START.to_vec();
    words[..32].copy_from_slice(&all.map(u16::to_le_bytes).concat());
    words[32..].fill(0x5a);
    assert_ends(&ok(), &words, 0, all);
    assert_ends(&tick(1), &words, 1, all);
    assert_ends(&tick(255), &words, 255, all);
    assert_ends(&sequence(tick(2), parallel(tick(3), ok())), &words, 5, all);
}

#[test]
fn an_assignment_takes_its_delay() {
    assert_ends_from(&assign(0, constant(5), 1), [0], 1, [5]);
    assert_ends_from(&assign(15, constant(5), 255), [9], 255, {
        let mut last = [0; 16];
        (last[0], last[15]) = (9, 5);
        last
    });
    let twice = sequence(
        assign(0, sum(variable(0), constant(3)), 16),
        assign(0, sum(variable(0), constant(4)), 16),
    );
    assert_ends_from(&twice, [0], 32, [7]);
    assert_ends_from(&twice, [65_530], 32, [1]);
    // A word that it already has.
    assert_ends_from(&assign(0, variable(0), 1), [7], 1, [7]);
}

/// x2 := x0; x0 := x1; x1 := x2, whose words are all those of the start.
#[test]
fn words_are_handed_on_as_they_were() {
    let swap = sequence(
        assign(2, variable(0), 1),
        sequence(assign(0, variable(1), 1), assign(1, variable(2), 1)),
    );
    assert_ends_from(&swap, [5, 6, 7], 3, [6, 5, 5]);
}

#[test]
fn sides_take_the_larger_time_and_each_gives_its_words() {
    for (p, q) in [(3, 5), (5, 3), (5, 5)] {
        assert_ends_from(&parallel(tick(p), tick(q)), [1], 5, [1]);
        let written = parallel(assign(0, constant(8), p), assign(1, variable(2), q));
        assert_ends_from(&written, [1, 2, 3, 4], 5, [8, 3, 3, 4]);
    }
    assert_ends_from(&parallel(ok(), ok()), [1], 0, [1]);
    // The side that is over soon keeps its words; the other one goes round.
    let down = while_do(variable(0), 1, count_down());
    assert_ends_from(
        &parallel(down.clone(), assign(1, constant(9), 1)),
        [2],
        40,
        [0, 9],
    );
    assert_ends_from(&parallel(assign(1, constant(9), 1), down), [2], 40, [0, 9]);
}

#[test]
fn an_if_takes_its_delay_and_its_branch() {
    let choice = if_then_else(variable(0), 0, tick(1), tick(9));
    assert_ends_from(&choice, [0], 9, [0]);
    assert_ends_from(&choice, [65_535], 1, [65_535]);
    let timeless = if_then_else(variable(0), 0, ok(), ok());
    assert_ends_from(&timeless, [0], 0, [0]);
    assert_ends_from(&timeless, [3], 0, [3]);
    let delayed = if_then_else(variable(0), 4, assign(1, constant(7), 2), ok());
    assert_ends_from(&delayed, [1, 5], 6, [1, 7]);
    assert_ends_from(&delayed, [0, 5], 4, [0, 5]);
}

/// The words are those of the branch that ran, whatever the branch does to the words
/// of the condition, and after the finish too.
#[test]
fn the_words_of_an_if_are_selected_by_its_condition() {
    let turn = if_then_else(
        variable(0),
        0,
        assign(0, constant(0), 1),
        assign(0, constant(512), 1),
    );
    assert_ends_from(&turn, [1], 1, [0]);
    assert_ends_from(&turn, [0], 1, [512]);
    assert_ends_from(&sequence(turn.clone(), turn.clone()), [0], 2, [0]);
    assert_ends_from(&sequence(turn.clone(), turn), [256], 2, [512]);
    // A condition that isn't 0 or 1, and every bit of the words.
    let bits = if_then_else(
        variable(0),
        0,
        assign(1, constant(0xaaaa), 1),
        assign(1, constant(0x5555), 3),
    );
    assert_ends_from(&bits, [0x8000, 0xffff], 1, [0x8000, 0xaaaa]);
    assert_ends_from(&bits, [0, 0xffff], 3, [0, 0x5555]);
}

#[test]
fn ifs_within_ifs_select_once_each() {
    let leaf = |n| assign(2, constant(n), 1);
    let inner = |n| if_then_else(variable(1), 1, leaf(n), leaf(n + 1));
    let program = if_then_else(variable(0), 2, inner(10), inner(20));
    for (words, last) in [([1, 1], 10), ([1, 0], 11), ([0, 1], 20), ([0, 0], 21)] {
        assert_ends_from(&program, words, 4, [words[0], words[1], last]);
    }
}

/// From 3: four tests of 1 + 1, and three times 17.
#[test]
fn a_while_takes_an_instant_more_for_each_test() {
    let down = while_do(variable(0), 1, count_down());
    assert_ends_from(&down, [3], 59, [0]);
    assert_ends_from(&down, [0], 2, [0]);
    let with_tick = while_do(variable(0), 1, parallel(count_down(), tick(2)));
    assert_ends_from(&with_tick, [2], 40, [0]);
    // The longest delay, and an instant more.
    assert_ends_from(&while_do(constant(0), 255, ok()), [1], 256, [1]);
    assert_ends_from(&while_do(variable(0), 255, count_down()), [1], 529, [0]);
}

/// From 3: three rounds of 1, 17 and 6.
#[test]
fn a_repeat_takes_an_instant_more_for_each_run() {
    let done = || equal(variable(0), constant(0));
    let down = repeat_until(count_down(), done(), 6);
    assert_ends_from(&down, [3], 72, [0]);
    assert_ends_from(&down, [1], 24, [0]);
    assert_ends_from(&repeat_until(ok(), constant(1), 1), [7], 2, [7]);
    // The condition sees the words of P.
    let set = repeat_until(assign(0, constant(1), 1), variable(0), 1);
    assert_ends_from(&set, [0], 3, [1]);
}

/// Rounds of P: x1 := x1 + x0 and x0 := x0 - 1, 16 and 17; five of them.
#[test]
fn a_loop_hands_its_words_to_the_next_round() {
    let add = || sequence(assign(1, sum(variable(1), variable(0)), 16), count_down());
    let summed = while_do(variable(0), 1, add());
    assert_ends_from(&summed, [5, 100], 6 * 2 + 5 * 33, [0, 115]);
    let done = equal(variable(0), constant(0));
    let repeated = repeat_until(add(), done, 6);
    assert_ends_from(&repeated, [5, 100], 5 * (1 + 33 + 6), [0, 115]);
}

/// The inner latches are loaded anew in each round of the outer loop.
#[test]
fn a_loop_in_a_loop_starts_from_the_outer_words() {
    let inner = while_do(
        variable(1),
        1,
        assign(1, difference(variable(1), constant(1)), 17),
    );
    let round = sequence(
        assign(1, constant(2), 1),
        sequence(inner.clone(), count_down()),
    );
    // Of the inner one three tests and two bodies: 6 + 34.
    let nested = while_do(variable(0), 1, round);
    assert_ends_from(&nested, [2, 9], 3 * 2 + 2 * (1 + 40 + 17), [0, 0]);
    let inner_first = while_do(variable(0), 1, sequence(inner, count_down()));
    // The inner words are 0 from the first round on, so that one test is enough.
    assert_ends_from(&inner_first, [2, 1], 3 * 2 + (4 + 17) + 17 + 2 + 17, [0, 0]);
}

#[test]
fn loops_follow_loops_and_stand_in_branches() {
    let down = || while_do(variable(0), 1, count_down());
    let again = sequence(down(), sequence(assign(0, constant(1), 1), down()));
    assert_ends_from(&again, [1], 21 + 1 + 21, [0]);
    let branch = if_then_else(variable(1), 0, down(), assign(0, constant(9), 1));
    assert_ends_from(&branch, [1, 1], 21, [0, 1]);
    assert_ends_from(&branch, [1, 0], 1, [9, 0]);
    let done = equal(variable(0), constant(0));
    let choice = if_then_else(variable(1), 0, count_down(), assign(0, constant(0), 1));
    // A round of 1, 17 and 6 where x1 holds, and else of 1, 1 and 6.
    let repeated = repeat_until(choice, done, 6);
    assert_ends_from(&repeated, [2, 1], 48, [0, 1]);
    assert_ends_from(&repeated, [2, 0], 8, [0, 0]);
}

#[test]
fn what_has_no_end_stays_open() {
    let done = equal(variable(0), constant(0));
    for (program, first) in [
        (while_do(constant(1), 1, ok()), 0),
        (repeat_until(tick(1), constant(0), 1), 0),
        (repeat_until(count_down(), done, 6), 0),
        (parallel(tick(1), while_do(constant(2), 9, ok())), 0),
        (sequence(while_do(constant(1), 1, ok()), ok()), 0),
    ] {
        let words = start_with([first]);
        let ended = (BOTH.functional.reference_run)(None, &program, &words, 3_000);
        assert_eq!(ended.result, Ok(None));
        for mut run in runs(&program, &words) {
            let answer = run.go(3_000);
            assert_eq!(
                (answer.ended, answer.instant, answer.count),
                (false, 3_000, 3_000)
            );
            run.assert_start_refused(23);
        }
    }
}
