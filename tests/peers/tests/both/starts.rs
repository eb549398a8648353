//! A second start: when it may be given, what it answers, what it is refused
//! for, and that the program then runs anew from the words that it finds.

use crate::expect::{start_with, words_with, START};
use crate::netlist::{file_of_idle, FREE};
use crate::nodes::*;
use crate::run::*;
use peers::BOTH;
use second::cells::{DELAY, MERGE, OR};
use values::{Answer, Cell, Format};

/// The last instant of all.
const LAST: u32 = 1_000_000;

/// What an answer says but for its words.
fn told(answer: Answer) -> (bool, u32, u32) {
    (answer.ended, answer.instant, answer.count)
}

fn wired(cells: &[Cell], finish: u16) -> Run {
    Run::begin(&file_of_idle(cells, finish), &START)
}

/// x0 := x0 + 1, which takes 17.
fn count_up() -> Vec<u8> {
    assign(0, sum(variable(0), constant(1)), 16)
}

#[test]
fn a_start_is_refused_at_every_instant_before_the_end() {
    let mut run = Run::of_program(&tick(3), &START);
    for _ in 0..3 {
        run.assert_start_refused(23);
        run.go(1);
    }
    assert_eq!(told(run.start()), (false, 4, 1));
}

/// At 3 the finish is high; the pulse is at 4, and the end 3 later.
#[test]
fn right_at_the_end_a_start_may_be_given() {
    let mut run = Run::of_program(&tick(3), &START);
    assert_eq!(told(run.go(100)), (true, 3, 3));
    assert_eq!(told(run.start()), (false, 4, 1));
    assert_eq!((run.now(0), run.in_flight()), (1, 1));
    run.assert_start_refused(23);
    assert_eq!(told(run.go(100)), (true, 7, 3));
}

#[test]
fn after_the_end_a_start_may_be_given_at_any_instant() {
    for later in [1, 2, 255, 256, 257, 5_000] {
        let mut run = Run::of_program(&tick(3), &START);
        run.go(100);
        assert_eq!(told(run.go(later)), (false, 3 + later, later));
        assert_eq!(told(run.start()), (false, 4 + later, 1));
        assert_eq!(told(run.go(100)), (true, 7 + later, 3));
    }
}

/// Start is high for one instant, by whatever call the run goes on.
#[test]
fn the_pulse_lasts_one_instant() {
    let mut run = Run::of_program(&tick(3), &START);
    run.go(100);
    assert_eq!(run.now(0), 0);
    run.start();
    assert_eq!((run.now(0), run.state[at(0, AGO)]), (1, 0));
    run.go(1);
    assert_eq!((run.now(0), run.state[at(0, AGO)]), (0, 1));
    run.go(1);
    assert_eq!((run.now(0), run.state[at(0, AGO)]), (0, 0));
}

/// The finish of ok is its start, so that it is high at each of these instants.
#[test]
fn a_program_that_takes_no_time_ends_at_each_start() {
    let mut run = Run::of_program(&ok(), &START);
    for instant in 1..5 {
        assert_eq!(told(run.start()), (true, instant, 1));
        assert_eq!((run.now(0), run.in_flight()), (1, 0));
    }
    assert_eq!(told(run.go(10)), (false, 14, 10));
    assert_eq!(told(run.start()), (true, 15, 1));
}

/// From 5: 6 at 17, and 7 at 18 + 17.
#[test]
fn a_run_after_a_start_is_from_the_present_words() {
    let mut run = Run::of_program(&count_up(), &start_with([5, 9]));
    let first = run.go(100);
    assert_eq!(
        (told(first), first.words),
        ((true, 17, 17), words_with([6, 9]))
    );
    let started = run.start();
    assert_eq!(told(started), (false, 18, 1));
    assert_eq!(started.words, words_with([6, 9]));
    let second = run.go(100);
    assert_eq!(
        (told(second), second.words),
        ((true, 35, 17), words_with([7, 9]))
    );
    run.go(1_000);
    assert_eq!(told(run.start()), (false, 1_036, 1));
    let third = run.go(100);
    assert_eq!(
        (told(third), third.words),
        ((true, 1_053, 17), words_with([8, 9]))
    );
}

/// x0 := x0 + 1, then element x0 of array 0 becomes 100 + x0: 17 and 17.
#[test]
fn a_run_after_a_start_is_from_the_present_elements() {
    let hundred = sum(variable(0), constant(100));
    let store = assign_element(0, variable(0), hundred, 16);
    let mut run = Run::of_program(&sequence(count_up(), store), &START);
    for (index, start) in [(1, 0), (2, 35), (3, 70)] {
        if index > 1 {
            assert_eq!(told(run.start()), (false, start, 1));
        }
        assert_eq!(told(run.go(100)), (true, start + 34, 34));
        let elements: Vec<u16> = (0..5).map(|k| run.element(0, k)).collect();
        let expected = [0, 101, 102, 103, 0].map(|word| if word <= 100 + index { word } else { 0 });
        assert_eq!(elements, expected);
    }
}

/// a1[2] := a1[2] + a1[2], which takes 21: 3, 6, 12, 24.
#[test]
fn an_element_that_is_read_is_the_one_that_the_run_before_has_written() {
    let two = || element(1, constant(2));
    let double = assign_element(1, constant(2), sum(two(), two()), 20);
    let mut words = START;
    words[32 + 128 + 4] = 3;
    let mut run = Run::of_program(&double, &words);
    for (end, word) in [(21, 6), (43, 12), (65, 24)] {
        assert_eq!(run.go(1_000).instant, end);
        assert_eq!(run.element(1, 2), word);
        run.start();
    }
}

/// While x0 do x0 := x0 - 1: from 2 it ends at 39, and then it finds 0.
#[test]
fn a_run_after_a_start_may_take_another_time() {
    let down = assign(0, difference(variable(0), constant(1)), 17);
    let mut run = Run::of_program(&while_do(variable(0), 1, down), &start_with([2]));
    assert_eq!(told(run.go(100)), (true, 39, 39));
    assert_eq!(told(run.start()), (false, 40, 1));
    assert_eq!(told(run.go(100)), (true, 41, 1));
}

/// A loop that is left at once finishes with its start; one whose body takes no
/// time and is not left is never idle.
#[test]
fn loops_with_a_body_of_time_0_are_started_again_or_never_idle() {
    let left = loop_of(4, exit());
    let mut run = Run::of_program(&left, &START);
    for instant in 1..4 {
        assert_eq!(told(run.start()), (true, instant, 1));
    }
    let polling = loop_of(1, if_then_else(variable(0), 0, exit(), ok()));
    let mut run = Run::of_program(&polling, &start_with([1]));
    assert_eq!(told(run.start()), (true, 1, 1));
    for endless in [polling, loop_of(1, ok()), while_do(constant(1), 1, ok())] {
        let mut run = Run::of_program(&endless, &START);
        for n in [0, 1, 1, 50, 1_000] {
            run.go(n);
            run.assert_start_refused(23);
        }
    }
}

/// The sides of the second run wait for each other as those of the first did:
/// nothing is held from before.
#[test]
fn a_merge_holds_nothing_from_the_run_before() {
    let mut run = Run::of_program(&parallel(tick(3), tick(5)), &START);
    assert_eq!(told(run.go(100)), (true, 5, 5));
    assert_eq!(told(run.start()), (false, 6, 1));
    assert_eq!(run.in_flight(), 2);
    assert_eq!(told(run.go(3)), (false, 9, 3));
    assert_eq!(run.in_flight(), 2);
    assert_eq!(told(run.go(100)), (true, 11, 2));
}

/// A ring of 3 that start feeds, and a merge whose other side is ground.
#[test]
fn some_netlists_are_never_idle() {
    let ring = [Cell::new(DELAY, 3, FREE + 1, 0), Cell::new(OR, 0, 0, FREE)];
    let held = [Cell::new(MERGE, 0, 0, 1)];
    for cells in [&ring[..], &held] {
        let mut run = wired(cells, 1);
        for n in [0, 1, 2, 3, 997] {
            run.go(n);
            assert_eq!(run.in_flight(), 1);
            run.assert_start_refused(23);
        }
    }
}

/// No cell names start: a start shows on its own wire, and nowhere else.
#[test]
fn a_netlist_may_leave_start_unused() {
    let mut run = wired(&[Cell::new(DELAY, 2, FREE, 0)], FREE);
    for instant in 1..4 {
        assert_eq!(told(run.start()), (false, instant, 1));
        assert_eq!((run.now(0), run.in_flight()), (1, 0));
    }
    let before = run.state.clone();
    run.go(1);
    let changed = (8..before.len()).filter(|&place| before[place] != run.state[place]);
    assert_eq!(changed.collect::<Vec<_>>(), [at(0, NOW)]);
}

/// A netlist of no program may be idle with its finish low all the time.
#[test]
fn idle_is_told_by_the_number_and_not_by_the_finish() {
    let mut run = wired(&[Cell::new(DELAY, 2, 0, 0)], 1);
    run.assert_start_refused(23);
    assert_eq!(told(run.go(2)), (false, 2, 2));
    assert_eq!(told(run.start()), (false, 3, 1));
}

/// A high clock is no pulse in flight: the memories, which ground clocks, take
/// the data of the instant before in the instant of the start.
#[test]
fn a_start_is_an_instant_like_any_other_for_the_words() {
    let mut run = wired(&[], 0);
    run.go(1);
    run.state[at(1, NOW)] = 1;
    run.state[at(2, NOW)] = 77;
    let answer = run.start();
    assert_eq!((told(answer), answer.words), ((true, 2, 1), [77; 16]));
}

/// Bits that have come out of a line stay in it, and hinder no start.
#[test]
fn stale_bits_hinder_no_start() {
    let mut run = Run::of_program(&tick(3), &START);
    run.go(100);
    let delay = 3;
    assert_eq!(run.state[at(delay, LINE)], 0b1000);
    run.state[at(delay, LINE + 5)] = 0xff;
    assert_eq!(told(run.start()), (false, 4, 1));
    assert_eq!(run.state[at(delay, LINE)], 0b1_0001);
    assert_eq!(run.in_flight(), 1);
}

#[test]
fn the_instant_of_a_start_counts_for_16() {
    let mut idle = Run::of_program(&tick(3), &START);
    idle.go(100);
    for (instant, refusal) in [
        (LAST, Some(16)),
        (LAST + 1, Some(16)),
        (0x7fff_ffff, Some(16)),
        (0x8000_0000, Some(16)),
        (u32::MAX, Some(16)),
        (LAST - 1, None),
    ] {
        let mut run = idle.clone();
        run.tell_instant(instant);
        match refusal {
            Some(number) => run.assert_start_refused(number),
            None => assert_eq!(told(run.start()), (false, instant + 1, 1)),
        }
    }
}

/// A run that has come to the last instant by its calls.
#[test]
fn at_the_last_instant_no_start_may_be_given() {
    let mut run = Run::of_program(&tick(3), &START);
    run.go(100);
    run.go(LAST - 4);
    assert_eq!(told(run.start()), (false, LAST, 1));
    run.assert_start_refused(16);
    assert_eq!(told(run.go(0)), (false, LAST, 0));
    let mut run = Run::of_program(&ok(), &START);
    assert_eq!(told(run.go(LAST)), (false, LAST, LAST));
    run.assert_start_refused(16);
}

/// Everything is wrong at first, and one thing after the other is put right.
#[test]
fn refusals_come_in_the_order_14_15_16_23() {
    let mut run = Run::of_program(&tick(3), &START);
    run.tell_instant(LAST);
    run.tell_in_flight(2);
    let whole = run.state.clone();
    run.state.pop();
    run.assert_start_refused(14);
    run.state = whole;
    run.assert_start_refused(15);
    run.tell_in_flight(1);
    run.assert_start_refused(16);
    run.tell_instant(LAST - 1);
    run.assert_start_refused(23);
    run.state[at(3, LINE)] = 0;
    run.tell_in_flight(0);
    assert_eq!(told(run.start()), (false, LAST, 1));
}

#[test]
fn a_netlist_is_refused_before_its_state() {
    let run = Run::of_program(&tick(3), &START);
    let damaged = |place: usize| {
        let mut file = run.file.clone();
        file[place] ^= 1;
        file
    };
    for (file, number) in [(vec![], 9), (damaged(8), 10)] {
        let bad = Run {
            file,
            state: vec![0xa5; 3],
            ..run.clone()
        };
        bad.assert_start_refused(number);
    }
}

/// The length of the state is enough, and longer buffers keep what is past it.
#[test]
fn bytes_past_the_state_are_kept() {
    let mut run = Run::of_program(&tick(3), &START);
    run.go(100);
    let longer = [&run.state[..], &[7; 9]].concat();
    let started = (BOTH.start)(Format::Full, &run.file, &longer);
    assert_eq!(
        started.result,
        (BOTH.start)(Format::Full, &run.file, &run.state).result
    );
    run.start();
    assert_eq!(started.lent, [[&run.state[..], &[7; 9]].concat()]);
    for missing in 1..10 {
        let mut short = run.clone();
        short.state.truncate(run.state.len() - missing);
        short.assert_start_refused(14);
    }
}
