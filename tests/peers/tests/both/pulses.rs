//! Programs with pulses longer than an instant: their ends, by the rules and by
//! the circuit, the instants at which a finish is due, and second starts.

use crate::expect::{start_with, words_with, START};
use crate::nodes::*;
use crate::run::*;
use peers::BOTH;
use values::{Answer, Given, Refusal, Words};

/// What is told by an answer but for its words.
pub fn told(answer: Answer) -> (bool, u32, u32) {
    (answer.ended, answer.instant, answer.count)
}

/// A program that so many procedures stand in front of.
pub struct Pulsed {
    pub procedures: usize,
    pub program: Vec<u8>,
}

impl Pulsed {
    fn given(&self, pulse: u8) -> Given<'static> {
        Given {
            pulse,
            ..Given::procedures(self.procedures)
        }
    }

    pub fn begun(&self, pulse: u8, words: &[u8]) -> Run {
        Run::of_given(self.given(pulse), &self.program, words)
    }

    pub fn check(&self, pulse: u8) -> Result<(), Refusal> {
        (BOTH.check)(self.given(pulse), &self.program).result
    }

    /// The end by the rules and by the circuit, whose finish is high at each of the
    /// pulse's instants and at no other.
    fn assert_ends(&self, pulse: u8, words: &[u8], end: u32, last: Words) {
        let ended = (BOTH.reference_run)(self.given(pulse), &self.program, words, 10_000);
        let ended = ended.result.expect("it is accepted").expect("it ends");
        assert_eq!((ended.instant, ended.words), (end, last), "length {pulse}");
        let mut run = self.begun(pulse, words);
        let due = end..end + u32::from(pulse);
        for instant in 0..due.end + 12 {
            let answer = run.go(u32::from(instant > 0));
            let is_due = due.contains(&instant);
            assert_eq!(answer.ended, is_due, "length {pulse}, at {instant}");
            if instant >= end {
                assert_eq!(answer.words, last, "length {pulse}, at {instant}");
            }
        }
    }
}

pub fn main_alone(program: Vec<u8>) -> Pulsed {
    let procedures = 0;
    Pulsed {
        procedures,
        program,
    }
}

/// Ends for lengths 1, 2, 3 and 8, from words of which the first is this one.
fn assert_ends_of(pulsed: &Pulsed, first: u16, ends: [u32; 4], last: u16) {
    for (pulse, end) in [1, 2, 3, 8].into_iter().zip(ends) {
        pulsed.assert_ends(pulse, &start_with([first]), end, words_with([last]));
    }
}

/// x0 := x0 - 1, which takes 17 and the pulse.
fn count_down() -> Vec<u8> {
    assign(0, difference(variable(0), constant(1)), 17)
}

#[test]
fn what_has_no_assignment_ends_as_ever() {
    assert_ends_of(&main_alone(ok()), 7, [0; 4], 7);
    assert_ends_of(&main_alone(tick(1)), 7, [1; 4], 7);
    assert_ends_of(&main_alone(tick(3)), 7, [3; 4], 7);
    assert_ends_of(&main_alone(parallel(ok(), ok())), 0, [0; 4], 0);
    let choice = main_alone(if_then_else(variable(0), 0, tick(1), tick(9)));
    assert_ends_of(&choice, 0, [9; 4], 0);
    assert_ends_of(&choice, 65_535, [1; 4], 65_535);
}

#[test]
fn sides_end_with_the_later_one() {
    for (p, q) in [(3, 5), (5, 3), (4, 5), (5, 5), (1, 5)] {
        let sides = parallel(tick(p), tick(q));
        assert_ends_of(&main_alone(sides), 0, [5; 4], 0);
    }
    let three = parallel(tick(1), parallel(ok(), tick(20)));
    assert_ends_of(&main_alone(three), 0, [20; 4], 0);
}

#[test]
fn an_assignment_takes_its_delay_and_the_pulse() {
    let five = assign(0, constant(5), 1);
    assert_ends_of(&main_alone(five), 0, [2, 3, 4, 9], 5);
    let twice = sequence(
        assign(0, sum(variable(0), constant(3)), 16),
        assign(0, sum(variable(0), constant(4)), 16),
    );
    assert_ends_of(&main_alone(twice), 0, [34, 36, 38, 48], 7);
    // The second clock rises with the first one's finish, an instant after its fall.
    let next = sequence(assign(0, constant(5), 1), assign(0, constant(6), 1));
    assert_ends_of(&main_alone(next), 0, [4, 6, 8, 18], 6);
    let stored = assign_element(0, constant(3), constant(9), 1);
    let and_read = sequence(stored, assign(0, element(0, constant(3)), 4));
    assert_ends_of(&main_alone(and_read), 0, [7, 9, 11, 21], 9);
    let sides = parallel(assign(0, constant(1), 1), tick(4));
    assert_ends_of(&main_alone(sides), 0, [4, 4, 4, 9], 1);
}

/// From 3: four tests of d, and three times 17 and the pulse.
#[test]
fn a_while_ends_by_its_tests_and_its_body() {
    for (pulse, d, end) in [(1, 1, 58), (2, 3, 69), (3, 4, 76), (8, 9, 111)] {
        let program = while_do(variable(0), d, count_down());
        main_alone(program).assert_ends(pulse, &start_with([3]), end, [0; 16]);
    }
    // Case 12: the tick of the other side is over long before.
    for (pulse, d, end) in [(1, 1, 39), (2, 3, 47), (3, 4, 52), (8, 9, 77)] {
        let program = while_do(variable(0), d, parallel(count_down(), tick(2)));
        main_alone(program).assert_ends(pulse, &start_with([2]), end, [0; 16]);
    }
}

/// From 3: three rounds of 17, the pulse, and d.
#[test]
fn a_repeat_ends_by_its_rounds() {
    for (pulse, d, end) in [(1, 6, 72), (2, 6, 75), (3, 6, 78), (8, 9, 102)] {
        let done = equal(variable(0), constant(0));
        let program = repeat_until(count_down(), done, d);
        main_alone(program).assert_ends(pulse, &start_with([3]), end, [0; 16]);
    }
}

/// From 0: x0 := 1 takes 1 and the pulse, then it goes round once.
#[test]
fn a_loop_is_left_when_its_exit_comes() {
    for (pulse, d, end) in [(1, 1, 3), (2, 3, 6), (3, 4, 8), (8, 9, 18)] {
        let set = assign(0, constant(1), 1);
        let program = loop_of(d, if_then_else(variable(0), 0, exit(), set));
        let polling = main_alone(program);
        polling.assert_ends(pulse, &START, end, words_with([1]));
        polling.assert_ends(pulse, &start_with([1]), 0, words_with([1]));
    }
}

/// A merge within a loop has just cleared when the least delay has gone round.
#[test]
fn sides_in_a_loop_of_the_least_delay_wait_for_each_other_each_time() {
    for (pulse, d, end) in [(2, 3, 69), (3, 4, 76), (8, 9, 111)] {
        for sides in [parallel(count_down(), ok()), parallel(ok(), count_down())] {
            let program = while_do(variable(0), d, sides);
            main_alone(program).assert_ends(pulse, &start_with([3]), end, [0; 16]);
        }
    }
}

/// Two calls of a body that takes 2, and of one that takes no time.
#[test]
fn calls_take_their_delay_and_the_body() {
    for (pulse, d) in [(1, 1), (2, 3), (3, 4), (8, 9)] {
        for (body, time) in [(tick(2), 2), (ok(), 0)] {
            let main = sequence(call(0, d), call(0, d));
            let pulsed = Pulsed {
                procedures: 1,
                program: [body, main].concat(),
            };
            let end = 2 * (u32::from(d) + time);
            pulsed.assert_ends(pulse, &START, end, [0; 16]);
        }
    }
}

/// The clock is high from 1 to 8 and falls at 9, where the finish rises.
#[test]
fn a_word_changes_as_the_clock_falls() {
    let mut run = main_alone(assign(0, constant(5), 1)).begun(8, &START);
    for instant in 0..20 {
        let answer = run.go(u32::from(instant > 0));
        assert_eq!(run.now(3), u8::from((1..9).contains(&instant)), "{instant}");
        let word = if instant < 9 { 0 } else { 5 };
        assert_eq!(answer.words, words_with([word]), "{instant}");
    }
}

/// A condition is worked out at the start of its delay, and read while the pulse
/// lasts; the branch writes it later than that.
#[test]
fn a_branch_may_write_what_its_condition_reads() {
    let clear = || assign(0, constant(0), 1);
    let set = || assign(0, constant(1), 1);
    let turn = main_alone(if_then_else(variable(0), 0, clear(), set()));
    assert_ends_of(&turn, 1, [2, 3, 4, 9], 0);
    assert_ends_of(&turn, 0, [2, 3, 4, 9], 1);
}

/// Each continuing stops at each instant at which a finish is due.
#[test]
fn a_continuing_stops_at_each_instant_of_the_finish() {
    let mut run = main_alone(tick(3)).begun(3, &START);
    assert_eq!(told(run.go(100)), (true, 3, 3));
    assert_eq!(told(run.go(0)), (true, 3, 0));
    assert_eq!(told(run.go(100)), (true, 4, 1));
    assert_eq!(told(run.go(100)), (true, 5, 1));
    assert_eq!(told(run.go(100)), (false, 105, 100));
    let mut run = main_alone(ok()).begun(3, &START);
    assert_eq!(told(run.go(0)), (true, 0, 0));
    assert_eq!(told(run.go(5)), (true, 1, 1));
    assert_eq!(told(run.go(1)), (true, 2, 1));
    assert_eq!(told(run.go(1)), (false, 3, 1));
}

/// A full run stops where the finish rises.
#[test]
fn a_full_run_ends_at_the_rise() {
    for (budget, expected) in [
        (2, (false, 2, 3)),
        (3, (true, 3, 4)),
        (4, (true, 3, 4)),
        (1_000_000, (true, 3, 4)),
    ] {
        let (file, state) = ([0; 512], [0; 2_000]);
        let given = Given::pulse(8);
        let ran = (BOTH.run_program)(given, &tick(3), &START, budget, &file, &state);
        assert_eq!(ran.result.map(told), Ok(expected));
        let ran = (BOTH.run_netlist)(&ran.lent[0], &START, budget, &state);
        assert_eq!(ran.result.map(told), Ok(expected));
        let ran = (BOTH.run_text)(given, b"tick 3", &START, budget, &file, &state);
        assert_eq!(ran.result.map(told), Ok(expected));
    }
}

/// The numbers of a run from instant 0 on.
fn assert_numbers(pulse: u8, program: Vec<u8>, numbers: &[u32]) {
    let pulsed = main_alone(program);
    let mut run = pulsed.begun(pulse, &START);
    for (instant, &number) in numbers.iter().enumerate() {
        run.go(u32::from(instant > 0));
        assert_eq!(run.in_flight(), number, "{:?} at {instant}", pulsed.program);
    }
}

/// Start's remaining instants count, and each instant of a pulse in a line.
#[test]
fn each_instant_of_a_pulse_is_in_flight() {
    assert_numbers(3, ok(), &[2, 1, 0, 0]);
    assert_numbers(2, tick(3), &[2, 2, 2, 1, 0, 0]);
    assert_numbers(3, tick(1), &[3, 2, 1, 0, 0]);
    assert_numbers(8, tick(2), &[8, 8, 7, 6, 5, 4, 3, 2, 1, 0, 0]);
    // Two lines, then a held bit and the longer line, then both bits.
    let sides = parallel(tick(1), tick(3));
    assert_numbers(2, sides, &[3, 4, 3, 3, 2, 0, 0]);
    // The clock's line, then that of the finish, which has the pulse's length.
    let five = assign(0, constant(5), 1);
    assert_numbers(3, five, &[3, 3, 3, 3, 2, 1, 0]);
}

/// At 4 the number is 0 and the finish high; at 5 it is low.
#[test]
fn a_start_waits_for_a_low_finish() {
    let mut run = main_alone(tick(3)).begun(2, &START);
    for instant in 1..=5 {
        run.assert_start_refused(23);
        run.go(1);
        assert_eq!(run.in_flight() == 0, instant >= 4);
    }
    assert_eq!(told(run.start()), (false, 6, 1));
    assert_eq!((run.remaining(), run.in_flight()), (1, 2));
    run.assert_start_refused(23);
    assert_eq!(told(run.go(100)), (true, 9, 3));
    assert_eq!(told(run.go(100)), (true, 10, 1));
    run.assert_start_refused(23);
    assert_eq!(told(run.go(100)), (false, 110, 100));
    assert_eq!(told(run.start()), (false, 111, 1));
    assert_eq!(told(run.go(100)), (true, 114, 3));
}

/// The finish of ok is its start: it may be started in the instant after its
/// fall and not in that of the fall.
#[test]
fn a_program_that_takes_no_time_is_started_every_other_pulse() {
    for pulse in [2, 3, 8] {
        let length = u32::from(pulse);
        let mut run = main_alone(ok()).begun(pulse, &START);
        for round in 0..4 {
            for _ in 0..length {
                run.assert_start_refused(23);
                run.go(1);
            }
            let next = (round + 1) * (length + 1);
            assert_eq!(told(run.start()), (true, next, 1));
        }
    }
}

/// With pulses of one instant a start may be given at the end, as ever.
#[test]
fn pulses_of_one_instant_need_no_low_finish() {
    let mut run = main_alone(tick(3)).begun(1, &START);
    assert_eq!(told(run.go(100)), (true, 3, 3));
    assert_eq!(told(run.start()), (false, 4, 1));
}

/// x0 := x0 + 1 from 5, with pulses of 3: it ends at 19, is idle from 22 on, and
/// a run that is started there is from the words that it finds.
#[test]
fn a_run_after_a_start_is_from_the_present_words() {
    let up = assign(0, sum(variable(0), constant(1)), 16);
    let mut run = main_alone(up).begun(3, &start_with([5, 9]));
    for (begun, word) in [(0, 6), (23, 7), (46, 8)] {
        let ended = run.go(100);
        assert_eq!(ended.instant, begun + 19);
        assert_eq!(ended.words, words_with([word, 9]));
        run.go(1);
        run.go(1);
        run.assert_start_refused(23);
        assert_eq!(told(run.go(1)), (false, begun + 22, 1));
        assert_eq!(told(run.start()), (false, begun + 23, 1));
    }
}

/// The bits of the merge are gone with its output, and so the sides of the next
/// run wait for each other again.
#[test]
fn a_merge_holds_nothing_from_the_run_before() {
    let mut run = main_alone(parallel(tick(3), tick(5))).begun(2, &START);
    for begun in [0, 8, 16] {
        assert_eq!(run.go(100).instant, begun + 5);
        run.go(1);
        run.assert_start_refused(23);
        assert_eq!(told(run.go(1)), (false, begun + 7, 1));
        assert_eq!(told(run.start()), (false, begun + 8, 1));
    }
}

/// Everything is wrong at first, and one thing after the other is put right.
#[test]
fn refusals_of_a_start_come_in_the_order_14_15_16_23() {
    let mut run = main_alone(ok()).begun(3, &START);
    run.go(1);
    run.go(1);
    run.tell_instant(1_000_000);
    run.tell_in_flight(1);
    let whole = run.state.clone();
    run.state.pop();
    run.assert_start_refused(14);
    run.state = whole;
    run.assert_start_refused(15);
    run.tell_in_flight(0);
    run.assert_start_refused(16);
    run.tell_instant(999_998);
    run.assert_start_refused(23);
    run.go(1);
    assert_eq!(told(run.start()), (true, 1_000_000, 1));
}
