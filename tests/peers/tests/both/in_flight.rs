//! The number in flight: what a state tells at each instant, worked out by
//! hand, and states that tell another.

use crate::expect::{start_with, START};
use crate::netlist::{self, FREE};
use crate::nodes::*;
use crate::run::*;
use peers::BOTH;
use second::cells::{DELAY, MERGE, OR};
use values::{Cell, Format};

/// The numbers of a program's run, from instant 0 on, the end among them.
fn assert_numbers<const COUNT: usize>(program: &[u8], words: [u16; COUNT], numbers: &[u32]) {
    let mut run = Run::of_program(program, &start_with(words));
    for (instant, &number) in numbers.iter().enumerate() {
        if instant > 0 {
            run.go(1);
        }
        assert_eq!(run.in_flight(), number, "{program:?} at {instant}");
    }
}

/// A run of the fixed cells and these, begun from zero words.
fn wired(cells: &[Cell], finish: u16) -> Run {
    Run::begin(&netlist::file_of_idle(cells, finish), &START)
}

#[test]
fn a_pulse_counts_from_where_it_enters_up_to_where_it_comes_out() {
    assert_numbers(&ok(), [], &[0, 0, 0]);
    assert_numbers(&tick(3), [], &[1, 1, 1, 0, 0]);
    assert_numbers(&tick(1), [], &[1, 0, 0]);
    assert_numbers(&sequence(tick(2), tick(1)), [], &[1, 1, 1, 0, 0]);
    // An assignment's second delay has its pulse while the clock is high.
    assert_numbers(&assign(0, constant(5), 1), [], &[1, 1, 0, 0]);
}

/// At 3 the shorter side's pulse becomes a bit that the merge holds.
#[test]
fn a_held_bit_counts_as_the_pulse_that_it_waits_for_does() {
    for sides in [parallel(tick(3), tick(5)), parallel(tick(5), tick(3))] {
        assert_numbers(&sides, [], &[2, 2, 2, 2, 2, 0, 0]);
    }
    let sides = parallel(ok(), tick(2));
    assert_numbers(&sides, [], &[2, 2, 0, 0]);
    // Two lines and the bit of the ok; at 1 two bits and a line.
    let three = parallel(tick(1), parallel(ok(), tick(2)));
    assert_numbers(&three, [], &[3, 3, 0, 0]);
    // Both sides at once: the merge holds nothing.
    assert_numbers(&parallel(ok(), ok()), [], &[0, 0]);
}

/// A condition is no pulse, and the branch that isn't taken has none.
#[test]
fn a_branch_counts_where_it_is_taken() {
    let choice = if_then_else(variable(0), 2, tick(1), parallel(tick(2), tick(3)));
    assert_numbers(&choice, [1], &[1, 1, 1, 0, 0]);
    assert_numbers(&choice, [0], &[1, 1, 2, 2, 2, 0]);
}

/// A pulse comes out of the loop's delay and enters it at once.
#[test]
fn a_loop_whose_body_takes_no_time_has_one_pulse_for_ever() {
    assert_numbers(&loop_of(1, ok()), [], &[1; 6]);
    assert_numbers(&loop_of(3, ok()), [], &[1; 9]);
    assert_numbers(&while_do(constant(1), 1, ok()), [], &[1; 6]);
    assert_numbers(&repeat_until(ok(), constant(0), 2), [], &[1; 8]);
    // A loop that is left is left with nothing.
    let polling = loop_of(2, if_then_else(variable(0), 0, exit(), set(0)));
    assert_numbers(&polling, [1], &[0, 0]);
    assert_numbers(&polling, [0], &[1, 1, 1, 1, 0, 0]);
}

/// x := 1, which takes 2.
fn set(x: u16) -> Vec<u8> {
    assign(x, constant(1), 1)
}

/// The present number and those of so many instants more.
fn numbers(run: &mut Run, instants: u32) -> Vec<u32> {
    let mut numbers = vec![run.in_flight()];
    for _ in 0..instants {
        run.go(1);
        numbers.push(run.in_flight());
    }
    numbers
}

/// Start enters a line of 2 and one of 5.
#[test]
fn a_wire_that_enters_several_delays_counts_in_each() {
    let cells = [Cell::new(DELAY, 2, 0, 0), Cell::new(DELAY, 5, 0, 0)];
    let mut run = wired(&cells, FREE);
    assert_eq!(numbers(&mut run, 6), [2, 2, 1, 1, 1, 0, 0]);
}

/// An or goes high with start and keeps itself high by a delay of 1, so that a
/// pulse enters the line of 4 at each instant, until it is full.
#[test]
fn a_line_may_hold_as_many_pulses_as_it_is_long() {
    let (keep, or) = (FREE, FREE + 1);
    let cells = [
        Cell::new(DELAY, 1, or, 0),
        Cell::new(OR, 0, 0, keep),
        Cell::new(DELAY, 4, or, 0),
    ];
    let mut run = wired(&cells, or);
    assert_eq!(numbers(&mut run, 6), [2, 3, 4, 5, 5, 5, 5]);
}

/// The bit of the ground's side never comes.
#[test]
fn a_bit_may_be_held_for_ever() {
    let mut run = wired(&[Cell::new(MERGE, 0, 0, 1)], FREE);
    assert_eq!(run.in_flight(), 1);
    run.go(1_000);
    assert_eq!(run.in_flight(), 1);
}

/// A line of 255 has pulses in all bytes but one bit of the last, which is the
/// 256th input.
#[test]
fn all_bits_of_the_longest_line_count_but_the_last() {
    let mut run = wired(&[Cell::new(DELAY, 255, 1, 0)], FREE);
    run.state[at(FREE, LINE)..at(FREE, LINE + 32)].fill(0xff);
    run.tell_in_flight(256);
    run.assert_refused(1, 15);
    run.tell_in_flight(255);
    run.go(1);
    assert_eq!(run.in_flight(), 254);
    assert_eq!(
        numbers(&mut run, 254),
        (0..=254).rev().collect::<Vec<u32>>()
    );
}

#[test]
fn bits_beyond_the_delay_are_stale_and_do_not_count() {
    let mut run = wired(&[Cell::new(DELAY, 3, 1, 0)], FREE);
    run.state[at(FREE, LINE)] = 0b1111_1000;
    run.state[at(FREE, LINE + 31)] = 0xff;
    run.go(0);
    for number in [1, 6, 13] {
        run.tell_in_flight(number);
        run.assert_refused(0, 15);
        run.assert_start_refused(15);
    }
    // Bit 2 comes out next, and is stale then.
    run.state[at(FREE, LINE)] |= 0b100;
    run.assert_refused(0, 15);
    run.tell_in_flight(1);
    let answer = run.go(1);
    assert_eq!((answer.ended, run.in_flight()), (true, 0));
    assert_eq!(run.state[at(FREE, LINE)], 0b1111_1000);
}

#[test]
fn both_held_bits_count() {
    let mut run = wired(&[Cell::new(MERGE, 0, 1, 1)], FREE);
    run.state[at(FREE, HELD_A)] = 1;
    run.state[at(FREE, HELD_B)] = 1;
    for false_number in [0, 1, 3] {
        run.tell_in_flight(false_number);
        run.assert_refused(0, 15);
    }
    run.tell_in_flight(2);
    let answer = run.go(1);
    assert_eq!((answer.ended, run.in_flight()), (true, 0));
}

/// Each of the four bytes counts, in a run that is in flight and in an idle
/// one, and by whatever call the state is taken up.
#[test]
fn a_state_that_tells_another_number_is_refused() {
    for instants in [0, 3] {
        let mut run = Run::of_program(&tick(3), &START);
        run.go(instants);
        let right = run.in_flight();
        assert_eq!(right, u32::from(instants == 0));
        let others = [right ^ 1, 2, right + 256, right + 65_536, right + (1 << 24)];
        for number in others {
            run.tell_in_flight(number);
            for n in [0, 1, 1_000] {
                run.assert_refused(n, 15);
            }
            run.assert_start_refused(15);
        }
        run.tell_in_flight(right);
        run.go(1);
    }
}

/// A beginning looks at no byte of the lent state.
#[test]
fn a_beginning_tells_the_number_whatever_the_buffer_held() {
    let run = Run::of_program(&parallel(tick(3), tick(5)), &START);
    let mut again = run.clone();
    again.state.fill(0xff);
    let begun = (BOTH.begin)(Format::Full, &again.file, &START, &again.state);
    assert!(begun.result.is_ok());
    assert_eq!(begun.lent, [&run.state[..]]);
    assert_eq!(run.in_flight(), 2);
}

/// A full run leaves the number of its last instant.
#[test]
fn a_full_run_tells_the_number_of_its_last_instant() {
    for (budget, number) in [(0, 2), (4, 2), (5, 0), (100, 0)] {
        let run = Run::of_program(&parallel(tick(3), tick(5)), &START);
        let ran = (BOTH.run_netlist)(&run.file, &START, budget, &run.state);
        assert!(ran.result.is_ok());
        let bytes = &ran.lent[0][4..8];
        assert_eq!(bytes, u32::to_le_bytes(number), "{budget}");
    }
}

/// Kinds beside 34, 38 and 39 have nothing in flight, however high their wires
/// are.
#[test]
fn wires_that_are_high_do_not_count() {
    let mut run = wired(&[Cell::new(OR, 0, 0, 1)], FREE);
    assert_eq!((run.now(0), run.now(FREE), run.in_flight()), (1, 1, 0));
    run.go(1);
    assert_eq!((run.now(0), run.now(FREE), run.in_flight()), (0, 0, 0));
}
