//! The start's remaining high instants: what a state tells of them at each instant,
//! and what is refused or taken of a state made by hand.

use crate::expect::START;
use crate::netlist::pulsed_file_of_idle;
use crate::run::*;
use second::cells::DELAY;
use values::Cell;

/// A run with a line of 2 that ground feeds, so that nothing but start is ever in
/// flight, and whose finish is ground.
fn begun(pulse: u8) -> Run {
    let file = pulsed_file_of_idle(pulse, &[Cell::new(DELAY, 2, 1, 0)], 1);
    Run::begin(&file, &START)
}

/// The same at an instant when start is low and nothing is in flight.
fn idle(pulse: u8) -> Run {
    let mut run = begun(pulse);
    run.go(20);
    assert_eq!((run.now(0), run.remaining(), run.in_flight()), (0, 0, 0));
    run
}

/// The levels of start and what remains of it, for so many instants more.
fn levels(run: &mut Run, instants: u32) -> Vec<(u8, u8)> {
    let mut levels = vec![(run.now(0), run.remaining())];
    for _ in 0..instants {
        run.go(1);
        levels.push((run.now(0), run.remaining()));
        assert_eq!(run.in_flight(), run.remaining().into());
    }
    levels
}

#[test]
fn start_is_high_for_the_pulse_and_what_remains_counts_down() {
    assert_eq!(levels(&mut begun(1), 2), [(1, 0), (0, 0), (0, 0)]);
    assert_eq!(levels(&mut begun(2), 3), [(1, 1), (1, 0), (0, 0), (0, 0)]);
    assert_eq!(
        levels(&mut begun(4), 5),
        [(1, 3), (1, 2), (1, 1), (1, 0), (0, 0), (0, 0)]
    );
    for pulse in 1..=8 {
        let remaining = (0..pulse).rev().map(|remaining| (1, remaining));
        let expected: Vec<(u8, u8)> = remaining.chain([(0, 0); 3]).collect();
        assert_eq!(levels(&mut begun(pulse), u32::from(pulse) + 2), expected);
        let mut again = idle(pulse);
        again.start();
        assert_eq!(levels(&mut again, u32::from(pulse) + 2), expected);
    }
}

/// By whatever calls the instants are parted, and by a full run.
#[test]
fn what_remains_is_the_same_by_one_call_or_many() {
    for n in 1..10 {
        let mut at_once = begun(8);
        at_once.go(n);
        let mut one_by_one = begun(8);
        for _ in 0..n {
            one_by_one.go(1);
        }
        assert_eq!(at_once.state, one_by_one.state);
        assert_eq!(at_once.remaining(), 7u8.saturating_sub(n as u8));
    }
}

/// A start is refused while start is high and something remains of it.
#[test]
fn a_second_start_waits_for_the_first() {
    let mut run = begun(3);
    run.assert_start_refused(23);
    run.go(1);
    run.assert_start_refused(23);
    run.go(1);
    // Nothing remains, and this netlist's finish is low.
    run.start();
    assert_eq!(
        levels(&mut run, 3),
        [(1, 2), (1, 1), (1, 0), (0, 0)],
        "a pulse right after the other"
    );
}

/// The remaining instants are below the pulse length, 0 for one instant.
#[test]
fn as_many_instants_as_the_pulse_has_are_15() {
    for pulse in 1..=8 {
        for remaining in [pulse, pulse + 1, 8, 128, 255] {
            let mut run = idle(pulse);
            run.state[at(0, LINE)] = remaining;
            for number in [0, 1, remaining.into()] {
                run.tell_in_flight(number);
                run.assert_refused(0, 15);
                run.assert_refused(2, 15);
                run.assert_start_refused(15);
            }
        }
        for remaining in 0..pulse {
            let mut run = idle(pulse);
            run.state[at(0, LINE)] = remaining;
            run.tell_in_flight(remaining.into());
            run.go(1);
        }
    }
}

#[test]
fn a_number_that_leaves_them_out_is_15() {
    let mut run = begun(8);
    assert_eq!((run.remaining(), run.in_flight()), (7, 7));
    for number in [0, 1, 6, 8, 7 + 256] {
        run.tell_in_flight(number);
        run.assert_refused(1, 15);
        run.assert_start_refused(15);
    }
}

/// The other bytes of start's line are zero, and so are all of other cells' that
/// have none; held bits it has none.
#[test]
fn other_bytes_that_start_has_not_are_15() {
    for pulse in [1, 3, 8] {
        let good = idle(pulse);
        let of_start = (LINE + 1..LINE + 32).chain([HELD_A, HELD_B, ZERO_BYTE, ZERO_BYTE + 1]);
        let places = of_start.map(|byte| at(0, byte));
        let others = [1, 2, 3].map(|cell| at(cell, LINE));
        for place in places.chain(others) {
            let mut other = good.clone();
            other.state[place] = 1;
            for number in [0, 1] {
                other.tell_in_flight(number);
                other.assert_refused(1, 15);
            }
        }
    }
}

/// The byte alone tells how long start is high, and not its wire: in a state made
/// by hand it goes high again, or falls at once.
#[test]
fn what_remains_decides_and_not_the_wire() {
    let mut high_again = idle(3);
    high_again.state[at(0, LINE)] = 2;
    high_again.tell_in_flight(2);
    high_again.assert_start_refused(23);
    assert_eq!(levels(&mut high_again, 3), [(0, 2), (1, 1), (1, 0), (0, 0)]);
    let mut falling = idle(3);
    falling.state[at(0, NOW)] = 1;
    assert_eq!(levels(&mut falling, 2), [(1, 0), (0, 0), (0, 0)]);
}
