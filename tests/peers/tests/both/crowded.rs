//! Refusal 26: a pulse enters a line of a compact state whose pulse hasn't come
//! out. Netlists wired by hand meet it; the state is left at the last good
//! instant.

use crate::expect::{refused, words_with, START};
use crate::netlist::{file_of_idle, Wiring, FREE};
use crate::nodes::*;
use crate::run::*;
use second::cells::{DELAY, OR};
use values::{Cell, Format};

/// The last instant of all.
const LAST: u32 = 1_000_000;

/// A line of each of these delays, all entered by pulses at these instants: the
/// first line's number, and a run whose finish is ground.
fn entered(delays: &[u8], instants: &[u8]) -> (u16, Run) {
    let mut wiring = Wiring::default();
    let pulses = wiring.pulses(instants);
    let lines = delays.iter().map(|&d| Cell::new(DELAY, d, pulses, 0));
    let lines: Vec<u16> = lines.map(|line| wiring.push(line)).collect();
    (lines[0], wired(&wiring.cells))
}

/// A run of the idle cells and these, whose finish is ground.
fn wired(cells: &[Cell]) -> Run {
    finishing(cells, 1)
}

fn finishing(cells: &[Cell], finish: u16) -> Run {
    Run::begin_in(Format::Compact, &file_of_idle(cells, finish), &START)
}

/// A continuing by `n` meets 26 at this cell, with so many good instants before,
/// whose state it leaves; gone on with from there it changes nothing.
fn assert_crowded(run: &Run, n: u32, cell: u16, good: u32) {
    let refusal = refused(26, cell.into());
    let mut last_good = run.clone();
    last_good.go(good);
    let met = run.going(n);
    assert_eq!(met.result, refusal, "by {n}");
    assert_eq!(met.lent, [&last_good.state[..]], "by {n}");
    for n in [1, 2, 900] {
        let again = last_good.going(n);
        assert_eq!(again.result, refusal);
        assert_eq!(again.lent, [&last_good.state[..]]);
    }
    last_good.go(0);
}

/// Pulses enter a line of 5 at 2 and at 4.
#[test]
fn it_comes_up_at_the_first_a_middle_or_the_last_instant() {
    let (line, mut run) = entered(&[5], &[2, 4]);
    for n in [4, 5, 6, 1_000, LAST] {
        assert_crowded(&run, n, line, 3);
    }
    run.go(1);
    for n in [3, 4, 50] {
        assert_crowded(&run, n, line, 2);
    }
    run.go(2);
    assert_eq!(run.left(line), 4);
    for n in [1, 2, 50] {
        assert_crowded(&run, n, line, 0);
    }
}

/// By fewer instants there is nothing to refuse.
#[test]
fn it_comes_up_in_no_instant_before() {
    let (line, run) = entered(&[5], &[2, 4]);
    for n in 0..4 {
        let mut fewer = run.clone();
        let answer = fewer.go(n);
        assert_eq!((answer.instant, answer.count), (n, n));
        assert_eq!(fewer.left(line), [0, 0, 5, 4][n as usize]);
    }
}

#[test]
fn bytes_past_the_state_are_kept() {
    let (line, mut run) = entered(&[5], &[2, 4]);
    let mut good = run.clone();
    good.go(3);
    let past = [0xa5; 33];
    run.state.extend(past);
    for n in [4, 100] {
        let met = run.going(n);
        assert_eq!(met.result, refused(26, line.into()));
        assert_eq!(met.lent, [[&good.state[..], &past].concat()]);
    }
}

#[test]
fn of_several_lines_the_lowest_is_named() {
    for delays in [&[5, 9][..], &[9, 5], &[9, 5, 7], &[3, 3]] {
        let (line, run) = entered(delays, &[2, 4]);
        assert_crowded(&run, 100, line, 3);
    }
    // The line of 2 is free again at 4, and the lowest that isn't is named.
    let (line, run) = entered(&[2, 9, 9], &[2, 4]);
    assert_crowded(&run, 100, line + 1, 3);
    // A line that is crowded sooner comes before a lower one.
    let mut wiring = Wiring::default();
    let (late, soon) = (wiring.pulses(&[3, 6]), wiring.pulses(&[2, 4]));
    wiring.push(Cell::new(DELAY, 7, late, 0));
    let sooner = wiring.push(Cell::new(DELAY, 7, soon, 0));
    assert_crowded(&wired(&wiring.cells), 100, sooner, 3);
}

#[test]
fn a_pulse_may_enter_in_the_instant_in_which_the_old_one_comes_out() {
    for (d, second) in [(1, 3), (2, 4), (5, 7), (200, 202), (253, 255)] {
        let (line, mut run) = entered(&[d], &[2, second]);
        run.go(second.into());
        assert_eq!((run.now(line), run.left(line)), (1, d), "{d}");
        run.go(u32::from(d) - 1);
        assert_eq!(
            (run.now(line), run.left(line)),
            (u8::from(d == 1), 1),
            "{d}"
        );
        run.go(1);
        assert_eq!((run.now(line), run.in_flight()), (1, 0), "{d}");
    }
    // An instant sooner it may not.
    for (d, second) in [(2, 3), (5, 6), (200, 201), (255, 255)] {
        let (line, run) = entered(&[d], &[2, second]);
        assert_crowded(&run, 1_000, line, u32::from(second) - 1);
    }
}

/// An or that start feeds and a line of `around` behind it, and a line of `long`
/// that it feeds, too.
fn ring(around: u8, long: u8) -> [Cell; 3] {
    let (line, or) = (FREE, FREE + 1);
    [
        Cell::new(DELAY, around, or, 0),
        Cell::new(OR, 0, 0, line),
        Cell::new(DELAY, long, or, 0),
    ]
}

/// An or goes high with start and keeps itself high by a line of 1, which takes a
/// pulse at each instant; a line of 2 doesn't.
#[test]
fn a_wire_that_stays_high_enters_at_each_instant() {
    let (keep, or, cells) = (FREE, FREE + 1, ring(1, 2));
    let mut alone = wired(&cells[..2]);
    assert_eq!(alone.go(1_000).instant, 1_000);
    assert_eq!((alone.now(or), alone.left(keep)), (1, 1));
    assert_crowded(&wired(&cells), 1_000, FREE + 2, 0);
}

/// A ring of 3, and a line of 4 that it feeds.
#[test]
fn a_ring_is_good_and_crowds_a_longer_line() {
    let cells = ring(3, 4);
    assert_eq!(wired(&cells[..2]).go(1_000).instant, 1_000);
    assert_crowded(&wired(&cells), 1_000, FREE + 2, 2);
}

/// The finish at 3 ends the call; one at 4 doesn't save it.
#[test]
fn a_finish_comes_before_it_only_in_an_earlier_instant() {
    for (finish, ends) in [(3, true), (4, false), (5, false)] {
        let mut wiring = Wiring::default();
        let pulses = wiring.pulses(&[2, 4]);
        let line = wiring.push(Cell::new(DELAY, 5, pulses, 0));
        let finish = wiring.push(Cell::new(DELAY, finish, 0, 0));
        let mut run = finishing(&wiring.cells, finish);
        if ends {
            let answer = run.go(100);
            assert_eq!((answer.ended, answer.instant), (true, 3));
            assert_crowded(&run, 100, line, 0);
        } else {
            assert_crowded(&run, 100, line, 3);
        }
    }
}

/// In a full state the same pulses go on, and come out at 7 and 9.
#[test]
fn a_full_state_has_room_for_all() {
    let (line, compact) = entered(&[5], &[2, 4]);
    let mut full = Run::begin(&compact.file, &START);
    let high = |instant: &u32| {
        full.go(u32::from(*instant > 0));
        full.now(line) == 1
    };
    assert_eq!((0..20).filter(high).collect::<Vec<u32>>(), [7, 9]);
}

/// States made by hand: the input is start's pulse of a state that tells more or
/// fewer instants left.
#[test]
fn what_is_left_after_the_instant_counts() {
    let wire = FREE;
    let cells = [Cell::new(DELAY, 1, 0, 0), Cell::new(DELAY, 9, wire, 0)];
    for left in 0..=9 {
        let mut run = wired(&cells);
        let place = run.at(FREE + 1, LEFT);
        run.state[place] = left;
        run.tell_in_flight(1 + u32::from(left > 0));
        match left {
            0 | 1 => {
                run.go(1);
                assert_eq!((run.left(FREE + 1), run.now(FREE + 1)), (9, left));
            }
            _ => assert_crowded(&run, 100, FREE + 1, 0),
        }
    }
}

/// A compiled program meets it in a state that no call has made: its second delay
/// is entered while a pulse is said to be there.
#[test]
fn a_program_meets_it_in_a_state_made_by_hand_alone() {
    let program = sequence(tick(2), tick(9));
    let begun = Run::of_program(&program, &START).compact(&START);
    let (first, second) = (3, 4);
    let mut run = begun.clone();
    assert_eq!(run.go(100).instant, 11);
    let mut made = begun;
    let place = made.at(second, LEFT);
    made.state[place] = 5;
    made.tell_in_flight(2);
    assert_crowded(&made, 100, second, 1);
    assert_eq!(made.left(first), 2);
}

/// x0 := 5; x1 := 6; tick 9, in a state that tells of a pulse in the tick: the
/// second word would change at 4, as the tick is entered.
#[test]
fn words_are_those_of_the_last_good_instant() {
    let words = sequence(assign(0, constant(5), 1), assign(1, constant(6), 1));
    let program = sequence(words, tick(9));
    let mut run = Run::of_program(&program, &START).compact(&START);
    let tick = 7;
    let place = run.at(tick, LEFT);
    run.state[place] = 9;
    run.tell_in_flight(2);
    assert_crowded(&run, 100, tick, 3);
    run.state.clone_from(&run.going(100).lent[0]);
    assert_eq!(run.go(0).words, words_with([5]));
}

/// All checks come before a run: 15 and 16, for instants that would not be run.
#[test]
fn other_refusals_come_before_it() {
    let (line, mut run) = entered(&[5], &[2, 4]);
    run.go(3);
    assert_crowded(&run, 1, line, 0);
    run.assert_refused(LAST, 16);
    run.assert_start_refused(23);
    run.tell_instant(LAST);
    run.assert_refused(1, 16);
    run.tell_instant(LAST - 1);
    assert_eq!(run.going(1).result, refused(26, line.into()));
    run.assert_refused(2, 16);
    run.tell_in_flight(3);
    run.assert_refused(1, 15);
    run.state.pop();
    run.assert_refused(1, 14);
}

/// A start finds every line empty.
#[test]
fn a_start_never_meets_it() {
    let (line, mut run) = entered(&[5], &[2]);
    assert_eq!(run.go(7).instant, 7);
    assert_eq!((run.now(line), run.in_flight()), (1, 0));
    assert_eq!(run.start().instant, 8);
    assert_eq!(run.go(100).instant, 108);
    assert_eq!(run.in_flight(), 0);
}
