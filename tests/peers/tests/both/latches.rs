//! Latches, wired by hand: when they take a word and which, instant by instant, in
//! states of both formats; what a state may tell of them.

use crate::expect::{start_with, START};
use crate::netlist::*;
use crate::run::*;
use second::cells::{CONSTANT, DELAY, GATE, LATCH, OR};
use values::{Cell, Format};

/// The words of a wire at each instant from 0 on.
fn words(cells: &[Cell], wire: u16, words: &[u8], format: Format, count: usize) -> Vec<u16> {
    let mut run = Run::begin_in(format, &file_of_idle(cells, 1), words);
    let mut shown = vec![run.word(wire)];
    while shown.len() < count {
        run.go(1);
        shown.push(run.word(wire));
    }
    shown
}

fn assert_words(wiring: &Wiring, wire: u16, start: &[u8], expected: &[u16]) {
    for format in Format::BOTH {
        let shown = words(&wiring.cells, wire, start, format, expected.len());
        assert_eq!(shown, expected, "{format:?}");
    }
}

/// A word that is n at instant n, for some instants: a sum of gates.
fn clocked(wiring: &mut Wiring, instants: u8) -> u16 {
    let zero = 2;
    (1..=instants).fold(zero, |so_far, instant| {
        let pulse = wiring.push(Cell::new(DELAY, instant, 0, 0));
        let number = wiring.push(Cell::new(CONSTANT, 0, instant.into(), 0));
        let gate = wiring.push(Cell::new(GATE, 0, pulse, number));
        wiring.push(Cell::new(7, 0, so_far, gate))
    })
}

/// The word of the instant at which a is 1 is shown an instant later, and kept.
#[test]
fn a_latch_takes_the_word_of_the_same_instant_as_its_control_wire() {
    for at in 1..=6 {
        let mut wiring = Wiring::default();
        let data = clocked(&mut wiring, 7);
        let control = wiring.pulses(&[at]);
        let latch = wiring.push(Cell::new(LATCH, 0, control, data));
        let word = |instant| if instant > at { at.into() } else { 0 };
        assert_words(
            &wiring,
            latch,
            &START,
            &(0..12).map(word).collect::<Vec<u16>>(),
        );
    }
}

#[test]
fn a_latch_is_0_at_first_whatever_its_input() {
    let mut wiring = Wiring::default();
    let never = wiring.push(Cell::new(LATCH, 0, 1, 3));
    let at_once = wiring.push(Cell::new(LATCH, 0, 0, 3));
    let start = start_with([0xbeef]);
    assert_words(&wiring, never, &start, &[0; 6]);
    assert_words(&wiring, at_once, &start, &[0, 0xbeef, 0xbeef, 0xbeef]);
}

#[test]
fn a_latch_takes_a_word_at_each_instant_of_a_long_control_wire() {
    let mut wiring = Wiring::default();
    let data = clocked(&mut wiring, 8);
    let control = wiring.pulses(&[2, 3, 4, 7]);
    let latch = wiring.push(Cell::new(LATCH, 0, control, data));
    assert_words(&wiring, latch, &START, &[0, 0, 0, 2, 3, 4, 4, 4, 7, 7, 7]);
}

/// Two latches with one control wire shift: the second has the first one's former
/// word, whichever stands first.
#[test]
fn latches_in_a_chain_shift() {
    for behind in [false, true] {
        let mut wiring = Wiring::default();
        let data = clocked(&mut wiring, 8);
        let control = wiring.pulses(&[2, 4, 5]);
        let next = FREE + wiring.cells.len() as u16;
        let (first, second) = if behind {
            (next, next + 1)
        } else {
            (next + 1, next)
        };
        for latch in [next, next + 1] {
            let from = if latch == first { data } else { first };
            wiring.push(Cell::new(LATCH, 0, control, from));
        }
        assert_words(&wiring, first, &START, &[0, 0, 0, 2, 2, 4, 5, 5]);
        assert_words(&wiring, second, &START, &[0, 0, 0, 0, 0, 2, 4, 4]);
    }
}

/// Both inputs of later cells, and itself as its word.
#[test]
fn a_latch_may_name_any_cell() {
    let mut wiring = Wiring::default();
    let latch = wiring.push(Cell::new(LATCH, 0, FREE + 1, FREE + 2));
    wiring.push(Cell::new(DELAY, 3, 0, 0));
    wiring.push(Cell::new(4, 0, latch, 3));
    wiring.push(Cell::new(LATCH, 0, 0, FREE + 3));
    assert_words(&wiring, latch, &start_with([6]), &[0, 0, 0, 0, 6, 6, 6]);
    assert_words(&wiring, FREE + 3, &START, &[0; 5]);
    // A sum with itself, once for each of the instants 0, 1, 2 and 4.
    let mut counting = Wiring::default();
    let control = counting.pulses(&[1, 2, 4]);
    let control = counting.push(Cell::new(OR, 0, control, 0));
    let latch = FREE + counting.cells.len() as u16;
    counting.push(Cell::new(LATCH, 0, control, latch + 1));
    counting.push(Cell::new(4, 0, latch, 3));
    assert_words(
        &counting,
        latch,
        &start_with([10]),
        &[0, 10, 20, 30, 30, 40, 40],
    );
}

/// What a latch holds is nothing in flight, and a second start finds it.
#[test]
fn a_latch_keeps_its_word_over_a_second_start() {
    let mut wiring = Wiring::default();
    let delayed = wiring.push(Cell::new(DELAY, 2, 0, 0));
    let sum = FREE + 2;
    let latch = wiring.push(Cell::new(LATCH, 0, delayed, sum));
    wiring.push(Cell::new(4, 0, latch, 3));
    for format in Format::BOTH {
        let file = file_of_idle(&wiring.cells, delayed);
        let mut run = Run::begin_in(format, &file, &start_with([5]));
        for total in [5, 10, 15] {
            assert!(run.go(10).ended);
            assert_eq!((run.word(latch), run.in_flight()), (total - 5, 0));
            run.go(1);
            assert_eq!(run.word(latch), total);
            run.start();
            assert_eq!(run.word(latch), total);
        }
    }
}

/// A latch takes what the state tells of the instant before, contradictory or not.
#[test]
fn a_latch_goes_by_the_state_as_it_is() {
    let mut wiring = Wiring::default();
    let control = wiring.push(Cell::new(OR, 0, 1, 1));
    let latch = wiring.push(Cell::new(LATCH, 0, control, 3));
    for format in Format::BOTH {
        let mut run = Run::begin_in(format, &file_of_idle(&wiring.cells, 1), &start_with([5]));
        let place = run.at(latch, NOW);
        run.state[place..place + 2].copy_from_slice(&[0x34, 0x12]);
        let mut high = run.clone();
        run.go(1);
        assert_eq!(run.word(latch), 0x1234);
        // The control wire's value now is its value an instant ago of the next.
        let place = high.at(control, NOW);
        high.state[place] = 1;
        high.go(1);
        assert_eq!((high.word(latch), high.now(control)), (5, 0));
        assert_eq!(high.state[high.at(latch, AGO)..][..2], [0x34, 0x12]);
        high.go(1);
        assert_eq!(high.word(latch), 5);
    }
}

/// Any word, and nothing else: no held bits, no line, no zero bytes set.
#[test]
fn a_state_tells_of_a_latch_its_word_alone() {
    let mut wiring = Wiring::default();
    let latch = wiring.push(Cell::new(LATCH, 0, 0, 3));
    for format in Format::BOTH {
        let run = Run::begin_in(format, &file_of_idle(&wiring.cells, 1), &START);
        let (first, next) = (run.at(latch, NOW), run.at(latch + 1, NOW));
        for place in first..next {
            let mut changed = run.clone();
            changed.state[place] = 0xff;
            match place - first {
                NOW..HELD_A => drop(changed.go(1)),
                _ => changed.assert_refused(1, 15),
            }
        }
    }
}

/// A latch for each memory, behind one control wire.
#[test]
fn latches_behind_one_control_wire_take_a_word_each() {
    let start: [u16; 16] = std::array::from_fn(|k| 1_000 + k as u16);
    let mut wiring = Wiring::default();
    let control = wiring.pulses(&[3]);
    let latches: Vec<u16> = (0..16)
        .map(|k| wiring.push(Cell::new(LATCH, 0, control, 3 + k)))
        .collect();
    for format in Format::BOTH {
        let mut run = Run::begin_in(format, &file_of_idle(&wiring.cells, 1), &start_with(start));
        run.go(3);
        assert!(latches.iter().all(|&latch| run.word(latch) == 0));
        run.go(1);
        let shown: Vec<u16> = latches.iter().map(|&latch| run.word(latch)).collect();
        assert_eq!(shown, start);
    }
}

/// A latch that a longer pulse is the control wire of takes the last word of it.
#[test]
fn a_longer_pulse_is_a_long_control_wire() {
    let mut wiring = Wiring::default();
    let data = clocked(&mut wiring, 1);
    let latch = wiring.push(Cell::new(LATCH, 0, 0, data));
    let mut run = Run::begin(&pulsed_file_of_idle(3, &wiring.cells, 1), &START);
    // The data is 1 at instants 1, 2 and 3, start is high at 0, 1 and 2.
    for word in [0, 1, 1, 1, 1] {
        run.go(1);
        assert_eq!(run.word(latch), word);
    }
}
