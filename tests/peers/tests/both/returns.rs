//! The merge of a call, kind 39, wired by hand: when it puts out, what it holds,
//! and which of its states are refused.

use crate::expect::START;
use crate::netlist::{pulsed_file_of_idle, Wiring};
use crate::run::*;
use second::cells::{MERGE, RETURN};
use values::Cell;

/// A merge of this kind with pulses at these instants: its number, and a run.
fn wired(kind: u8, a: &[u8], b: &[u8]) -> (u16, Run) {
    pulsed(1, kind, a, b)
}

/// The same with pulses of this length from these instants on.
pub fn pulsed(pulse: u8, kind: u8, a: &[u8], b: &[u8]) -> (u16, Run) {
    let mut wiring = Wiring::default();
    let (a, b) = (wiring.pulses(a), wiring.pulses(b));
    let merge = wiring.push(Cell::new(kind, 0, a, b));
    // The finish is ground, so that nothing stops a continuing.
    let file = pulsed_file_of_idle(pulse, &wiring.cells, 1);
    (merge, Run::begin(&file, &START))
}

fn outputs(kind: u8, a: &[u8], b: &[u8]) -> Vec<u32> {
    pulsed_outputs(1, kind, a, b)
}

/// The instants up to 12 at which its output is high.
pub fn pulsed_outputs(pulse: u8, kind: u8, a: &[u8], b: &[u8]) -> Vec<u32> {
    let (merge, mut run) = pulsed(pulse, kind, a, b);
    let is_high = |instant: &u32| {
        run.go(u32::from(*instant > 0));
        run.now(merge) == 1
    };
    (0..=12).filter(is_high).collect()
}

#[test]
fn b_comes_in_the_same_instant_or_later() {
    assert_eq!(outputs(RETURN, &[3], &[3]), [3]);
    assert_eq!(outputs(RETURN, &[2], &[5]), [5]);
    assert_eq!(outputs(RETURN, &[2], &[3]), [3]);
    assert_eq!(outputs(RETURN, &[2], &[]), []);
    assert_eq!(outputs(RETURN, &[], &[2]), []);
}

/// Unlike the merge of a parallel node.
#[test]
fn a_lone_b_is_forgotten() {
    assert_eq!(outputs(RETURN, &[4], &[1]), []);
    assert_eq!(outputs(MERGE, &[4], &[1]), [4]);
    assert_eq!(outputs(RETURN, &[4], &[1, 3, 6]), [6]);
    assert_eq!(outputs(RETURN, &[4], &[1, 4]), [4]);
}

#[test]
fn it_is_cleared_by_its_output() {
    assert_eq!(outputs(RETURN, &[2], &[4, 5, 9]), [4]);
    assert_eq!(outputs(RETURN, &[2], &[2, 3]), [2]);
    assert_eq!(outputs(RETURN, &[2, 5], &[4, 5, 8]), [4, 5]);
    assert_eq!(outputs(RETURN, &[2, 5], &[4, 8, 9]), [4, 8]);
    // A second a in the instant of the output, and two a before it, are one.
    assert_eq!(outputs(RETURN, &[2, 4], &[4, 8]), [4]);
    assert_eq!(outputs(RETURN, &[2, 3], &[5, 6]), [5]);
}

/// The numbers count the pulses on their way to it, too.
#[test]
fn what_it_holds_is_a_and_counts() {
    let (merge, mut run) = wired(RETURN, &[2], &[5]);
    run.go(2);
    let held = |run: &Run| [HELD_A, HELD_B].map(|byte| run.state[at(merge, byte)]);
    assert_eq!((held(&run), run.in_flight()), ([1, 0], 2));
    run.go(3);
    assert_eq!((held(&run), run.in_flight()), ([0, 0], 0));
    let (merge, mut run) = wired(RETURN, &[9], &[2]);
    run.go(2);
    let held = [HELD_A, HELD_B].map(|byte| run.state[at(merge, byte)]);
    assert_eq!((held, run.in_flight()), ([0, 0], 1));
}

/// A state made by hand, as if it had been called before.
#[test]
fn a_held_a_may_be_set_where_the_number_tells_it() {
    let (merge, begun) = wired(RETURN, &[], &[3]);
    let mut called = begun.clone();
    called.state[at(merge, HELD_A)] = 1;
    called.assert_refused(1, 15);
    called.tell_in_flight(2);
    called.go(2);
    assert_eq!((called.now(merge), called.in_flight()), (0, 2));
    called.go(1);
    assert_eq!((called.now(merge), called.in_flight()), (1, 0));
}

#[test]
fn a_held_b_and_other_bytes_that_it_has_not_are_15() {
    let (merge, begun) = wired(RETURN, &[2], &[5]);
    let number = begun.in_flight();
    for (byte, value) in [(HELD_B, 1), (HELD_B, 2), (HELD_A, 2), (NOW, 2), (AGO, 2)] {
        for told in [number, number + 1, number + 2] {
            let mut other = begun.clone();
            other.state[at(merge, byte)] = value;
            other.tell_in_flight(told);
            other.assert_refused(0, 15);
            other.assert_refused(3, 15);
        }
    }
    for byte in [NOW + 1, AGO + 1, ZERO_BYTE, ZERO_BYTE + 1, LINE, LINE + 31] {
        let mut other = begun.clone();
        other.state[at(merge, byte)] = 1;
        other.assert_refused(1, 15);
    }
    // With both bits held where a parallel node's merge stands it is no refusal.
    let (merge, mut plain) = wired(MERGE, &[2], &[5]);
    plain.state[at(merge, HELD_B)] = 1;
    plain.tell_in_flight(number + 1);
    plain.go(1);
    assert_eq!(plain.in_flight(), number + 1);
}
