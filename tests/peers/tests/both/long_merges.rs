//! Merges of both kinds with pulses longer than an instant, wired by hand: when
//! they put out, what they hold, and what becomes of it as the output falls.

use crate::returns::{pulsed, pulsed_outputs};
use crate::run::*;
use second::cells::{MERGE, RETURN};

/// The outputs with pulses of 3 instants, of either kind.
fn outputs_of(a: &[u8], b: &[u8]) -> [Vec<u32>; 2] {
    [MERGE, RETURN].map(|kind| pulsed_outputs(3, kind, a, b))
}

#[test]
fn an_output_is_as_long_as_the_later_pulse() {
    for (a, b) in [(2, 5), (2, 7), (2, 4), (2, 3), (5, 5)] {
        let b_instants: Vec<u32> = (b..b + 3).map(u32::from).collect();
        assert_eq!(outputs_of(&[a], &[b]), [&b_instants[..]; 2], "{a}, {b}");
    }
    for pulse in 2..=8 {
        let from_3 = (3..3 + u32::from(pulse)).collect::<Vec<_>>();
        for kind in [MERGE, RETURN] {
            assert_eq!(pulsed_outputs(pulse, kind, &[1], &[3]), from_3);
        }
    }
}

/// b from 2 to 4. A call's merge puts out while b is high, and forgets a lone b.
#[test]
fn a_later_a_is_waited_for_by_a_parallel_node_alone() {
    assert_eq!(outputs_of(&[3], &[2]), [vec![3, 4, 5], vec![3, 4]]);
    assert_eq!(outputs_of(&[4], &[2]), [vec![4, 5, 6], vec![4]]);
    assert_eq!(outputs_of(&[5], &[2]), [vec![5, 6, 7], vec![]]);
    assert_eq!(outputs_of(&[9], &[2]), [vec![9, 10, 11], vec![]]);
}

#[test]
fn one_input_alone_puts_out_nothing() {
    assert_eq!(outputs_of(&[2], &[]), [vec![], vec![]]);
    assert_eq!(outputs_of(&[], &[2]), [vec![], vec![]]);
    assert_eq!(outputs_of(&[2, 7], &[]), [vec![], vec![]]);
}

/// Two pulses that overlap are one long one, and the output goes on with it.
#[test]
fn an_output_goes_on_while_an_input_is_high() {
    assert_eq!(outputs_of(&[2], &[4, 6])[0], [4, 5, 6, 7, 8]);
    assert_eq!(outputs_of(&[2], &[4, 6])[1], [4, 5, 6, 7, 8]);
    // a goes on from 5 to 7, which only the merge of a parallel node heeds.
    assert_eq!(outputs_of(&[2, 5], &[3])[0], [3, 4, 5, 6, 7]);
    assert_eq!(outputs_of(&[2, 5], &[3])[1], [3, 4, 5]);
}

#[test]
fn after_the_fall_it_waits_for_both_anew() {
    assert_eq!(outputs_of(&[1], &[2, 8]), [vec![2, 3, 4], vec![2, 3, 4]]);
    assert_eq!(outputs_of(&[1, 6], &[2, 9]), [[2, 3, 4, 9, 10, 11]; 2]);
}

/// The output of a call's merge falls with b, that of the other with both.
#[test]
fn an_a_as_the_output_of_a_call_falls_is_lost() {
    let outputs = |a: &[u8]| [MERGE, RETURN].map(|kind| pulsed_outputs(2, kind, a, &[2, 9]));
    assert_eq!(outputs(&[1, 3]), [vec![2, 3, 4], vec![2, 3]]);
    // Of a at 4 and 5 that at 5 is held.
    assert_eq!(outputs(&[1, 4]), [vec![2, 3, 4, 5], vec![2, 3, 9, 10]]);
    assert_eq!(outputs(&[1, 5]), [[2, 3, 9, 10]; 2]);
}

/// What a merge shows from instant 0 on, a sign for each: its output and the bits
/// held afterwards, and the number in flight.
struct Shown<'a> {
    output: &'a str,
    held_a: &'a str,
    held_b: &'a str,
    number: &'a [u32],
}

impl Shown<'_> {
    /// With pulses of this length from these instants on.
    fn assert(&self, pulse: u8, kind: u8, a: &[u8], b: &[u8]) {
        let (merge, mut run) = pulsed(pulse, kind, a, b);
        let waves = [self.output, self.held_a, self.held_b].map(str::as_bytes);
        for (instant, &number) in self.number.iter().enumerate() {
            run.go(u32::from(instant > 0));
            let [output, a, b] = waves.map(|wave| u8::from(wave[instant] == b'1'));
            assert_eq!(shown(&run, merge), (output, [a, b], number), "at {instant}");
        }
    }
}

fn shown(run: &Run, merge: u16) -> (u8, [u8; 2], u32) {
    let held = [HELD_A, HELD_B].map(|byte| run.state[at(merge, byte)]);
    (run.now(merge), held, run.in_flight())
}

/// a at 1 and 2, b at 4 and 5: the lines of 1 and 4 have a bit each at 0, and
/// start one more instant.
#[test]
fn held_bits_stay_until_the_output_falls() {
    let of_both = Shown {
        output: "00001100",
        held_a: "01111100",
        held_b: "00001100",
        number: &[3, 4, 3, 3, 3, 2, 0, 0],
    };
    of_both.assert(2, MERGE, &[1], &[4]);
    let of_a = Shown {
        held_b: "00000000",
        number: &[3, 4, 3, 3, 2, 1, 0, 0],
        ..of_both
    };
    of_a.assert(2, RETURN, &[1], &[4]);
}

/// a from 2 to 4, b from 1 to 3; then a an instant longer, at 5, before which the
/// output was low.
#[test]
fn an_a_that_outlasts_the_output_of_a_call_is_held_again() {
    let shorter = Shown {
        output: "001100",
        held_a: "001100",
        held_b: "000000",
        number: &[4, 4, 4, 2, 0, 0],
    };
    shorter.assert(3, RETURN, &[2], &[1]);
    let longer = Shown {
        output: "0001000",
        held_a: "0001011",
        held_b: "0000000",
        number: &[4, 4, 4, 3, 1, 1, 1],
    };
    longer.assert(3, RETURN, &[3], &[1]);
}

/// Both sides at once: held while the output is high, and not an instant longer.
#[test]
fn sides_that_end_together_are_held_while_the_output_is_high() {
    let together = Shown {
        output: "0111111110",
        held_a: "0111111110",
        held_b: "0111111110",
        number: &[9, 10, 9, 8, 7, 6, 5, 4, 2, 0],
    };
    together.assert(8, MERGE, &[1], &[1]);
}

/// A state made by hand in which both bits are held: what a merge of the base
/// would put out waits here for an input, or falls where it was put out before.
#[test]
fn two_held_bits_put_out_nothing_without_an_input() {
    let (merge, mut run) = pulsed(3, MERGE, &[], &[9]);
    run.go(3);
    for byte in [HELD_A, HELD_B] {
        run.state[at(merge, byte)] = 1;
    }
    run.tell_in_flight(5);
    let mut falling = run.clone();
    run.go(1);
    assert_eq!(shown(&run, merge), (0, [1, 1], 5));
    run.go(5);
    assert_eq!(shown(&run, merge), (1, [1, 1], 4));
    falling.state[at(merge, NOW)] = 1;
    falling.go(1);
    assert_eq!(shown(&falling, merge), (0, [0, 0], 3));
}

/// A merge that shows 1 and holds nothing falls all the same, and an input of
/// that instant is lost; an instant later it is held.
#[test]
fn an_output_that_a_state_tells_falls() {
    for kind in [MERGE, RETURN] {
        let (merge, mut run) = pulsed(3, kind, &[2], &[]);
        run.go(1);
        run.state[at(merge, NOW)] = 1;
        run.go(1);
        assert_eq!(shown(&run, merge), (0, [0, 0], 2));
        run.go(1);
        assert_eq!(shown(&run, merge), (0, [1, 0], 2));
    }
}

/// The same netlist with pulses of one instant has the merge of the base.
#[test]
fn pulses_of_one_instant_are_put_out_at_once_and_cleared() {
    for kind in [MERGE, RETURN] {
        assert_eq!(pulsed_outputs(1, kind, &[2], &[4]), [4]);
        assert_eq!(pulsed_outputs(1, kind, &[2, 3], &[2, 3]), [2, 3]);
        let waiting = Shown {
            output: "0001",
            held_a: "0110",
            held_b: "0000",
            number: &[2, 2, 2, 0],
        };
        waiting.assert(1, kind, &[1], &[3]);
    }
}
