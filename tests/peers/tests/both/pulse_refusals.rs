//! Refusals 7 and 27 with pulses longer than an instant, and what they come before
//! and after.

use crate::expect::{refused, START};
use crate::netlist::{idle, pulsed_file};
use crate::nodes::*;
use crate::pulses::{main_alone, told, Pulsed};
use crate::run::*;
use peers::BOTH;
use values::{Format, Given};

/// Loops and a call, of the delay that is asked for; its place is behind the body.
fn going_round(d: u8) -> [Pulsed; 4] {
    let called = Pulsed {
        procedures: 1,
        program: [ok(), call(0, d)].concat(),
    };
    [
        main_alone(while_do(variable(0), d, ok())),
        main_alone(repeat_until(ok(), variable(0), d)),
        main_alone(loop_of(d, exit())),
        called,
    ]
}

#[test]
fn loops_and_calls_need_a_delay_above_the_pulse() {
    for pulse in 2..=8 {
        for d in [0, 1, pulse - 1, pulse] {
            for pulsed in going_round(d) {
                let expected = refused(7, pulsed.procedures);
                assert_eq!(pulsed.check(pulse), expected, "{:?}", pulsed.program);
            }
        }
        for pulsed in going_round(pulse + 1) {
            assert_eq!(pulsed.check(pulse), Ok(()), "{:?}", pulsed.program);
        }
    }
    for pulsed in going_round(1) {
        assert_eq!(pulsed.check(1), Ok(()), "{:?}", pulsed.program);
    }
}

#[test]
fn other_statements_need_no_longer_delay() {
    for program in [
        tick(1),
        assign(0, constant(1), 1),
        assign_element(0, constant(1), constant(1), 1),
        if_then_else(variable(0), 0, ok(), ok()),
    ] {
        let pulsed = main_alone(program);
        assert_eq!(pulsed.check(8), Ok(()), "{:?}", pulsed.program);
    }
}

/// An expression's time may ask for more than the pulse does; the place is that
/// of the first node, also where it never runs.
#[test]
fn the_larger_need_counts_at_the_first_node() {
    let difference = || difference(variable(0), constant(1));
    let program = |d| while_do(difference(), d, ok());
    assert_eq!(main_alone(program(16)).check(8), refused(7, 0));
    assert_eq!(main_alone(program(17)).check(8), Ok(()));
    let dead = main_alone(loop_of(9, sequence(exit(), loop_of(8, exit()))));
    assert_eq!(dead.check(8), refused(7, 3));
    assert_eq!(dead.check(7), Ok(()));
    // 22 and 24 come before it, 8 after it.
    let late = sequence(loop_of(2, ok()), exit());
    assert_eq!(main_alone(late).check(2), refused(22, 3));
    let absent = sequence(loop_of(2, ok()), call(0, 9));
    assert_eq!(main_alone(absent).check(2), refused(24, 3));
    let side = || sequence(assign(0, constant(1), 1), loop_of(2, exit()));
    let clash = main_alone(parallel(side(), side()));
    assert_eq!(clash.check(2), refused(7, 4));
    assert_eq!(clash.check(1), refused(8, 0));
}

/// Before the table, the text, the program, the budget and the room.
#[test]
fn a_length_that_no_pulse_has_is_27_before_all_else() {
    for pulse in [0, 9, 10, 128, 255] {
        for table in [None, Some(&[][..])] {
            let given = Given {
                table,
                pulse,
                ..Given::procedures(9)
            };
            let none = refused(27, 0);
            assert_eq!((BOTH.check)(given, &[]).result, none);
            assert_eq!((BOTH.compile)(given, &[], &[]).result.map(drop), none);
            assert_eq!((BOTH.read_text)(given, b"?", &[]).result.map(drop), none);
            assert_eq!((BOTH.compile_text)(given, b"?", &[]).result.map(drop), none);
            let ran = (BOTH.run_program)(given, &[], &[], u32::MAX, &[], &[]);
            assert_eq!(ran.result.map(drop), none);
            let ran = (BOTH.run_text)(given, b"?", &[], u32::MAX, &[], &[]);
            assert_eq!(ran.result.map(drop), none);
            let ended = (BOTH.reference_run)(given, &[], &[], u32::MAX);
            assert_eq!(ended.result.map(drop), none);
        }
    }
    let table = Given::table(Some(&[]));
    for pulse in 1..=8 {
        let given = Given { pulse, ..table };
        assert_eq!((BOTH.check)(given, &ok()).result, refused(19, 0));
        assert_eq!((BOTH.check)(Given::pulse(pulse), &ok()).result, Ok(()));
    }
}

/// After 12 and before 14 to 16, by every call on a compact state.
#[test]
fn a_longer_pulse_with_a_compact_state_is_27() {
    for pulse in 2..=8 {
        let full = main_alone(tick(3)).begun(pulse, &START);
        let lent = [0xa5; 3];
        let begun = (BOTH.begin)(Format::Compact, &full.file, &[], &lent);
        assert_eq!(begun.result, refused(27, 0));
        assert_eq!(begun.lent, [lent]);
        let run = Run {
            format: Format::Compact,
            state: lent.to_vec(),
            ..full
        };
        run.assert_refused(u32::MAX, 27);
        run.assert_start_refused(27);
        let mut whole = run.clone();
        whole.state = vec![0xff; 2_000];
        whole.assert_refused(1, 27);
        whole.assert_start_refused(27);
    }
    let run = main_alone(tick(3)).begun(1, &START);
    assert_eq!(told(run.compact(&START).go(9)), (true, 3, 3));
}

/// Netlists with longer pulses that are refused for themselves.
#[test]
fn refusals_of_a_netlist_come_before_27() {
    let mut wrong_kind = idle();
    wrong_kind[9].kind = 99;
    let mut wrong_check = pulsed_file(3, &idle(), 0);
    wrong_check[6] ^= 1;
    for (file, number, place) in [
        (vec![0; 3], 9, 0),
        (wrong_check, 10, 0),
        (pulsed_file(9, &idle(), 0), 11, 0),
        (pulsed_file(3, &wrong_kind, 0), 12, 9),
        (pulsed_file(3, &idle(), 2), 12, 2),
        (pulsed_file(3, &idle(), 0), 27, 0),
    ] {
        let expected = refused(number, place);
        let begun = (BOTH.begin)(Format::Compact, &file, &[], &[]);
        assert_eq!(begun.result, expected);
        let continued = (BOTH.continue_by)(Format::Compact, &file, u32::MAX, &[]);
        assert_eq!(continued.result, expected);
        let started = (BOTH.start)(Format::Compact, &file, &[]);
        assert_eq!(started.result, expected);
    }
}
