//! Lent buffers: what is too short, what is kept, and the order of 13 to 16.

use crate::expect::{refused, state_length, START};
use peers::BOTH;
use values::{Format, Given};

/// x0 := 5, d 1: 31 cells, so one block and a state of 1,760 bytes.
const PROGRAM: [u8; 8] = [18, 1, 0, 0, 1, 0, 5, 0];
const NETLIST_LENGTH: usize = 512;
const STATE_LENGTH: usize = state_length(Format::Full, 31);

/// What a lent buffer holds at entry.
static LENT: [u8; 2_000] = [7; 2_000];

fn netlist() -> Vec<u8> {
    let compiled = (BOTH.compile)(Given::NOTHING, &PROGRAM, &LENT[..NETLIST_LENGTH]);
    compiled.result.expect("case 2 compiles");
    compiled.lent[0].clone()
}

fn begun() -> Vec<u8> {
    let begun = (BOTH.begin)(Format::Full, &netlist(), &START, &LENT[..STATE_LENGTH]);
    begun.result.expect("case 2 begins");
    begun.lent[0].clone()
}

#[test]
fn a_buffer_of_exactly_the_length_is_enough() {
    let continued = (BOTH.continue_by)(Format::Full, &netlist(), 10, &begun());
    let answer = continued.result.expect("it fits");
    assert_eq!((answer.ended, answer.instant, answer.count), (true, 2, 2));
}

#[test]
fn a_buffer_one_byte_too_short_is_refused_and_kept() {
    let file = &LENT[..NETLIST_LENGTH - 1];
    let compiled = (BOTH.compile)(Given::NOTHING, &PROGRAM, file);
    assert_eq!(compiled.result, refused(14, 0));
    assert_eq!(compiled.lent, [file]);

    let cells = &LENT[..6 * 31 - 1];
    let read = (BOTH.read_netlist)(&netlist(), cells);
    assert_eq!(read.result, refused(14, 0));
    assert_eq!(read.lent, [cells]);

    let state = &LENT[..STATE_LENGTH - 1];
    let begun = (BOTH.begin)(Format::Full, &netlist(), &START, state);
    assert_eq!(begun.result, refused(14, 0));
    assert_eq!(begun.lent, [state]);
}

#[test]
fn start_words_under_544_bytes_are_refused() {
    let (file, state) = (&LENT[..NETLIST_LENGTH], &LENT[..STATE_LENGTH]);
    for length in [0, 31, 32, 543] {
        let words = &START[..length];
        let begun = (BOTH.begin)(Format::Full, &netlist(), words, state);
        assert_eq!(begun.result, refused(14, 0), "{length}");
        assert_eq!(begun.lent, [state], "{length}");
        let ran = (BOTH.run_netlist)(&netlist(), words, 10, state);
        assert_eq!(ran, begun, "{length}");
        let ran = (BOTH.run_program)(Given::NOTHING, &PROGRAM, words, 10, file, state);
        assert_eq!(ran.result, refused(14, 0), "{length}");
        assert_eq!(ran.lent, [file, state], "{length}");
        let by_the_rules = (BOTH.reference_run)(Given::NOTHING, &PROGRAM, words, 10);
        assert_eq!(by_the_rules.result, refused(14, 0), "{length}");
    }
}

#[test]
fn start_words_may_be_followed_by_others() {
    let state = &LENT[..STATE_LENGTH];
    let longer = [&START[..], &[9; 7]].concat();
    let begun = (BOTH.begin)(Format::Full, &netlist(), &longer, state);
    assert_eq!(begun, (BOTH.begin)(Format::Full, &netlist(), &START, state));
    assert!(begun.result.is_ok());
}

#[test]
fn a_state_without_all_words_of_the_arrays_is_refused() {
    for missing in [1, 2, 511, 512] {
        let state = &LENT[..STATE_LENGTH - missing];
        let begun = (BOTH.begin)(Format::Full, &netlist(), &START, state);
        assert_eq!(begun.result, refused(14, 0), "{missing}");
        assert_refused(&self::begun()[..STATE_LENGTH - missing], 1, 14);
    }
}

#[test]
fn a_full_run_with_one_short_buffer_writes_to_none() {
    for (file_length, state_length) in [
        (NETLIST_LENGTH - 1, STATE_LENGTH),
        (NETLIST_LENGTH, STATE_LENGTH - 1),
    ] {
        let (file, state) = (&LENT[..file_length], &LENT[..state_length]);
        let ran = (BOTH.run_program)(Given::NOTHING, &PROGRAM, &START, 10, file, state);
        assert_eq!(ran.result, refused(14, 0));
        assert_eq!(ran.lent, [file, state]);
    }
}

#[test]
fn thirteen_comes_before_fourteen() {
    let ran = (BOTH.run_netlist)(&netlist(), &[], 1_000_001, &[]);
    assert_eq!(ran.result, refused(13, 0));
    let ran = (BOTH.run_program)(Given::NOTHING, &PROGRAM, &[], 1_000_001, &[], &[]);
    assert_eq!(ran.result, refused(13, 0));
}

/// Continuing from this state by so many is refused so, and changes nothing.
fn assert_refused(state: &[u8], n: u32, number: u8) {
    let continued = (BOTH.continue_by)(Format::Full, &netlist(), n, state);
    assert_eq!(continued.result, refused(number, 0));
    assert_eq!(continued.lent, [state]);
}

#[test]
fn fourteen_comes_before_fifteen_before_sixteen() {
    let mut state = begun();
    // One pulse is in flight.
    state[4] = 2;
    assert_refused(&state[..STATE_LENGTH - 1], u32::MAX, 14);
    assert_refused(&state, u32::MAX, 15);
    state[4] = 1;
    assert_refused(&state, u32::MAX, 16);
}

#[test]
fn a_budget_of_a_million_is_the_last_good_one() {
    assert_refused(&begun(), 1_000_001, 16);
    let continued = (BOTH.continue_by)(Format::Full, &netlist(), 1_000_000, &begun());
    let answer = continued.result.expect("within reach");
    assert_eq!((answer.ended, answer.instant), (true, 2));
}

#[test]
fn continuing_by_none_changes_nothing() {
    let before = begun();
    let continued = (BOTH.continue_by)(Format::Full, &netlist(), 0, &before);
    let answer = continued.result.expect("it fits");
    assert_eq!((answer.ended, answer.instant, answer.count), (false, 0, 0));
    assert_eq!(continued.lent, [before]);
}

#[test]
fn a_state_beyond_all_instants_is_refused() {
    for instant in [1_000_001, 0x7fff_ffff, 0x8000_0000, u32::MAX] {
        let mut state = begun();
        state[..4].copy_from_slice(&instant.to_le_bytes());
        for n in [0, 1, u32::MAX] {
            assert_refused(&state, n, 16);
        }
    }
}
