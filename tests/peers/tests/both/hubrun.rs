//! The text of hubrun at its corners; the vectors hold the common course.

use crate::nodes::*;
use peers::BOTH;

/// Case 2: x0 := 5, d 1.
const CASE_2: [u8; 8] = [18, 1, 0, 0, 1, 0, 5, 0];
const OK: [u8; 4] = [16, 0, 0, 0];
const UNKNOWN_KIND: [u8; 4] = [0, 0, 0, 0];

fn printed_for(input: &[u8]) -> String {
    String::from_utf8((BOTH.hubrun_text)(input)).expect("a text")
}

/// What hubrun prints for zero start words.
fn printed(budget: u32, program: &[u8]) -> String {
    printed_for(&[&[0; 32], &budget.to_le_bytes()[..], program].concat())
}

#[test]
fn the_example_of_the_paper() {
    let expected = "end 2\n5 0 0 0 0 0 0 0 0 0 0 0 0 0 0 0\n";
    assert_eq!(printed(10, &CASE_2), expected);
}

#[test]
fn an_open_run_shows_the_memories() {
    let expected = "open 1\n0 0 0 0 0 0 0 0 0 0 0 0 0 0 0 0\n";
    assert_eq!(printed(1, &CASE_2), expected);
}

/// a3[5] := 9, then x0 := a3[5] + a3[6].
#[test]
fn elements_start_at_0_and_are_not_printed() {
    let [fifth, sixth] = [5, 6].map(|index| element(3, constant(index)));
    let assigned = assign_element(3, constant(5), constant(9), 1);
    let program = sequence(assigned, assign(0, sum(fifth, sixth), 20));
    let expected = "end 23\n9 0 0 0 0 0 0 0 0 0 0 0 0 0 0 0\n";
    assert_eq!(printed(100, &program), expected);
}

#[test]
fn input_without_a_program_is_refusal_1() {
    for length in 0..=36 {
        assert_eq!(printed_for(&vec![0; length]), "refused 1 0\n", "{length}");
    }
}

#[test]
fn input_above_836_bytes_is_refusal_1() {
    assert_eq!(printed(10, &OK.repeat(201)), "refused 1 0\n");
    assert_eq!(printed(10, &OK.repeat(200)), "refused 6 1\n");
}

#[test]
fn a_program_is_refused_before_its_budget() {
    assert_eq!(printed(1_000_001, &UNKNOWN_KIND), "refused 2 0\n");
    assert_eq!(printed(1_000_001, &OK), "refused 13 0\n");
    assert_eq!(printed(u32::MAX, &OK), "refused 13 0\n");
    let expected = "end 0\n0 0 0 0 0 0 0 0 0 0 0 0 0 0 0 0\n";
    assert_eq!(printed(1_000_000, &OK), expected);
}

/// As a full disk takes nothing.
#[cfg(feature = "proved")]
#[test]
fn output_that_cannot_be_written_is_told() {
    for program in ["hubrun", "hubtext"] {
        let told = String::from_utf8(peers::complaint(program)).expect("a text");
        let expected = format!("{program}: standard output can't be written\n");
        assert_eq!(told, expected);
    }
}
