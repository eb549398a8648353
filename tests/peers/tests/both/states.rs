//! States that no run leaves behind: what refusal 15 names is refused, and
//! everything else is taken as it stands.

use crate::expect::{refused, START};
use crate::netlist::{file_of_idle as file, FIRST_ARRAY as ARRAY, FREE};
use crate::run::*;
use peers::BOTH;
use second::cells::{CONSTANT, DELAY, MERGE, READ};
use values::{Cell, Format, Refusal};

fn begun(file: &[u8]) -> Vec<u8> {
    Run::begin(file, &START).state
}

/// The state one instant later.
fn next(file: &[u8], state: &[u8]) -> Vec<u8> {
    let continued = (BOTH.continue_by)(Format::Full, file, 1, state);
    continued.result.expect("a lawful state");
    continued.lent[0].clone()
}

#[test]
fn a_line_decides_whatever_its_input_was() {
    let file = file(&[Cell::new(DELAY, 2, 1, 0)], FREE);
    let mut state = begun(&file);
    // Ground was never high, yet the line says so of the present instant.
    state[at(FREE, LINE)] = 0b1;
    state[NUMBER] = 1;
    let first = next(&file, &state);
    assert_eq!((first[at(FREE, NOW)], first[at(FREE, LINE)]), (0, 0b10));
    let second = next(&file, &first);
    assert_eq!((second[at(FREE, NOW)], second[at(FREE, LINE)]), (1, 0b100));
    let third = next(&file, &second);
    assert_eq!((third[at(FREE, NOW)], third[at(FREE, LINE)]), (0, 0b1000));
}

#[test]
fn the_output_comes_from_the_line_and_not_from_the_wire() {
    let file = file(&[Cell::new(DELAY, 1, 1, 0)], FREE);
    let mut state = begun(&file);
    state[at(FREE, NOW)] = 1;
    let after = next(&file, &state);
    assert_eq!((after[at(FREE, NOW)], after[at(FREE, AGO)]), (0, 1));
}

#[test]
fn bits_beyond_the_delay_move_on_and_fall_off() {
    let file = file(&[Cell::new(DELAY, 1, 1, 0)], FREE);
    let mut state = begun(&file);
    state[at(FREE, LINE + 31)] = 0b1100_0000;
    let after = next(&file, &state);
    assert_eq!(after[at(FREE, NOW)], 0);
    assert_eq!(after[at(FREE, LINE)..at(FREE, LINE + 31)], [0; 31]);
    assert_eq!(after[at(FREE, LINE + 31)], 0b1000_0000);
}

#[test]
fn start_and_constants_come_right_by_themselves() {
    let file = file(&[Cell::new(CONSTANT, 0, 258, 0)], 0);
    let mut state = next(&file, &begun(&file));
    state[at(0, NOW)] = 1;
    state[at(1, NOW)] = 1;
    state[at(FREE, NOW)] = 9;
    let after = next(&file, &state);
    assert_eq!((after[at(0, NOW)], after[at(0, AGO)]), (0, 1));
    assert_eq!((after[at(1, NOW)], after[at(1, AGO)]), (0, 1));
    assert_eq!(after[at(FREE, NOW)..at(FREE, NOW + 2)], [2, 1]);
    assert_eq!(after[at(FREE, AGO)..at(FREE, AGO + 2)], [9, 1]);
}

#[test]
fn two_held_bits_are_a_pulse_at_the_next_instant() {
    let file = file(&[Cell::new(MERGE, 0, 1, 1)], FREE);
    let mut state = begun(&file);
    state[at(FREE, HELD_A)] = 1;
    state[at(FREE, HELD_B)] = 1;
    state[NUMBER] = 2;
    let after = next(&file, &state);
    assert_eq!(after[at(FREE, NOW)], 1);
    assert_eq!(after[at(FREE, HELD_A)..at(FREE, ZERO_BYTE)], [0, 0]);
    assert_eq!(next(&file, &after)[at(FREE, NOW)], 0);
}

#[test]
fn a_memory_latches_the_data_that_the_state_shows() {
    // Ground clocks the memories; in the state it is high, so it falls.
    let file = file(&[], 0);
    let mut state = next(&file, &begun(&file));
    state[at(1, NOW)] = 1;
    state[at(2, NOW)] = 77;
    let after = next(&file, &state);
    assert!((3..ARRAY).all(|memory| after[at(memory, NOW)] == 77));
    let later = next(&file, &after);
    assert!((3..ARRAY).all(|memory| later[at(memory, NOW)] == 77));
}

/// Data and address are both cell 2: word 77 goes to element 13 of each array.
#[test]
fn an_array_takes_the_data_and_the_address_that_the_state_shows() {
    let read = Cell::new(READ, 0, ARRAY + 2, FREE);
    let file = file(&[Cell::new(CONSTANT, 0, 64 + 13, 0), read], 0);
    let mut state = next(&file, &begun(&file));
    state[at(1, NOW)] = 1;
    state[at(2, NOW)] = 77;
    state[at(ARRAY, NOW)] = 5;
    let after = next(&file, &state);
    assert_eq!(after[at(FREE + 1, NOW)], 77, "the read");
    let shown = [at(ARRAY, NOW), at(ARRAY, AGO)].map(|place| after[place]);
    assert_eq!(shown, [0, 5], "the array");
    let mut elements = [0; 512];
    for array in 0..4 {
        elements[128 * array + 2 * 13] = 77;
    }
    let arrays = at(FREE + 2, 0)..;
    assert_eq!(after[arrays.clone()], elements);
    assert_eq!(next(&file, &after)[arrays], elements);
}

#[test]
fn a_high_finish_is_continued_like_any_other() {
    let file = file(&[Cell::new(DELAY, 1, 1, 0)], FREE);
    let mut state = begun(&file);
    state[at(FREE, NOW)] = 1;
    for (n, expected) in [(0, (true, 0, 0)), (5, (false, 5, 5))] {
        let continued = (BOTH.continue_by)(Format::Full, &file, n, &state);
        let answer = continued.result.expect("a lawful state");
        assert_eq!((answer.ended, answer.instant, answer.count), expected);
        state.clone_from(&continued.lent[0]);
    }
}

#[test]
fn what_refusal_15_names_is_refused_and_nothing_else() {
    let delay = FREE;
    let (merge, sum) = (FREE + 1, FREE + 2);
    let file = file(
        &[
            Cell::new(DELAY, 1, 0, 0),
            Cell::new(MERGE, 0, 0, 1),
            Cell::new(4, 0, 2, 2),
        ],
        delay,
    );
    let unlawful = [
        (NUMBER, 1),
        (NUMBER + 3, 1),
        (at(merge, HELD_B), 1),
        (at(delay, LINE), 0),
        (at(delay, NOW), 2),
        (at(delay, NOW + 1), 1),
        (at(delay, AGO), 2),
        (at(delay, AGO + 1), 1),
        (at(merge, NOW), 2),
        (at(0, AGO + 1), 1),
        (at(merge, HELD_A), 2),
        (at(merge, HELD_B), 2),
        (at(delay, HELD_A), 1),
        (at(sum, HELD_B), 1),
        (at(merge, ZERO_BYTE), 1),
        (at(sum, ZERO_BYTE + 1), 1),
        (at(merge, LINE), 1),
        (at(sum, LINE + 31), 128),
        (at(ARRAY, LINE), 1),
        (at(ARRAY + 1, LINE + 31), 1),
        (at(ARRAY, HELD_A), 1),
        (at(ARRAY + 1, HELD_B), 1),
        (at(ARRAY + 7, ZERO_BYTE), 1),
    ];
    for (place, byte) in unlawful {
        let found = with_byte(&file, place, byte);
        assert_eq!(found, refused(15, 0), "byte {place} = {byte}");
    }
    let taken = [
        (at(delay, NOW), 1),
        (at(delay, AGO), 1),
        (at(sum, NOW + 1), 255),
        (at(sum, AGO + 1), 255),
        (at(delay, LINE + 31), 255),
        (at(ARRAY, NOW), 5),
        (at(ARRAY + 1, AGO + 1), 5),
        (at(sum + 1, 0), 255),
        (at(sum + 1, 511), 255),
    ];
    for (place, byte) in taken {
        assert_eq!(
            with_byte(&file, place, byte),
            Ok(()),
            "byte {place} = {byte}"
        );
    }
}

/// Continuing from the begun state with one byte changed.
fn with_byte(file: &[u8], place: usize, byte: u8) -> Result<(), Refusal> {
    let mut state = begun(file);
    state[place] = byte;
    (BOTH.continue_by)(Format::Full, file, 1, &state)
        .result
        .map(drop)
}
