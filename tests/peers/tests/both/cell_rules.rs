//! Refusal 12 of cells: every rule broken by itself, and which is told first.
//! Each is met by the check, by writing and by reading, at the same place as by
//! the calls on six bytes for each cell.

use crate::expect::refused;
use crate::netlist::{every_kind, file, fixed, idle_arrays, COUNT, FINISH};
use peers::BOTH;
use values::Cell;

/// The cell that is put into the netlist; no other names it.
const PUT: usize = 41;

/// The first cell of the arrays, and the cells after them.
const ARRAYS: usize = 19;
const PAST_ARRAYS: usize = 27;

/// Wires of the netlist: lower than the cell put in, higher, and none at all.
const CONTROL: u16 = 39;
const WORD: u16 = 40;
const ITSELF: u16 = 41;
const HIGHER_WORD: u16 = 42;
const HIGHER_CONTROL: u16 = 43;
const NONE: u16 = 44;

/// Arrays and addresses, which are wires of neither sort.
const ARRAY: u16 = 19;
const ADDRESS: u16 = 20;

/// What no input that wants a word of a lower cell may be, and likewise for a
/// control wire.
const NO_WORD: [u16; 8] = [
    0,
    CONTROL,
    ARRAY,
    ADDRESS,
    ITSELF,
    HIGHER_WORD,
    NONE,
    65_535,
];
const NO_CONTROL: [u16; 8] = [
    2,
    WORD,
    ARRAY,
    ADDRESS,
    ITSELF,
    HIGHER_CONTROL,
    NONE,
    65_535,
];

/// What no input that wants the word of any cell may be.
const NOWHERE_A_WORD: [u16; 7] = [0, CONTROL, HIGHER_CONTROL, ARRAY, ADDRESS, NONE, 65_535];

fn with(number: usize, cell: Cell) -> Vec<Cell> {
    let mut cells = every_kind();
    cells[number] = cell;
    cells
}

fn assert_good(cells: &[Cell]) {
    let checked = (BOTH.check_cells)(cells, FINISH);
    assert_eq!(checked.result, Ok(()), "{:?}", cells[PUT]);
}

/// All calls refuse these cells with 12 at this place and write nothing.
fn assert_refused(cells: &[Cell], finish: u16, place: usize) {
    let (lent_file, lent) = ([0xa5; 600], [Cell::new(0xa5, 1, 2, 3); 50]);
    let (bytes, file) = (Cell::all_bytes(cells), file(cells, finish));
    let name = format!("at {place}: {:?}", cells.get(place));
    let checked = (BOTH.check_cells)(cells, finish);
    assert_eq!(checked.result, refused(12, place), "{name}");
    let written = (BOTH.write_cells)(1, cells, finish, &lent_file);
    assert_eq!(written.result, refused(12, place), "{name}");
    assert_eq!(written.lent, [lent_file], "{name}");
    let by_bytes = (BOTH.write_netlist)(1, &bytes, finish, &lent_file);
    assert_eq!(written, by_bytes, "{name}");
    for at in [0, 7] {
        let read = (BOTH.read_cells)(&file, at, &lent);
        assert_eq!(read.result, refused(12, place), "{name}");
        assert_eq!(read.lent, [lent], "{name}");
    }
}

/// Each cell put in at its place breaks a rule.
fn assert_bad(bad: impl IntoIterator<Item = Cell>) {
    for cell in bad {
        assert_refused(&with(PUT, cell), FINISH, PUT);
    }
}

#[test]
fn the_netlist_is_good_and_the_highest_lower_inputs_are() {
    assert_good(&every_kind());
    for kind in 4..=9 {
        assert_good(&with(PUT, Cell::new(kind, 0, WORD, WORD)));
    }
    for kind in [35, 38, 39] {
        assert_good(&with(PUT, Cell::new(kind, 0, CONTROL, CONTROL)));
    }
    for kind in [36, 37, 41] {
        assert_good(&with(PUT, Cell::new(kind, 0, CONTROL, WORD)));
    }
    assert_good(&with(PUT, Cell::new(45, 0, CONTROL, WORD)));
    assert_good(&with(PUT, Cell::new(1, 0, 65_535, 0)));
    assert_good(&with(PUT, Cell::new(3, 0, WORD, 0)));
    for array in [19, 21, 23, 25] {
        assert_good(&with(PUT, Cell::new(44, 0, array, WORD)));
    }
}

#[test]
fn delays_and_latches_may_name_any_control_wire_and_latches_memories_and_arrays_any_word() {
    for a in [0, CONTROL, ITSELF, HIGHER_CONTROL] {
        assert_good(&with(PUT, Cell::new(34, 255, a, 0)));
    }
    for (a, b) in [(0, 2), (HIGHER_CONTROL, HIGHER_WORD), (CONTROL, ITSELF)] {
        assert_good(&with(PUT, Cell::new(45, 0, a, b)));
    }
    for b in [2, 3, WORD, HIGHER_WORD] {
        assert_good(&with(3, Cell::new(40, 0, 1, b)));
        assert_good(&with(ARRAYS, Cell::new(42, 0, 1, b)));
        assert_good(&with(ARRAYS + 1, Cell::new(43, 0, b, 0)));
    }
}

#[test]
fn unknown_kinds() {
    assert_bad([0, 2, 10, 31, 46, 255].map(|kind| Cell::new(kind, 0, 0, 0)));
}

#[test]
fn the_first_three_cells_are_fixed() {
    for (number, kind) in [(0, 33), (0, 35), (1, 32), (1, 35), (2, 32), (2, 3), (2, 40)] {
        assert_refused(&with(number, Cell::new(kind, 0, 0, 0)), FINISH, number);
    }
    assert_refused(&with(2, Cell::new(1, 0, 1, 0)), FINISH, 2);
    assert_refused(&with(2, Cell::new(1, 0, 256, 0)), FINISH, 2);
}

#[test]
fn start_and_ground_stand_nowhere_else() {
    assert_bad([32, 33].map(|kind| Cell::new(kind, 0, 0, 0)));
}

#[test]
fn a_delay_field_is_for_delays_and_the_numbers_of_arrays() {
    for (number, mut cell) in every_kind().into_iter().enumerate() {
        cell.delay = if cell.kind == 34 { 0 } else { cell.delay + 1 };
        assert_refused(&with(number, cell), FINISH, number);
    }
}

#[test]
fn fields_without_a_use_are_zero() {
    for (number, kind) in [(0, 32), (1, 33)] {
        assert_refused(&with(number, Cell::new(kind, 0, 1, 0)), FINISH, number);
        assert_refused(&with(number, Cell::new(kind, 0, 0, 1)), FINISH, number);
    }
    assert_refused(&with(2, Cell::new(1, 0, 0, 1)), FINISH, 2);
    assert_bad([1, 256, 65_535].map(|b| Cell::new(1, 0, 7, b)));
    assert_bad([1, 2, 256].map(|b| Cell::new(3, 0, WORD, b)));
    assert_bad([1, 2, 256].map(|b| Cell::new(34, 1, CONTROL, b)));
    for b in [1, 2, 256] {
        let address = Cell::new(43, 0, 2, b);
        assert_refused(&with(ARRAYS + 1, address), FINISH, ARRAYS + 1);
    }
}

#[test]
fn operators_take_words_of_lower_cells() {
    assert_bad(NO_WORD.map(|a| Cell::new(3, 0, a, 0)));
    for kind in 4..=9 {
        assert_bad(NO_WORD.map(|a| Cell::new(kind, 0, a, WORD)));
        assert_bad(NO_WORD.map(|b| Cell::new(kind, 0, WORD, b)));
    }
}

#[test]
fn ors_and_merges_take_lower_control_wires() {
    for kind in [35, 38, 39] {
        assert_bad(NO_CONTROL.map(|a| Cell::new(kind, 0, a, CONTROL)));
        assert_bad(NO_CONTROL.map(|b| Cell::new(kind, 0, CONTROL, b)));
    }
}

#[test]
fn switches_and_gates_take_a_control_wire_and_a_word() {
    for kind in [36, 37, 41] {
        assert_bad(NO_CONTROL.map(|a| Cell::new(kind, 0, a, WORD)));
        assert_bad(NO_WORD.map(|b| Cell::new(kind, 0, CONTROL, b)));
    }
}

#[test]
fn a_delay_takes_a_control_wire_that_there_is() {
    assert_bad([2, WORD, HIGHER_WORD, NONE, 65_535].map(|a| Cell::new(34, 1, a, 0)));
}

#[test]
fn a_latch_takes_a_control_wire_and_a_word_that_there_are() {
    let no_control = [2, WORD, ITSELF, HIGHER_WORD, ARRAY, ADDRESS, NONE, 65_535];
    assert_bad(no_control.map(|a| Cell::new(45, 0, a, WORD)));
    assert_bad(NOWHERE_A_WORD.map(|b| Cell::new(45, 0, CONTROL, b)));
}

#[test]
fn a_memory_takes_a_lower_clock_and_a_word_that_there_is() {
    assert_bad(NO_CONTROL.map(|a| Cell::new(40, 0, a, WORD)));
    assert_bad(NOWHERE_A_WORD.map(|b| Cell::new(40, 0, CONTROL, b)));
}

#[test]
fn an_array_takes_a_lower_clock_and_words_that_there_are() {
    for a in [2, 3, ARRAY, ADDRESS, CONTROL, NONE, 65_535] {
        assert_refused(&with(ARRAYS, Cell::new(42, 0, a, 2)), FINISH, ARRAYS);
    }
    for word in NOWHERE_A_WORD {
        let (array, address) = (Cell::new(42, 0, 1, word), Cell::new(43, 0, word, 0));
        assert_refused(&with(ARRAYS, array), FINISH, ARRAYS);
        assert_refused(&with(ARRAYS + 1, address), FINISH, ARRAYS + 1);
    }
}

#[test]
fn a_read_takes_a_lower_array_and_a_lower_word() {
    let no_array = [0, 2, 18, ADDRESS, CONTROL, WORD, ITSELF, NONE, 65_535];
    assert_bad(no_array.map(|a| Cell::new(44, 0, a, WORD)));
    assert_bad(NO_WORD.map(|b| Cell::new(44, 0, ARRAY, b)));
    assert_refused(&with(18, Cell::new(44, 0, ARRAY, 2)), FINISH, 18);
}

#[test]
fn arrays_stand_nowhere_else() {
    for array in 0..=4 {
        assert_bad([Cell::new(42, array, 1, 2)]);
    }
    assert_bad([Cell::new(43, 0, 2, 0)]);
    assert_refused(&with(3, Cell::new(42, 0, 1, 2)), FINISH, 3);
    assert_refused(&with(3, Cell::new(43, 0, 2, 0)), FINISH, 3);
}

/// The place is the first cell that parts from the order.
#[test]
fn arrays_stand_in_order_right_after_the_sixteenth_memory() {
    for place in ARRAYS..PAST_ARRAYS {
        let constant = with(place, Cell::new(1, 0, 7, 0));
        assert_refused(&constant, FINISH, place);
        let memory = with(place, Cell::new(40, 0, 1, 2));
        assert_refused(&memory, FINISH, place);
        let mut swapped = every_kind();
        swapped.swap(place, place + 1);
        assert_refused(&swapped, FINISH, place);
    }
    let mut gap = every_kind();
    gap.insert(ARRAYS, Cell::new(1, 0, 7, 0));
    assert_refused(&gap, FINISH, ARRAYS);
}

/// So many constants, sixteen memories, and so many cells of the arrays; also
/// with a finish on a word wire.
#[test]
fn arrays_that_the_end_cuts_off_are_told_at_the_count() {
    let before = vec![Cell::new(1, 0, 7, 0); 8];
    let memories = vec![Cell::new(40, 0, 1, 2); 16];
    for here in 0..8 {
        let arrays = idle_arrays()[..here].to_vec();
        let cells = [fixed(), before.clone(), memories.clone(), arrays].concat();
        assert_refused(&cells, 0, 27 + here);
        assert_refused(&cells, 3, 27 + here);
    }
    let whole = [fixed(), before, memories, idle_arrays()].concat();
    assert_eq!((BOTH.check_cells)(&whole, 0).result, Ok(()));
}

#[test]
fn other_than_sixteen_memories_are_told_at_the_count() {
    assert_refused(&seventeen_memories(), FINISH, COUNT);
    let constant = Cell::new(1, 0, 0, 0);
    let mut fewer = every_kind();
    fewer[ARRAYS..PAST_ARRAYS].fill(constant);
    fewer[usize::from(WORD)] = constant;
    for memory in (3..19).rev() {
        fewer[memory] = constant;
        assert_refused(&fewer, FINISH, COUNT);
    }
}

fn seventeen_memories() -> Vec<Cell> {
    with(HIGHER_WORD.into(), Cell::new(40, 0, 1, 2))
}

/// With fifteen memories every array is out of its place.
#[test]
fn without_a_sixteenth_memory_there_is_no_place_for_arrays() {
    let constant = Cell::new(1, 0, 0, 0);
    for memory in 3..19 {
        assert_refused(&with(memory, constant), FINISH, ARRAYS);
    }
}

#[test]
fn a_finish_on_a_word_wire_is_told_at_that_cell() {
    for (number, cell) in every_kind().into_iter().enumerate() {
        if !(32..=39).contains(&cell.kind) {
            assert_refused(&every_kind(), number as u16, number);
        }
    }
}

#[test]
fn bad_cells_come_first_then_the_memories_then_the_finish() {
    let bad = Cell::new(0, 0, 0, 0);
    let mut several = seventeen_memories();
    assert_refused(&several, 2, COUNT);
    several[PUT] = bad;
    assert_refused(&several, 2, PUT);
    several[HIGHER_WORD as usize] = bad;
    assert_refused(&several, 2, PUT);
    several.swap(ARRAYS, ARRAYS + 1);
    assert_refused(&several, 2, ARRAYS);
    several[5] = bad;
    assert_refused(&several, 2, 5);
}
