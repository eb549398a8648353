//! Netlists as cells: where reading puts them and what it moves, each refusal
//! of the three calls but for 12, which has tests of its own, and renumbering.

use crate::expect::refused;
use crate::netlist::{every_kind, file, COUNT, FINISH};
use peers::BOTH;
use values::{Cell, Shape};

/// A lent cell; no result has such a one.
const LENT: Cell = Cell::new(0xa5, 0xa5, 0xa5a5, 0xa5a5);

/// A lent file: longer than any, and filled so that a stray write shows.
static LENT_FILE: [u8; 101_000] = [0xa5; 101_000];

const SHAPE: Shape = Shape {
    cells: COUNT as u16,
    finish: FINISH,
};

/// Of each cell of the netlist: the inputs when it is read in front, behind one
/// cell, behind 7 and behind 65,530, which is six short of no move at all.
const MOVED: [[(u16, u16); 4]; COUNT] = [
    [(0, 0), (0, 0), (0, 0), (0, 0)],
    [(0, 0), (0, 0), (0, 0), (0, 0)],
    [(0, 0), (0, 0), (0, 0), (0, 0)],
    [(1, 34), (2, 35), (8, 41), (65_531, 28)],
    IDLE,
    IDLE,
    IDLE,
    IDLE,
    IDLE,
    IDLE,
    IDLE,
    IDLE,
    IDLE,
    IDLE,
    IDLE,
    IDLE,
    IDLE,
    IDLE,
    IDLE,
    [(0, 28), (1, 29), (7, 35), (65_530, 22)],
    [(29, 0), (30, 0), (36, 0), (23, 0)],
    IDLE,
    [(2, 0), (3, 0), (9, 0), (65_532, 0)],
    IDLE,
    [(2, 0), (3, 0), (9, 0), (65_532, 0)],
    [(1, 3), (2, 4), (8, 10), (65_531, 65_533)],
    [(3, 0), (4, 0), (10, 0), (65_533, 0)],
    [(65_533, 0), (65_533, 0), (65_533, 0), (65_533, 0)],
    [(27, 0), (28, 0), (34, 0), (21, 0)],
    [(27, 28), (28, 29), (34, 35), (21, 22)],
    [(28, 29), (29, 30), (35, 36), (22, 23)],
    [(29, 2), (30, 3), (36, 9), (23, 65_532)],
    [(30, 31), (31, 32), (37, 38), (24, 25)],
    [(31, 32), (32, 33), (38, 39), (25, 26)],
    [(32, 33), (33, 34), (39, 40), (26, 27)],
    [(39, 0), (40, 0), (46, 0), (33, 0)],
    [(35, 0), (36, 1), (42, 7), (29, 65_530)],
    [(36, 34), (37, 35), (43, 41), (30, 28)],
    [(36, 3), (37, 4), (43, 10), (30, 65_533)],
    [(37, 38), (38, 39), (44, 45), (31, 32)],
    [(25, 34), (26, 35), (32, 41), (19, 28)],
    [(39, 40), (40, 41), (46, 47), (33, 34)],
    [(43, 42), (44, 43), (50, 49), (37, 36)],
    [(0, 0), (1, 1), (7, 7), (65_530, 65_530)],
];

/// A memory or an array that is never assigned.
const IDLE: [(u16, u16); 4] = [(1, 2), (2, 3), (8, 9), (65_531, 65_532)];

/// So many cells that keep the rules: the netlist, and constants after it.
fn cells_up_to(count: usize) -> Vec<Cell> {
    let mut cells = every_kind();
    cells.resize(count, Cell::new(1, 0, 9, 0));
    cells
}

/// The cells of the netlist with the inputs of a column of the table.
fn moved(column: usize) -> Vec<Cell> {
    let cell = |(cell, inputs): (Cell, &[(u16, u16); 4])| {
        let (a, b) = inputs[column];
        Cell { a, b, ..cell }
    };
    every_kind().into_iter().zip(&MOVED).map(cell).collect()
}

/// Checking and writing these cells is refused so, and writes nothing.
fn assert_cells_refused(cells: &[Cell], finish: u16, number: u8, place: usize) {
    let name = format!("{} cells, {finish}", cells.len());
    let checked = (BOTH.check_cells)(cells, finish);
    assert_eq!(checked.result, refused(number, place), "{name}");
    let written = (BOTH.write_cells)(1, cells, finish, &LENT_FILE);
    assert_eq!(written.result, refused(number, place), "{name}");
    assert!(written.lent == [LENT_FILE], "{name}: lent bytes changed");
}

/// Reading this file behind so many of the lent cells is refused so, and
/// changes none of them.
fn assert_file_refused(file: &[u8], at: usize, room: usize, number: u8, place: usize) {
    let lent = vec![LENT; room];
    let read = (BOTH.read_cells)(file, at, &lent);
    assert_eq!(read.result, refused(number, place), "behind {at} of {room}");
    assert!(read.lent[0] == lent, "behind {at} of {room}");
}

#[test]
fn reading_moves_what_names_a_cell_and_nothing_else() {
    let file = file(&every_kind(), FINISH);
    let places = [0, 1, 7, 65_530, 65_536, 65_537];
    for (at, column) in places.into_iter().zip([0, 1, 2, 3, 0, 1]) {
        let lent = vec![LENT; at + COUNT + 3];
        let mut expected = lent.clone();
        expected[at..at + COUNT].copy_from_slice(&moved(column));
        let read = (BOTH.read_cells)(&file, at, &lent);
        assert_eq!(read.result, Ok(SHAPE), "behind {at}");
        let other = (0..lent.len()).find(|&number| read.lent[0][number] != expected[number]);
        let shown = other.map(|number| (number, read.lent[0][number], expected[number]));
        assert_eq!(shown, None, "behind {at}");
    }
}

#[test]
fn reading_in_front_gives_the_cells_of_the_six_bytes() {
    for count in [44, 84, 85, 1_024, 16_384] {
        let file = file(&cells_up_to(count), FINISH);
        let by_bytes = (BOTH.read_netlist)(&file, &vec![0; 6 * count]);
        let read = (BOTH.read_cells)(&file, 0, &vec![LENT; count]);
        assert_eq!(read.result, by_bytes.result, "{count} cells");
        assert!(read.lent[0] == cells_up_to(count), "{count} cells");
        let bytes = Cell::all_bytes(&read.lent[0]);
        assert!(bytes == by_bytes.lent[0], "{count} cells");
    }
}

#[test]
fn writing_gives_the_file_and_keeps_what_is_past_it() {
    for count in [44, 84, 85, 1_024, 16_384] {
        let cells = cells_up_to(count);
        let mut expected = LENT_FILE;
        let file = file(&cells, FINISH);
        expected[..file.len()].copy_from_slice(&file);
        let checked = (BOTH.check_cells)(&cells, FINISH);
        assert_eq!(checked.result, Ok(()), "{count} cells");
        let written = (BOTH.write_cells)(1, &cells, FINISH, &LENT_FILE);
        assert!(written.lent == [expected], "{count} cells: other bytes");
        let by_bytes = (BOTH.write_netlist)(1, &Cell::all_bytes(&cells), FINISH, &LENT_FILE);
        assert!(written == by_bytes, "{count} cells: not as its bytes");
    }
}

#[test]
fn a_count_outside_27_to_16384_is_11() {
    // The last of these a header would tell as 27.
    for count in [0, 1, 26, 16_385, 16_386, 65_535, 65_536, 65_563] {
        assert_cells_refused(&cells_up_to(count), 0, 11, 0);
    }
    // Cells that break every rule are not looked at.
    assert_cells_refused(&[LENT; 26], 0, 11, 0);
    assert_cells_refused(&vec![LENT; 16_385], 0, 11, 0);
}

#[test]
fn a_finish_not_below_the_count_is_11() {
    for finish in [44, 45, 16_383, 65_535] {
        assert_cells_refused(&every_kind(), finish, 11, 0);
    }
    assert_cells_refused(&[LENT; COUNT], 44, 11, 0);
    assert_cells_refused(&cells_up_to(16_384), 16_384, 11, 0);
}

#[test]
fn a_file_one_byte_short_is_14() {
    for (count, length) in [(44, 512), (84, 512), (85, 1_024), (16_384, 100_352)] {
        let cells = cells_up_to(count);
        let short = &LENT_FILE[..length - 1];
        let written = (BOTH.write_cells)(1, &cells, FINISH, short);
        assert_eq!(written.result, refused(14, 0), "{count} cells");
        assert!(written.lent == [short], "{count} cells: bytes changed");
        let exact = (BOTH.write_cells)(1, &cells, FINISH, &LENT_FILE[..length]);
        assert!(exact.result.is_ok(), "{count} cells");
    }
}

#[test]
fn twelve_comes_before_fourteen() {
    let mut cells = every_kind();
    cells[41] = LENT;
    let written = (BOTH.write_cells)(1, &cells, FINISH, &[]);
    assert_eq!(written.result, refused(12, 41));
    assert_file_refused(&file(&cells, FINISH), usize::MAX, 3, 12, 41);
}

#[test]
fn a_list_without_room_behind_the_place_is_14() {
    let file = file(&every_kind(), FINISH);
    for (at, room) in [
        (0, 0),
        (0, 43),
        (1, 44),
        (7, 50),
        (65_530, 65_573),
        (50, 50),
        (51, 50),
        (65_536, 50),
        (usize::MAX - 43, 50),
        (usize::MAX, 50),
        (usize::MAX, 0),
    ] {
        assert_file_refused(&file, at, room, 14, 0);
    }
    for (at, room) in [(0, 44), (1, 45), (65_530, 65_574)] {
        let read = (BOTH.read_cells)(&file, at, &vec![LENT; room]);
        assert_eq!(read.result, Ok(SHAPE), "behind {at}");
    }
}

#[test]
fn a_file_of_a_wrong_length_is_9() {
    let file = file(&every_kind(), FINISH);
    for length in [0, 1, 511] {
        assert_file_refused(&file[..length], 1, 50, 9, 0);
    }
    assert_file_refused(&[&file[..], &[0]].concat(), 1, 50, 9, 0);
    assert_file_refused(&file.repeat(197), usize::MAX, 50, 9, 0);
}

#[test]
fn a_wrong_check_is_10() {
    let mut file = file(&cells_up_to(100), FINISH);
    file[1_000] ^= 1;
    assert_file_refused(&file, 1, 200, 10, 1);
    file[0] ^= 1;
    assert_file_refused(&file, usize::MAX, 200, 10, 0);
}

#[test]
fn a_wrong_header_or_unused_byte_is_11() {
    assert_file_refused(&file(&cells_up_to(26), 0), 1, 50, 11, 0);
    assert_file_refused(&file(&cells_up_to(16_385), 0), 1, 20_000, 11, 0);
    assert_file_refused(&file(&every_kind(), 44), 1, 50, 11, 0);
    // Two words more, which leave the sum: both in unused places of block 1.
    let mut unused = file(&cells_up_to(100), FINISH);
    unused[1_020..].copy_from_slice(&[1, 0, 255, 255]);
    assert_file_refused(&unused, usize::MAX, 200, 11, 1);
}

#[test]
fn a_broken_rule_is_12() {
    let mut cells = every_kind();
    cells[41].delay = 1;
    assert_cells_refused(&cells, FINISH, 12, 41);
    assert_file_refused(&file(&cells, FINISH), 1, 50, 12, 41);
}

/// Renumbering the six bytes of the netlist gives those of the moved cells.
#[test]
fn six_bytes_are_renumbered_as_cells_are() {
    let before = Cell::all_bytes(&every_kind());
    for (by, column) in [(0, 0), (1, 1), (7, 2), (65_530, 3)] {
        let moved = Cell::all_bytes(&moved(column));
        for (from, end) in [(0, 44), (20, 44), (3, 29), (43, 44), (44, 44), (9, 4)] {
            let mut expected = before.clone();
            let run = 6 * from.min(end)..6 * end;
            expected[run.clone()].copy_from_slice(&moved[run]);
            let name = format!("from {from} to {end} by {by}");
            let reply = (BOTH.renumber)(from, end, by, &before);
            assert_eq!(reply.result, Ok(true), "{name}");
            assert!(reply.lent == [&expected[..]], "{name}: other bytes");
        }
    }
}

#[test]
fn a_run_past_the_list_is_not_renumbered() {
    let list = Cell::all_bytes(&cells_up_to(16_500));
    let ends = [
        4,
        44,
        1_025,
        16_384,
        16_385,
        16_500,
        usize::MAX / 6,
        usize::MAX,
    ];
    for (end, missing) in ends.into_iter().flat_map(|end| [(end, 0), (end, 1)]) {
        let length = end
            .checked_mul(6)
            .map_or(list.len(), |all| all.min(list.len()) - missing);
        let done = end <= 16_384 && missing == 0;
        let reply = (BOTH.renumber)(0, end, 9, &list[..length]);
        assert_eq!(reply.result, Ok(done), "to {end} of {length} bytes");
        let changed = reply.lent[0] != list[..length];
        assert_eq!(changed, done, "to {end} of {length} bytes");
    }
}
