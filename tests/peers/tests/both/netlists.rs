//! Corners of netlist files that the vectors leave open: counts at their
//! limits in files where everything else fits, and cells without a file.

use crate::expect::refused;
use crate::netlist::{file, idle};
use peers::BOTH;
use second::cells::CONSTANT;
use values::{Cell, Refusal};

/// The idle cells, and constants up to a count.
fn cells(count: usize) -> Vec<Cell> {
    let mut cells = idle();
    cells.resize(count, Cell::new(CONSTANT, 0, 7, 0));
    cells
}

/// Reading the file of so many cells; finish is cell 0.
fn read(count: usize) -> Result<(), Refusal> {
    let read = (BOTH.read_netlist)(&file(&cells(count), 0), &[0; 98_304]);
    read.result.map(drop)
}

/// Writing so many cells; finish is cell 0.
fn write(count: usize) -> Result<(), Refusal> {
    let bytes = Cell::all_bytes(&cells(count));
    let written = (BOTH.write_netlist)(1, &bytes, 0, &[0; 100_352]);
    written.result.map(drop)
}

#[test]
fn a_count_outside_27_to_16384_is_a_wrong_header() {
    for count in [1, 26, 16_385, 16_464] {
        assert_eq!(read(count), refused(11, 0), "{count} cells");
        assert_eq!(write(count), refused(11, 0), "{count} cells");
    }
    for count in [27, 84, 85, 1_024, 1_025, 16_383, 16_384] {
        assert_eq!(read(count), Ok(()), "{count} cells");
        assert_eq!(write(count), Ok(()), "{count} cells");
    }
}

#[test]
fn bytes_that_are_no_whole_cells_are_a_wrong_header() {
    let written = (BOTH.write_netlist)(1, &[0; 6 * 27 + 1], 0, &[0; 512]);
    assert_eq!(written.result, refused(11, 0));
}

#[test]
fn a_finish_not_below_the_count_is_a_wrong_header() {
    let bytes = Cell::all_bytes(&idle());
    let finish_on = |finish| (BOTH.write_netlist)(1, &bytes, finish, &[0; 512]);
    for (finish, number, place) in [(27, 11, 0), (26, 12, 26), (19, 12, 19)] {
        let written = finish_on(finish);
        assert_eq!(written.result, refused(number, place));
        assert_eq!(written.lent, [[0; 512]]);
    }
    assert!(finish_on(1).result.is_ok());
}
