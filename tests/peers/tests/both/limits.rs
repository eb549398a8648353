//! Netlists as large as may be: 16,384 cells, in files of 196 blocks, with states of
//! both formats, in plain and in functional runs.

use crate::expect::{refused, start_with, state_length, words_with, START};
use crate::netlist::*;
use crate::run::*;
use peers::{BOTH, PROVED};
use second::cells::{CONSTANT, DELAY, LATCH, OR};
use std::time::{Duration, Instant};
use values::{Cell, Circuit, Format};

pub const MOST: usize = 16_384;
const BLOCKS: usize = 196;

/// The idle cells, a chain of delays and latches, and the last sixteen; the finish
/// is the last delay, and word 0 the last latch's.
pub fn largest() -> (Vec<Cell>, u16) {
    let mut cells = idle();
    let pairs = (MOST - 16 - cells.len()) / 2;
    let (mut control, mut word) = (0, 3);
    for pair in 0..pairs {
        let last = pair + 1 == pairs;
        // All but the last are as short as may be, so that the pulse comes through.
        cells.push(Cell::new(DELAY, if last { 255 } else { 1 }, control, 0));
        cells.push(Cell::new(LATCH, 0, control, word));
        (control, word) = (cells.len() as u16 - 2, cells.len() as u16 - 1);
    }
    cells.resize(MOST - 16, Cell::new(CONSTANT, 0, 7, 0));
    cells.push(Cell::new(7, 0, word, 2));
    cells.resize(MOST, Cell::new(7, 0, 3, 2));
    (cells, control)
}

#[test]
fn a_file_of_16384_cells_is_written_and_read() {
    let (cells, finish) = largest();
    let bytes = Cell::all_bytes(&cells);
    let file = file(&cells, finish);
    assert_eq!((cells.len(), file.len()), (MOST, 512 * BLOCKS));
    let written = (BOTH.write_netlist)(1, &bytes, finish, &vec![0xa5; 512 * BLOCKS + 9]);
    assert!(written.result.is_ok());
    assert!(written.lent[0] == [&file[..], &[0xa5; 9]].concat());
    let by_cells = (BOTH.write_cells)(1, &cells, finish, &vec![0xa5; 512 * BLOCKS]);
    assert!(by_cells.lent == [&file[..]]);
    assert_eq!((BOTH.check_cells)(&cells, finish).result, Ok(()));
    let read = (BOTH.read_netlist)(&file, &vec![0xa5; bytes.len()]);
    assert!(read.lent == [&bytes[..]] && read.result == written.result);
    let behind = (BOTH.read_cells)(&file, 9, &vec![cells[0]; MOST + 9]);
    assert_eq!(behind.result, read.result);
    let last = behind.lent[0][MOST + 8];
    assert_eq!(last, Cell::new(7, 0, 12, 11));
    for (file_room, cell_room) in [(512 * BLOCKS - 1, bytes.len() - 1), (0, 0)] {
        let written = (BOTH.write_netlist)(1, &bytes, finish, &vec![0xa5; file_room]);
        assert_eq!(written.result, refused(14, 0));
        let read = (BOTH.read_netlist)(&file, &vec![0xa5; cell_room]);
        assert_eq!(read.result, refused(14, 0));
    }
}

/// The last cell is refused as the others are, and the last block.
#[test]
fn the_last_cell_and_the_last_block_are_looked_at() {
    let (cells, finish) = largest();
    let good = file(&cells, finish);
    let read = |file: &[u8]| {
        (BOTH.read_netlist)(file, &vec![0; 6 * MOST])
            .result
            .map(drop)
    };
    assert_eq!(read(&good), Ok(()));
    let mut bad = cells.clone();
    bad[MOST - 1].a = MOST as u16 - 1;
    assert_eq!(read(&file(&bad, finish)), refused(12, MOST - 1));
    assert_eq!(
        (BOTH.check_cells)(&bad, finish).result,
        refused(12, MOST - 1)
    );
    let mut check = good.clone();
    check[512 * (BLOCKS - 1) + 100] ^= 4;
    assert_eq!(read(&check), refused(10, BLOCKS - 1));
    // Two words that leave the sum, in unused places of the last block.
    let mut unused = good.clone();
    let end = unused.len();
    unused[end - 4..].copy_from_slice(&[1, 0, 255, 255]);
    assert_eq!(read(&unused), refused(11, BLOCKS - 1));
    let finish = MOST as u16 - 1;
    assert_eq!(read(&file(&cells, finish)), refused(12, MOST - 1));
}

#[test]
fn more_blocks_or_cells_are_refused() {
    let (cells, finish) = largest();
    let good = file(&cells, finish);
    let read = |file: &[u8]| (BOTH.read_netlist)(file, &[]).result.map(drop);
    let block = &good[512 * (BLOCKS - 1)..];
    assert_eq!(read(&[&good, block].concat()), refused(9, 0));
    assert_eq!(read(&good[..512 * (BLOCKS - 1)]), refused(11, 0));
    let one_more = [cells, vec![Cell::new(CONSTANT, 0, 7, 0)]].concat();
    assert_eq!(read(&file(&one_more, finish)), refused(11, 0));
    let written = (BOTH.write_netlist)(1, &Cell::all_bytes(&one_more), finish, &[]);
    assert_eq!(written.result, refused(11, 0));
}

/// The pulse goes through 8,170 delays: 8,169 of 1 instant and one of 255.
#[test]
fn a_netlist_of_16384_cells_runs() {
    let (cells, finish) = largest();
    let file = file(&cells, finish);
    let delays = cells.iter().filter(|cell| cell.kind == DELAY).count() as u32;
    let end = delays - 1 + 255;
    for format in Format::BOTH {
        let length = state_length(format, MOST);
        assert_eq!(
            length,
            if format == Format::Full {
                655_880
            } else {
                131_592
            }
        );
        let short = (BOTH.begin)(format, &file, &START, &vec![0; length - 1]);
        assert_eq!(short.result, refused(14, 0));
        let mut run = Run::begin_of(Circuit::Functional, format, &file, &start_with([9]));
        assert_eq!(run.state.len(), length);
        let answer = run.go(end - 1);
        assert_eq!((answer.ended, answer.instant), (false, end - 1));
        assert_eq!(run.in_flight(), 1);
        let answer = run.go(1_000);
        assert_eq!((answer.ended, answer.instant, answer.count), (true, end, 1));
        // Each latch has the word an instant after its delay's input.
        assert_eq!(answer.words, words_with([9; 16]));
        assert_eq!(run.start().instant, end + 1);
        run.circuit = Circuit::Imperative;
        assert_eq!(run.go(5).words, words_with([9]));
    }
    let state = vec![0; state_length(Format::Full, MOST)];
    let ran = (BOTH.functional.run_netlist)(&file, &start_with([9]), end, &state);
    let answer = ran.result.expect("a good netlist");
    assert_eq!((answer.ended, answer.count), (true, end + 1));
}

/// 26 at the last delay there is.
#[test]
fn the_last_line_of_16384_cells_is_told_when_crowded() {
    let mut cells = idle();
    cells.resize(MOST - 3, Cell::new(CONSTANT, 0, 7, 0));
    let next = MOST as u16 - 3;
    // The pulse of start, and an instant later that of a delay.
    cells.push(Cell::new(DELAY, 1, 0, 0));
    cells.push(Cell::new(OR, 0, 0, next));
    cells.push(Cell::new(DELAY, 9, next + 1, 0));
    let mut run = Run::begin_in(Format::Compact, &file(&cells, 1), &START);
    let begun = run.state.clone();
    let met = run.going(5);
    assert_eq!(met.result, refused(26, MOST - 1));
    assert!(met.lent == [begun]);
    run = Run::begin(&file(&cells, 1), &START);
    assert_eq!(run.go(5).count, 5);
}

/// 11 tells that there are too many cells, so that none of them is looked at: 100
/// million take no longer than one. Memory that nobody writes to isn't there.
#[test]
fn too_many_cells_are_refused_at_once() {
    let most = 100_000_000;
    let bytes = vec![0u8; most * size_of::<Cell>()];
    // A cell is any six bytes, and its numbers stand at even places.
    let (before, cells, after) = unsafe { bytes.align_to::<Cell>() };
    assert!(before.is_empty() && after.is_empty() && cells.len() == most);
    let least = (0..5).map(|_| {
        let began = Instant::now();
        assert_eq!((PROVED.check_cells)(cells, 0).result, refused(11, 0));
        let written = (PROVED.write_cells)(1, cells, 0, &[0xa5; 9]);
        assert_eq!(written.result, refused(11, 0));
        assert_eq!(written.lent, [[0xa5; 9]]);
        began.elapsed()
    });
    assert!(least.min().expect("five") < Duration::from_millis(100));
    let one_more = vec![Cell::new(32, 0, 0, 0); MOST + 1];
    assert_eq!((BOTH.check_cells)(&one_more, 0).result, refused(11, 0));
}
