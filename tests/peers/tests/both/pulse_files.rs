//! The pulse length in a netlist file: the high byte of every block number, which
//! writing puts there, and what reading and writing refuse.

use crate::expect::refused;
use crate::netlist::{idle, pulsed_file};
use crate::nodes::*;
use peers::BOTH;
use second::block;
use second::cells::CONSTANT;
use second::word::put2;
use values::{Cell, Given, Refusal};

/// The idle cells, and constants up to a count.
fn cells(count: usize) -> Vec<Cell> {
    let mut cells = idle();
    cells.resize(count, Cell::new(CONSTANT, 0, 7, 0));
    cells
}

/// The file of so many cells.
fn file(pulse: u8, count: usize) -> Vec<u8> {
    pulsed_file(pulse, &cells(count), 0)
}

fn read(file: &[u8]) -> Result<(), Refusal> {
    let room = [0; 6_144];
    let read = (BOTH.read_netlist)(file, &room).result.map(drop);
    let as_cells = (BOTH.read_cells)(file, 0, &[Cell::new(0, 0, 0, 0); 1_024]);
    assert_eq!(as_cells.result.map(drop), read);
    read
}

/// The file with this high byte in some of its blocks, and right checks.
fn with_high(file: &[u8], high: u8, blocks: &[usize]) -> Vec<u8> {
    let mut file = file.to_vec();
    for &number in blocks {
        let block = &mut file[block::LENGTH * number..][..block::LENGTH];
        block[1] = high;
        put2(block, block::CHECK, 0);
        let check = block::sum(block).wrapping_neg();
        put2(block, block::CHECK, check);
    }
    file
}

/// Beside the high bytes only the checks differ.
#[test]
fn the_high_byte_of_every_block_number_is_the_length_less_one() {
    for count in [27, 84, 85, 1_024] {
        let short = file(1, count);
        let all: Vec<usize> = (0..short.len() / block::LENGTH).collect();
        for pulse in 1..=8 {
            let bytes = Cell::all_bytes(&cells(count));
            let written = (BOTH.write_netlist)(pulse, &bytes, 0, &[0xa5; 6_700]);
            assert!(written.result.is_ok());
            let (file, past) = written.lent[0].split_at(short.len());
            assert_eq!(file, with_high(&short, pulse - 1, &all));
            assert!(past.iter().all(|&byte| byte == 0xa5));
            let as_cells = (BOTH.write_cells)(pulse, &cells(count), 0, &[0xa5; 6_700]);
            assert_eq!(
                (as_cells.result, as_cells.lent),
                (written.result, written.lent.clone())
            );
            assert_eq!(read(file), Ok(()));
        }
    }
}

/// A program without assignments and with delays for every length.
#[test]
fn a_program_without_assignments_has_the_same_cells_for_every_length() {
    let program = sequence(loop_of(9, exit()), parallel(tick(3), ok()));
    let compiled = |pulse| {
        let reply = (BOTH.compile)(Given::pulse(pulse), &program, &[0; 512]);
        reply.result.expect("it is accepted");
        reply.lent[0].clone()
    };
    assert_eq!(
        compiled(1),
        (BOTH.compile)(Given::NOTHING, &program, &[0; 512]).lent[0]
    );
    for pulse in 1..=8 {
        assert_eq!(compiled(pulse), with_high(&compiled(1), pulse - 1, &[0]));
    }
}

/// Cells 3 and 4 are the delays of the first assignment, 5 and 6 of the second.
#[test]
fn an_assignments_second_delay_is_the_length() {
    let stored = assign_element(2, constant(1), constant(2), 9);
    let program = sequence(assign(0, constant(5), 7), stored);
    for pulse in 1..=8 {
        let compiled = (BOTH.compile)(Given::pulse(pulse), &program, &[0; 512]);
        assert!(compiled.result.is_ok());
        let cells = Cell::all_of(&compiled.lent[0][8..]);
        let delays = [3, 4, 5, 6].map(|cell| (cells[cell].kind, cells[cell].delay));
        assert_eq!(delays, [(34, 7), (34, pulse), (34, 9), (34, pulse)]);
    }
}

#[test]
fn a_length_above_8_is_11_at_block_0() {
    for count in [27, 200] {
        let good = file(1, count);
        let all: Vec<usize> = (0..good.len() / block::LENGTH).collect();
        for high in 0..=255 {
            let expected = if high < 8 { Ok(()) } else { refused(11, 0) };
            assert_eq!(read(&with_high(&good, high, &all)), expected, "{high}");
        }
    }
}

/// The first block is the measure.
#[test]
fn a_block_with_another_length_is_11_there() {
    let good = file(3, 300);
    for high in [0, 1, 3, 7, 8, 255] {
        for block in 1..4 {
            assert_eq!(read(&with_high(&good, high, &[block])), refused(11, block));
        }
        assert_eq!(read(&with_high(&good, high, &[2, 3])), refused(11, 2));
        let first = if high < 8 { 1 } else { 0 };
        assert_eq!(read(&with_high(&good, high, &[0])), refused(11, first));
    }
}

/// 10 before it, 12 after it, and with other wrong headers the first block wins.
#[test]
fn a_wrong_length_stands_between_10_and_12() {
    let good = file(3, 300);
    let mut summed = with_high(&good, 9, &[0, 1, 2, 3]);
    summed[block::LENGTH * 2 + 100] ^= 1;
    assert_eq!(read(&summed), refused(10, 2));
    let mut bad = cells(300);
    bad[200].kind = 99;
    let bad = pulsed_file(3, &bad, 0);
    assert_eq!(read(&bad), refused(12, 200));
    assert_eq!(read(&with_high(&bad, 1, &[3])), refused(11, 3));
    let mut counted = with_high(&good, 1, &[2]);
    counted[block::LENGTH + 2] += 1;
    let counted = with_high(&counted, 2, &[1]);
    assert_eq!(read(&counted), refused(11, 1));
}

/// 27 before 11, 12 and 14, and nothing is written.
#[test]
fn a_length_that_no_pulse_has_is_not_written() {
    let lent = [0xa5; 600];
    for pulse in [0, 9, 255] {
        for (count, finish) in [(27, 0), (27, 2), (27, 30), (26, 0)] {
            let cells = cells(count);
            for lent in [&lent[..], &[]] {
                let written = (BOTH.write_cells)(pulse, &cells, finish, lent);
                assert_eq!(written.result, refused(27, 0));
                assert_eq!(written.lent, [lent]);
                let bytes = Cell::all_bytes(&cells);
                let written = (BOTH.write_netlist)(pulse, &bytes, finish, lent);
                assert_eq!(written.result, refused(27, 0));
                assert_eq!(written.lent, [lent]);
            }
        }
        let written = (BOTH.write_netlist)(pulse, &[0; 7], 0, &lent);
        assert_eq!(written.result, refused(27, 0));
    }
    for (count, finish, number, place) in [(26, 0, 11, 0), (27, 2, 12, 2), (27, 0, 14, 0)] {
        let written = (BOTH.write_cells)(8, &cells(count), finish, &[]);
        assert_eq!(written.result, refused(number, place));
    }
}
