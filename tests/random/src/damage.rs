//! Slight damage to programs, netlist files, cells and states: some of it is
//! refused, some makes another good input.

use crate::flight;
use crate::formats::{LEFT, LINE};
use crate::generate::Program;
use crate::job;
use crate::lend::{cell_length, ARRAYS, HEADER};
use crate::xorshift::Random;
use second::cells::{sort, Netlist, Sort, DELAY, MERGE, RETURN};
use second::netfile;
use values::layout::{BLOCK, BLOCK_CELLS};
use values::{Cell, Format};

/// Kinds at and beyond the ends of the known ranges.
const KINDS: [u8; 16] = [0, 1, 2, 9, 10, 11, 15, 16, 18, 20, 23, 25, 26, 27, 28, 32];

/// The same of cells.
const CELL_KINDS: [u8; 18] = [
    1, 2, 3, 7, 10, 32, 33, 34, 35, 36, 38, 39, 40, 41, 42, 43, 44, 45,
];

/// A program with one to three faults, of which one may be another number of
/// procedures.
pub fn program(good: &Program, random: &mut Random) -> Program {
    let Program {
        mut procedures,
        mut bytes,
    } = good.clone();
    if random.once_in(12) {
        procedures = random.pick(&[0, 1, procedures + 1, 8, 9, 256, usize::MAX]);
    }
    for _ in 0..random.between(1, 3) {
        damage_program(&mut bytes, random);
    }
    Program { procedures, bytes }
}

fn damage_program(bytes: &mut Vec<u8>, random: &mut Random) {
    if bytes.len() < 4 {
        return bytes.push(random.byte());
    }
    let node = 4 * random.below(bytes.len() / 4);
    match random.below(8) {
        0 => bytes[node] = random.pick(&KINDS),
        1 => bytes[node + 1] = bytes[node + 1].wrapping_sub(1),
        2 => bytes[node + 1] = random.byte(),
        3 => bytes[node + 2] = random.below(20) as u8,
        4 => bytes[node + 3] = random.below(2) as u8,
        5 => drop(bytes.drain(node..node + 4)),
        6 => bytes.extend_from_within(node..node + 4),
        _ => bytes.truncate(random.below(bytes.len())),
    }
}

/// A netlist file with a fault; its checks are mostly put right again, so
/// that the later refusals are met too.
pub fn netlist(file: &[u8], random: &mut Random) -> Vec<u8> {
    let mut file = file.to_vec();
    match random.below(14) {
        0 => file.truncate(random.below(file.len() + 1)),
        1 => file.extend_from_within(..BLOCK),
        2 => drop(file.drain(..BLOCK)),
        3 => file.extend([0; BLOCK]),
        4 => set_random_byte(&mut file, random),
        5 | 6 => {
            let place = BLOCK * random.below(file.len() / BLOCK) + random.below(6);
            file[place] = file[place].wrapping_add(random.pick(&[1, 255, 84]));
            mend_checks(&mut file);
        }
        7 => {
            let pulse = pulse(random);
            for block in file.chunks_exact_mut(BLOCK) {
                block[1] = pulse.wrapping_sub(1);
            }
            mend_checks(&mut file);
        }
        _ => {
            damage_cell(&mut file, random);
            mend_checks(&mut file);
        }
    }
    file
}

/// A length that pulses may have or, one time in eight, may not.
pub fn pulse(random: &mut Random) -> u8 {
    match random.once_in(8) {
        true => random.pick(&job::NO_PULSES),
        false => job::pulse(random),
    }
}

fn set_random_byte(bytes: &mut [u8], random: &mut Random) {
    let place = random.below(bytes.len());
    bytes[place] = random.byte();
}

/// Changes a field of a cell, in a used or an unused place.
fn damage_cell(file: &mut [u8], random: &mut Random) {
    let block = BLOCK * random.below(file.len() / BLOCK);
    let cell = block + 8 + 6 * random.below(BLOCK_CELLS);
    match random.below(5) {
        0 => file[cell] = random.pick(&CELL_KINDS),
        1 => file[cell + 1] = random.byte(),
        2 => file[cell + 2] = random.byte(),
        3 => file[cell + 4] = random.byte(),
        _ => file[cell + random.pick(&[3, 5])] = random.below(5) as u8,
    }
}

/// The cells and the finish of a netlist with one or two faults.
pub fn cells(cells: &[Cell], finish: u16, random: &mut Random) -> (Vec<Cell>, u16) {
    let (mut cells, mut finish) = (cells.to_vec(), finish);
    for _ in 0..random.between(1, 2) {
        let number = random.below(cells.len());
        match random.below(8) {
            0 => drop(cells.remove(number)),
            1 => cells.insert(number, cells[number]),
            2 => finish = input(cells.len(), random),
            _ => damage_field(&mut cells, number, random),
        }
    }
    (cells, finish)
}

/// Changes one field of a cell.
fn damage_field(cells: &mut [Cell], number: usize, random: &mut Random) {
    let count = cells.len();
    let cell = &mut cells[number];
    match random.below(4) {
        0 => cell.kind = random.pick(&CELL_KINDS),
        1 => cell.delay = random.byte(),
        2 => cell.a = input(count, random),
        _ => cell.b = input(count, random),
    }
}

/// The number of a cell; one time in eight, perhaps of none.
fn input(count: usize, random: &mut Random) -> u16 {
    match random.below(16) {
        0 => count as u16,
        1 => random.word(),
        _ => random.below(count) as u16,
    }
}

/// Gives every whole block the check that makes its words sum to 0.
pub fn mend_checks(file: &mut [u8]) {
    for block in file.chunks_exact_mut(BLOCK) {
        block[6..8].fill(0);
        let words = block.chunks_exact(2);
        let sum = words.fold(0u16, |sum, word| {
            sum.wrapping_add(u16::from_le_bytes([word[0], word[1]]))
        });
        block[6..8].copy_from_slice(&sum.wrapping_neg().to_le_bytes());
    }
}

/// A state of a netlist with one to four changed fields. Most changes are
/// such as refusal 15 lets pass: wires and lines that contradict each other, and
/// a number that is true of them.
pub fn state(format: Format, file: &[u8], state: &[u8], random: &mut Random) -> Vec<u8> {
    let Netlist { pulse, cells, .. } = netfile::read(file).expect("a good netlist");
    let mut state = state.to_vec();
    let (arrays, length) = (state.len() - ARRAYS, cell_length(format));
    for _ in 0..random.between(1, 4) {
        let cell = random.below(cells.len());
        let place = HEADER + length * cell;
        let bytes = place..place + length;
        match random.below(12) {
            0 => set_random_byte(&mut state[..HEADER], random),
            1 => set_random_byte(&mut state[bytes], random),
            2 => set_random_byte(&mut state[arrays..], random),
            3 if format == Format::Full => {
                state[HEADER + LINE] = random.below(usize::from(pulse) + 1) as u8;
            }
            _ => contradict(format, cells[cell], &mut state[bytes], random),
        }
    }
    if !random.once_in(8) {
        let number = flight::counted(format, &cells, &state);
        flight::tell(&mut state, number);
    }
    state
}

/// Changes a field that a cell has, to a value it may have.
fn contradict(format: Format, cell: Cell, bytes: &mut [u8], random: &mut Random) {
    let value = random.pick(&[0, 2]);
    match (sort(cell.kind), cell.kind, format) {
        (Sort::Control, DELAY, Format::Full) => contradict_line(bytes, random),
        (Sort::Control, DELAY, Format::Compact) => {
            bytes[LEFT] = random.below(usize::from(cell.delay) + 1) as u8;
        }
        (Sort::Control, MERGE, _) => bytes[random.pick(&[value, 4, 5])] ^= 1,
        (Sort::Control, RETURN, _) => bytes[random.pick(&[value, 4])] ^= 1,
        (Sort::Control, ..) => bytes[value] ^= 1,
        _ => set_random_byte(&mut bytes[value..value + 2], random),
    }
}

/// The newest inputs matter more than the rest of the line.
fn contradict_line(bytes: &mut [u8], random: &mut Random) {
    match random.once_in(2) {
        true => bytes[8] ^= 1 << random.below(2),
        false => bytes[random.between(8, 39)] ^= 1 << random.below(8),
    }
}

#[cfg(test)]
mod tests {
    use super::*;
    use crate::generate;
    use crate::lend::{file_length, lent, state_length, MOST_FILE, WORDS};
    use second::calls;
    use second::table::BUILT_IN;
    use std::collections::BTreeSet;
    use values::{Given, Refusal};

    /// The refusals, 0 for none, that calls on 4,000 damaged programs meet.
    fn met(call: impl Fn(&Program, &mut Random) -> Result<(), Refusal>) -> BTreeSet<u8> {
        let outcome = |seed: u64| {
            let random = &mut Random::new(seed);
            let program = generate::program(random, &BUILT_IN, 1);
            call(&program, random).map_or_else(|refusal| refusal.number, |()| 0)
        };
        (0..4_000).map(outcome).collect()
    }

    /// The netlist file and the begun state of a good program.
    fn begun(format: Format, good: &Program) -> (Vec<u8>, Vec<u8>) {
        let (given, mut file) = (Given::procedures(good.procedures), lent(MOST_FILE));
        let shape = calls::compile(given, &good.bytes, &mut file).expect("a good program");
        file.truncate(file_length(shape.cells.into()));
        let mut state = lent(state_length(format, shape.cells.into()));
        calls::begin(format, &file, &[0; WORDS], &mut state).expect("a good netlist");
        (file, state)
    }

    #[test]
    fn damaged_programs_meet_refusals_1_to_8_22_24_and_25() {
        let met = met(|good, random| {
            let Program { procedures, bytes } = program(good, random);
            calls::check(Given::procedures(procedures), &bytes)
        });
        assert_eq!(met, (0..=8).chain([22, 24, 25]).collect());
    }

    #[test]
    fn damaged_netlists_meet_refusals_9_to_12() {
        let met = met(|good, random| {
            let damaged = netlist(&begun(Format::Full, good).0, random);
            calls::read_netlist(&damaged, &mut lent(MOST_FILE)).map(drop)
        });
        assert_eq!(met, [0, 9, 10, 11, 12].into());
    }

    #[test]
    fn damaged_cells_meet_refusals_11_and_12() {
        let met = met(|good, random| {
            let netlist = netfile::read(&begun(Format::Full, good).0).expect("a good netlist");
            let (damaged, finish) = cells(&netlist.cells, netlist.finish, random);
            let bytes = Cell::all_bytes(&damaged);
            calls::write_netlist(1, &bytes, finish, &mut lent(MOST_FILE)).map(drop)
        });
        assert_eq!(met, [0, 11, 12].into());
    }

    /// A compact state may be so that a second pulse enters a line.
    #[test]
    fn damaged_states_meet_refusals_15_and_16() {
        for (format, refusals) in [
            (Format::Full, &[0, 15, 16][..]),
            (Format::Compact, &[0, 15, 16, 26]),
        ] {
            let met = met(|good, random| {
                let (file, begun) = begun(format, good);
                let mut damaged = state(format, &file, &begun, random);
                calls::continue_by(format, &file, &mut damaged, 40).map(drop)
            });
            assert_eq!(met, refusals.iter().copied().collect(), "{format:?}");
        }
    }

    #[test]
    fn damaged_states_meet_refusal_23_too() {
        for format in Format::BOTH {
            let met = met(|good, random| {
                let (file, begun) = begun(format, good);
                let mut damaged = state(format, &file, &begun, random);
                calls::start(format, &file, &mut damaged).map(drop)
            });
            assert_eq!(met, [0, 15, 16, 23].into(), "{format:?}");
        }
    }
}
