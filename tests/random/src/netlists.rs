//! Random netlists that no program compiles to: every kind of cell, inputs
//! anywhere that the rules allow, memories scattered.

use crate::job;
use crate::xorshift::Random;
use second::cells::*;
use second::contents::ARRAYS;
use second::netfile;
use values::Cell;

const FIXED: [u8; 3] = [START, GROUND, CONSTANT];
const OR_OF_WORDS: u8 = 7;

/// The kinds of the cells that are neither fixed nor memories, by weight: with
/// fewer ors and delays, pulses would soon die out.
const KINDS: [(u8, usize); 17] = [
    (CONSTANT, 1),
    (3, 1),
    (4, 1),
    (5, 1),
    (6, 1),
    (OR_OF_WORDS, 1),
    (8, 1),
    (9, 1),
    (DELAY, 6),
    (OR, 8),
    (WHEN, 2),
    (UNLESS, 2),
    (MERGE, 2),
    (RETURN, 3),
    (GATE, 2),
    (READ, 4),
    (LATCH, 3),
];

/// How many of the last cells carry words, as those of a functional circuit do: none,
/// or the sixteen that a functional run asks for, or one too few.
const LASTS: [usize; 6] = [0, 0, 16, 16, 16, 15];

/// The file of a netlist with mostly few and now and then 1,000 cells or some
/// thousands, for pulses of any length.
pub fn netlist(random: &mut Random) -> Vec<u8> {
    let free = match random.below(20) {
        0 if random.once_in(6) => random.between(998, 4_000),
        0 => random.between(200, 997),
        1 => 997,
        _ => random.between(0, 110),
    };
    let mut kinds = kinds(free, random);
    let lasts = random.pick(&LASTS);
    kinds.extend(vec![OR_OF_WORDS; lasts]);
    let first_last = kinds.len() - lasts;
    let mut cells: Vec<Cell> = (0..kinds.len())
        .map(|number| cell(&kinds, number, random))
        .collect();
    for last in &mut cells[first_last..] {
        last.b = ZERO;
    }
    let finish = wire(&kinds, kinds.len(), Sort::Control, random);
    netfile::write(&Netlist {
        pulse: job::pulse(random),
        cells,
        finish,
    })
}

/// The fixed kinds, then memories and some of the free cells in any order, the
/// last of these a memory, then the arrays and the other free cells.
fn kinds(free: usize, random: &mut Random) -> Vec<u8> {
    let weighted: Vec<u8> = KINDS
        .iter()
        .flat_map(|&(kind, weight)| vec![kind; weight])
        .collect();
    let mut kinds = FIXED.to_vec();
    let (mut memories, mut early) = (MEMORIES, random.between(free / 3, free));
    let late = free - early;
    while memories + early > 0 {
        if early == 0 || (memories > 1 && random.below(memories + early) < memories) {
            kinds.push(MEMORY);
            memories -= 1;
        } else {
            // No array stands below, so that there is nothing to read.
            kinds.push(
                Some(random.pick(&weighted))
                    .filter(|&kind| kind != READ)
                    .unwrap_or(OR),
            );
            early -= 1;
        }
    }
    kinds.extend([ARRAY, ADDRESS].repeat(ARRAYS));
    kinds.extend((0..late).map(|_| random.pick(&weighted)));
    kinds
}

fn cell(kinds: &[u8], number: usize, random: &mut Random) -> Cell {
    let kind = kinds[number];
    let (a, b) = fields(kind).expect("a kind of the list");
    let delay = match kind {
        DELAY => random.pick(&[1, 1, 2, 3, 7, 64, 65, 200, 254, 255]),
        ARRAY => kinds[..number]
            .iter()
            .filter(|&&lower| lower == ARRAY)
            .count() as u8,
        _ => 0,
    };
    let a = field(kinds, number, a, random);
    Cell::new(kind, delay, a, field(kinds, number, b, random))
}

/// A value for a field; the number of cell 2 must be 0.
fn field(kinds: &[u8], number: usize, field: Field, random: &mut Random) -> u16 {
    match field {
        Field::Unused => 0,
        Field::Number if number < FIXED.len() => 0,
        Field::Number => random.pick(&[0, 1, 2, 65, 0xffff, 0x8000]),
        Field::Now(sort) => wire(kinds, number, sort, random),
        Field::Earlier(sort) => wire(kinds, kinds.len(), sort, random),
    }
}

/// A wire of a sort below a limit. One control input in eight is start, since
/// without its pulse nothing happens; the other fixed cells are mostly passed
/// over where there is a choice.
fn wire(kinds: &[u8], limit: usize, wanted: Sort, random: &mut Random) -> u16 {
    if wanted == Sort::Control && random.once_in(8) {
        return 0;
    }
    let least = if random.once_in(10) { 0 } else { FIXED.len() };
    let of_sort = |least: usize| -> Vec<usize> {
        let numbers = least..limit;
        numbers
            .filter(|&number| sort(kinds[number]) == wanted)
            .collect()
    };
    let choices = Some(of_sort(least)).filter(|found| !found.is_empty());
    random.pick(&choices.unwrap_or_else(|| of_sort(0))) as u16
}

#[cfg(test)]
mod tests {
    use super::*;
    use crate::lend::{lent, state_length, WORDS};
    use second::calls;
    use values::Format;

    #[test]
    fn every_netlist_is_good_and_many_stay_lively() {
        let seen: Vec<(bool, bool)> = (0..200)
            .map(|seed| late_changes(&netlist(&mut Random::new(seed))))
            .collect();
        let lively = seen.iter().filter(|(line, _)| *line).count();
        let written = seen.iter().filter(|(_, element)| *element).count();
        assert!(lively > 50, "{lively} of 200 netlists");
        assert!(written > 25, "{written} of 200 netlists assign to elements");
    }

    /// Whether the input of a delay has changed within the last 256 of 600
    /// instants, and whether an element has changed in the last 500.
    fn late_changes(file: &[u8]) -> (bool, bool) {
        let cells = netfile::read(file).expect("a good netlist").cells.len();
        let mut state = lent(state_length(Format::Full, cells));
        calls::begin(Format::Full, file, &[1; WORDS], &mut state).expect("a good netlist");
        let early = state_at(file, &mut state, 100);
        let late = state_at(file, &mut state, 600);
        let (records, elements) = late[8..].split_at(40 * cells);
        let mut lines = records.chunks_exact(40).map(|cell| &cell[8..]);
        let lively = lines.any(|line| line != [0; 32] && line != [255; 32]);
        (lively, !early.ends_with(elements))
    }

    /// The state at an instant that isn't past.
    fn state_at(file: &[u8], state: &mut [u8], instant: u32) -> Vec<u8> {
        let mut left = instant - second::state::instant(state);
        while left > 0 {
            left -= calls::continue_by(Format::Full, file, state, left)
                .expect("a good state")
                .count;
        }
        state.to_vec()
    }
}
