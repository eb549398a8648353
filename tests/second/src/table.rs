//! Operator times, and the one-block file that gives them: refusals 19 to 21.

use crate::block;
use crate::operator::Operator;
use crate::word::put2;
use std::ops::RangeInclusive;
use values::{Refusal, Table};

/// The kinds of expressions, 1 to 10.
const KINDS: usize = 10;

/// The last of them, the element.
const ELEMENT: u8 = 10;

/// The lowest kinds, constant and variable, take no time.
const TIMELESS: usize = 2;

const OPERATOR_TIMES: RangeInclusive<u8> = 1..=200;

/// The time of each kind; that of kind k is the byte k - 1.
#[derive(Clone, Copy, Debug, PartialEq, Eq)]
pub struct Times(pub [u8; KINDS]);

/// The times of the paper's own table, for calls that are given none.
pub const BUILT_IN: Times = Times([0, 0, 1, 16, 17, 1, 1, 6, 17, 4]);

impl Times {
    pub fn of(&self, operator: Operator) -> u32 {
        self.of_kind(operator.kind())
    }

    pub fn of_element(&self) -> u32 {
        self.of_kind(ELEMENT)
    }

    fn of_kind(&self, kind: u8) -> u32 {
        u32::from(self.0[usize::from(kind) - 1])
    }

    /// The file that gives these times.
    pub fn file(&self) -> [u8; block::LENGTH] {
        let mut file = [0; block::LENGTH];
        put2(&mut file, 2, KINDS as u16);
        file[block::HEADER..][..KINDS].copy_from_slice(&self.0);
        let check = block::sum(&file).wrapping_neg();
        put2(&mut file, block::CHECK, check);
        file
    }
}

/// The times that a table gives, or the built-in ones where there is none.
pub fn times(table: Table) -> Result<Times, Refusal> {
    table.map_or(Ok(BUILT_IN), read)
}

/// The times that a file gives, or the refusal found first.
pub fn read(file: &[u8]) -> Result<Times, Refusal> {
    if file.len() != block::LENGTH {
        return Err(Refusal::new(19, 0));
    }
    if block::sum(file) != 0 {
        return Err(Refusal::new(20, 0));
    }
    match (0..file.len()).find(|&place| !is_good(place, file[place])) {
        Some(place) => Err(Refusal::new(21, place)),
        None => Ok(times_in(file)),
    }
}

/// Whether a byte may stand at a place; the sum tells of the check's bytes.
fn is_good(place: usize, byte: u8) -> bool {
    const OPERATORS: usize = block::HEADER + TIMELESS;
    const REST: usize = block::HEADER + KINDS;
    match place {
        2 => usize::from(byte) == KINDS,
        block::CHECK..block::HEADER => true,
        OPERATORS..REST => OPERATOR_TIMES.contains(&byte),
        _ => byte == 0,
    }
}

fn times_in(file: &[u8]) -> Times {
    Times(std::array::from_fn(|kind| file[block::HEADER + kind]))
}
