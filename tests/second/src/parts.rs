//! Compiling by parts: the parts' programs, each put behind a sequence node but the
//! last, are one program, and that is compiled. No cell of a part's netlist is used:
//! its file is only held against what compiling the part gives.

use crate::check::MOST_NODES;
use values::{Given, Part, Refusal, Table};

/// A node of kind 19.
const SEQUENCE: [u8; 4] = [19, 0, 0, 0];

/// What is given beside a part.
pub fn given<'a>(table: Table<'a>, part: &Part) -> Given<'a> {
    Given {
        pulse: part.pulse,
        ..Given::table(table)
    }
}

/// The whole, grouped to the right.
pub fn whole(parts: &[Part]) -> Vec<u8> {
    let (last, others) = parts.split_last().expect("there are parts");
    let front = others.iter().flat_map(|part| [&SEQUENCE[..], part.program]);
    front.chain([last.program]).collect::<Vec<_>>().concat()
}

/// Refusals 29, 30 and 31 of parts whose own checks have passed, in this order.
/// `compiled` gives a part's file.
pub fn check(parts: &[Part], compiled: impl Fn(&Part) -> Vec<u8>) -> Result<(), Refusal> {
    if !(2..=8).contains(&parts.len()) {
        return Err(Refusal::new(29, 0));
    }
    let too_long = |i: usize| whole(&parts[..=i]).len() > 4 * MOST_NODES;
    let differs = |i: usize| parts[i].pulse != parts[0].pulse;
    let other = |i: usize| compiled(&parts[i]) != parts[i].file;
    let tests: [(u8, &dyn Fn(usize) -> bool); 3] = [(29, &too_long), (30, &differs), (31, &other)];
    for (number, test) in tests {
        if let Some(i) = (0..parts.len()).find(|i| test(*i)) {
            return Err(Refusal::new(number, i));
        }
    }
    Ok(())
}
