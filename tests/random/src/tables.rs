//! Random tables of operator times, and damaged ones with what they meet.

use crate::damage::mend_checks;
use crate::xorshift::Random;
use second::table::Times;
use std::ops::RangeInclusive;
use values::layout::TABLE as LENGTH;
use values::Refusal;

/// The places of the times of operators and elements; those of the other kinds
/// are 0.
const OPERATORS: RangeInclusive<usize> = 10..=17;

/// The first place after the times.
const REST: usize = 18;

/// A table and the refusal that it meets.
#[derive(Clone, Debug)]
pub struct Table {
    pub bytes: Vec<u8>,
    pub refused: Option<Refusal>,
}

/// Times that are alike fast or slow, or go far apart.
pub fn times(random: &mut Random) -> Times {
    let (least, most) = random.pick(&[(1, 3), (1, 20), (1, 200), (100, 200), (199, 200)]);
    let mut time = |kind| match kind {
        0 | 1 => 0,
        _ => random.between(least, most) as u8,
    };
    Times(std::array::from_fn(&mut time))
}

/// The table of these times.
pub fn good(times: &Times) -> Table {
    Table {
        bytes: times.file().to_vec(),
        refused: None,
    }
}

/// The table of these times, damaged so that it meets 19, 20 or 21; the
/// first two now and then hide wrong bytes.
pub fn damaged(times: &Times, random: &mut Random) -> Table {
    let number = random.pick(&[19, 20, 21]);
    let mut bytes = times.file().to_vec();
    let mut place = 0;
    if number == 21 || random.once_in(2) {
        let wrong = put_wrong_bytes(&mut bytes, random);
        place = if number == 21 { wrong } else { 0 };
    }
    match number {
        19 => bytes.resize(other_length(random), 0),
        20 => bytes[random.below(LENGTH)] ^= random.between(1, 255) as u8,
        _ => {}
    }
    Table {
        bytes,
        refused: Some(Refusal::new(number, place)),
    }
}

fn other_length(random: &mut Random) -> usize {
    let below = random.below(LENGTH);
    random.pick(&[0, 17, LENGTH - 1, LENGTH + 1, 2 * LENGTH, below])
}

/// Makes a byte or some wrong and the check right; gives the first's place.
fn put_wrong_bytes(bytes: &mut [u8], random: &mut Random) -> usize {
    let places: Vec<usize> = (0..random.between(1, 3)).map(|_| place(random)).collect();
    for &place in &places {
        bytes[place] = wrong_byte(place, random);
    }
    mend_checks(bytes);
    places.into_iter().min().unwrap_or(0)
}

/// A place outside the check, more often than not one in use.
fn place(random: &mut Random) -> usize {
    let place = match random.below(4) {
        0 => random.below(LENGTH),
        _ => random.below(REST + 1),
    };
    match place {
        6 | 7 => LENGTH - 1,
        other => other,
    }
}

/// A byte that may not stand at a place.
fn wrong_byte(place: usize, random: &mut Random) -> u8 {
    let byte = random.between(1, 255) as u8;
    match place {
        2 if byte == 10 => 0,
        place if OPERATORS.contains(&place) => random.pick(&[0, 201, 255]),
        _ => byte,
    }
}

#[cfg(test)]
mod tests {
    use super::*;
    use second::calls;
    use std::collections::BTreeMap;
    use values::Given;

    const OK: [u8; 4] = [16, 0, 0, 0];

    fn met(table: &Table) -> Option<Refusal> {
        calls::check(Given::table(Some(&table.bytes)), &OK).err()
    }

    #[test]
    fn good_tables_are_loaded() {
        for seed in 0..1_000 {
            let times = times(&mut Random::new(seed));
            assert_eq!(met(&good(&times)), None, "{times:?}");
        }
    }

    #[test]
    fn damaged_tables_meet_the_refusals_told() {
        let mut seen: BTreeMap<(u8, usize), u32> = BTreeMap::new();
        for seed in 0..4_000 {
            let random = &mut Random::new(seed);
            let table = damaged(&times(random), random);
            assert_eq!(met(&table), table.refused, "{:?}", table.bytes);
            let refused = table.refused.expect("a damaged table");
            *seen.entry((refused.number, refused.place)).or_default() += 1;
        }
        let header_and_times = (0..=17).filter(|place| ![6, 7].contains(place));
        let wrong = header_and_times.map(|place| (21, place));
        for refused in [(19, 0), (20, 0)].into_iter().chain(wrong) {
            assert!(seen.contains_key(&refused), "{refused:?} of {seen:?}");
        }
    }
}
