//! A run, one instant at a time, and what wires show in it.

use super::course::Course;
use super::{Shows, Waveforms, Wire};
use crate::layout::{element_in, in_flight_in, start_left_in, value_in};
use crate::progress::Progress;
use crate::types::{Format, Refusal};

/// The values of these wires from one instant up to another, in a run of so
/// many cells that hasn't come further than the first.
pub fn record(
    course: &mut Course,
    cells: usize,
    wires: Vec<Wire>,
    from: u32,
    to: u32,
) -> Result<Waveforms, Refusal> {
    let mut values = vec![Vec::new(); wires.len()];
    let mut progress = Progress::new(to);
    for instant in from..=to {
        course.reach(instant)?;
        progress.show(instant);
        for (wire, values) in wires.iter().zip(&mut values) {
            values.push(value(wire.shows, &course.state, cells));
        }
    }
    Ok(Waveforms::of(from, to, wires, values))
}

/// What is shown in a state of so many cells.
pub fn value(shows: Shows, state: &[u8], cells: usize) -> u32 {
    match shows {
        Shows::Cell(cell) => value_in(state, cell).into(),
        Shows::Element(place) => element_in(Format::Full, state, cells, place).into(),
        Shows::InFlight => in_flight_in(state),
        Shows::StartLeft => start_left_in(state).into(),
    }
}
