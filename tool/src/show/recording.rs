//! A run with everything that a page shows of it, read from the state at each
//! instant.

use crate::kinds::{is_control, DELAY};
use crate::layout::{element_in, held_in, in_flight_in, value_in};
use crate::progress::Progress;
use crate::store;
use crate::types::{Format, Netlist, Refusal};
use crate::wave::course::Course;

/// The instants at which a value changes, and the values that it then has; instant 0
/// is the first.
pub type Changes = Vec<(u32, u32)>;

pub struct Recording {
    pub to: u32,
    /// Of each cell.
    pub cells: Vec<Changes>,
    /// The bits that the merges hold.
    pub held: Vec<(u16, Changes)>,
    /// The elements, by their places, that change or aren't 0.
    pub elements: Vec<(usize, Changes)>,
    pub in_flight: Changes,
}

/// Records a run that is at instant 0 up to an instant.
pub fn record(course: &mut Course, netlist: &Netlist, to: u32) -> Result<Recording, Refusal> {
    let count = netlist.cells.len();
    let merge = |cell: &u16| matches!(netlist.cells[usize::from(*cell)].kind, 38 | 39);
    let merges: Vec<u16> = (0..count as u16).filter(merge).collect();
    let mut recording = Recording {
        to,
        cells: vec![Vec::new(); count],
        held: merges.iter().map(|cell| (*cell, Vec::new())).collect(),
        elements: store::OF_ARRAYS.map(|place| (place, Vec::new())).collect(),
        in_flight: Vec::new(),
    };
    let mut progress = Progress::new(to);
    for instant in 0..=to {
        course.reach(instant)?;
        progress.show(instant);
        recording.take(instant, &course.state, count);
    }
    let moves = |changes: &Changes| changes.len() > 1 || changes.iter().any(|(_, v)| *v != 0);
    recording.elements.retain(|(_, changes)| moves(changes));
    Ok(recording)
}

impl Recording {
    fn take(&mut self, instant: u32, state: &[u8], count: usize) {
        for (cell, changes) in (0..).zip(&mut self.cells) {
            put(changes, instant, value_in(state, cell).into());
        }
        for (cell, changes) in &mut self.held {
            put(changes, instant, held_in(state, *cell).into());
        }
        for (place, changes) in &mut self.elements {
            let element = element_in(Format::Full, state, count, *place);
            put(changes, instant, element.into());
        }
        put(&mut self.in_flight, instant, in_flight_in(state));
    }
}

fn put(changes: &mut Changes, instant: u32, value: u32) {
    if changes.last().is_none_or(|(_, last)| *last != value) {
        changes.push((instant, value));
    }
}

/// Whether a pulse can be in a cell.
pub fn can_hold(kind: u8) -> bool {
    kind == DELAY || is_control(kind)
}
