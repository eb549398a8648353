//! Waveforms of a program's ideal run and of the one with gates that take their time: a
//! row of each for every word, and marks where they differ.

use super::record::value;
use super::{Shows, Waveforms, Wire};
use crate::progress::Progress;
use crate::slow::{Both, Moment};
use crate::types::Fault;
use std::collections::BTreeSet;

/// Both runs from instant 0 up to another, or to the end if it comes first.
pub fn moments(both: &mut Both, to: u32) -> Result<Vec<Moment>, Fault> {
    let mut moments = Vec::new();
    let mut progress = Progress::new(to);
    for instant in 0..=to {
        progress.show(instant);
        let moment = both.at(instant)?;
        let ended = moment.answer.ended;
        moments.push(moment);
        if ended {
            break;
        }
    }
    Ok(moments)
}

/// The cells that differ at some instant, as wires.
pub fn differing(moments: &[Moment], notes: &[Option<String>]) -> Vec<Wire> {
    let cells: BTreeSet<usize> = moments.iter().flat_map(Moment::differing).collect();
    let wire = |cell: usize| Wire {
        name: format!("cell{cell}"),
        about: notes[cell].clone().unwrap_or_default(),
        scope: Vec::new(),
        shows: Shows::Cell(cell as u16),
        control: false,
    };
    cells.into_iter().map(wire).collect()
}

/// The waveforms: below each word of a cell that in the slow run. All else is the same in
/// both.
pub fn waves(moments: &[Moment], wires: Vec<Wire>) -> Waveforms {
    let mut waves = Waveforms {
        from: 0,
        to: moments.len() as u32 - 1,
        wires: Vec::new(),
        values: Vec::new(),
        marks: Vec::new(),
    };
    for wire in wires {
        let ideal = |moment: &Moment| value(wire.shows, &moment.state, moment.slow.len());
        let ideal: Vec<u32> = moments.iter().map(ideal).collect();
        let slow = match wire.shows {
            Shows::Cell(cell) if !wire.control => Some(slow_row(moments, &wire, cell, &ideal)),
            _ => None,
        };
        waves.wires.push(wire);
        waves.values.push(ideal);
        waves.marks.push(Vec::new());
        if let Some((wire, values, marks)) = slow {
            waves.wires.push(wire);
            waves.values.push(values);
            waves.marks.push(marks);
        }
    }
    waves
}

/// A cell's word in the slow run, marked where it isn't the ideal one.
fn slow_row(
    moments: &[Moment],
    wire: &Wire,
    cell: u16,
    ideal: &[u32],
) -> (Wire, Vec<u32>, Vec<usize>) {
    let wire = Wire {
        name: format!("{}_slow", wire.name),
        about: String::new(),
        ..wire.clone()
    };
    let word = |moment: &Moment| moment.slow[usize::from(cell)].into();
    let values: Vec<u32> = moments.iter().map(word).collect();
    let differs = |at: &usize| values[*at] != ideal[*at];
    let marks = (0..values.len()).filter(differs).collect();
    (wire, values, marks)
}
