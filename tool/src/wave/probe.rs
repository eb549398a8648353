//! Long recordings. A wire can change only where certain control wires are high or
//! have just been: a control wire itself, a memory's clock, the control of a gate.
//! Ors of these wires are put behind the netlist's cells, as its finish, so that a
//! continuing of the product stops there and nowhere else. At each stop the state
//! tells the value of every cell now and an instant ago, and in between nothing
//! changes: no instant needs a call of its own.

use super::{Shows, Waveforms, Wire};
use crate::kinds::{inputs, is_control, ARRAY, EITHER, GATED, LATCH, MEMORY};
use crate::layout::{cells_in, element_in, values_in, CELLS};
use crate::product;
use crate::progress::Progress;
use crate::store::{self, Store};
use crate::types::{Cell, Format, Netlist, Refusal};
use std::collections::BTreeSet;

/// The cell that is never high.
const GROUND: u16 = 1;

/// The file of the netlist that stops where one of these wires may change; none where
/// a wire doesn't hang on control wires alone, or there is no room.
pub fn probe(netlist: &Netlist, wires: &[Wire]) -> Option<Vec<u8>> {
    let mut watched = BTreeSet::new();
    let mut seen = BTreeSet::new();
    for wire in wires {
        match wire.shows {
            Shows::Cell(cell) => watch(netlist, cell, &mut watched, &mut seen),
            Shows::Element(place) => {
                watched.insert(netlist.cells[array_of(netlist, place)?].a);
            }
            Shows::InFlight | Shows::StartLeft => return None,
        }
    }
    let mut probe = netlist.clone();
    let mut watched = watched.into_iter();
    probe.finish = watched.next().unwrap_or(GROUND);
    for wire in watched {
        if probe.cells.len() == CELLS {
            return None;
        }
        probe.cells.push(Cell::new(EITHER, 0, probe.finish, wire));
        probe.finish = (probe.cells.len() - 1) as u16;
    }
    product::write_netlist(&probe).ok()
}

/// The cell of an element's array.
fn array_of(netlist: &Netlist, place: usize) -> Option<usize> {
    let (array, _) = store::element(place)?;
    let is_array = |cell: &Cell| cell.kind == ARRAY && usize::from(cell.delay) == array;
    netlist.cells.iter().position(is_array)
}

/// The control wires on which a cell hangs: it keeps its value where none of them is
/// high or was high an instant ago.
fn watch(netlist: &Netlist, cell: u16, watched: &mut BTreeSet<u16>, seen: &mut BTreeSet<u16>) {
    let own = &netlist.cells[usize::from(cell)];
    if !seen.insert(cell) {
        return;
    }
    match own.kind {
        kind if is_control(kind) => drop(watched.insert(cell)),
        // What its data are matters only where its clock falls, or where it is loaded.
        MEMORY | ARRAY | LATCH => drop(watched.insert(own.a)),
        kind => {
            if kind == GATED {
                watched.insert(own.a);
            }
            let words = inputs(own);
            let word = |wire: &u16| !is_control(netlist.cells[usize::from(*wire)].kind);
            for wire in words.into_iter().filter(word) {
                watch(netlist, wire, watched, seen);
            }
        }
    }
}

/// The values of wires from one instant up to another, on the file of their probe. Each
/// stop checks the state, so that it is a compact one where the run fits in: with pulses
/// of one instant (27), and one at a time in each delay (26).
pub fn record(
    file: &[u8],
    start: &Store,
    wires: Vec<Wire>,
    from: u32,
    to: u32,
) -> Result<Waveforms, Refusal> {
    let by = |format| values(format, file, start, &wires, (from, to));
    let values = match by(Format::Compact) {
        Err(Refusal {
            number: 26 | 27, ..
        }) => by(Format::Full)?,
        values => values?,
    };
    Ok(Waveforms::of(from, to, wires, values))
}

fn values(
    format: Format,
    file: &[u8],
    start: &Store,
    wires: &[Wire],
    (from, to): (u32, u32),
) -> Result<Vec<Vec<u32>>, Refusal> {
    let (mut state, mut answer) = product::begin(format, file, start)?;
    let cells = cells_in(format, &state);
    let mut progress = Progress::new(to);
    let mut values: Vec<Vec<u32>> = vec![Vec::new(); wires.len()];
    // The first instant that isn't told yet.
    let mut next = 0;
    loop {
        let now = answer.instant;
        let untold = now.saturating_sub(next.max(from)) as usize;
        for (wire, values) in wires.iter().zip(&mut values) {
            let [value, before] = at_stop(format, &state, cells, wire.shows);
            values.resize(values.len() + untold, before);
            if now >= from {
                values.push(value);
            }
        }
        if now == to {
            return Ok(values);
        }
        next = now + 1;
        progress.show(now);
        answer = product::go(format, file, &mut state, SLICE.min(to - now))?;
    }
}

/// What is shown at a stop, and since the one before: an element changes in the instant
/// after a stop.
fn at_stop(format: Format, state: &[u8], cells: usize, shows: Shows) -> [u32; 2] {
    match shows {
        Shows::Cell(cell) => values_in(format, state, cell).map(u32::from),
        Shows::Element(place) => [element_in(format, state, cells, place).into(); 2],
        Shows::InFlight | Shows::StartLeft => unreachable!("no probe tells it"),
    }
}

/// So many instants are run before the progress is looked at.
const SLICE: u32 = 20_000;
