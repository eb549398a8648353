//! Long recordings: what is recorded by stops at the instants where wires may change is
//! what a recording of every instant has, for every wire.

use crate::programs::{programs, Program};
use crate::{circuits, functional};
use hub::input::Circuit;
use hub::kinds::LATCH;
use hub::layout::CELLS;
use hub::product;
use hub::store::{self, Store};
use hub::types::Format;
use hub::wave::{choice, probe, Shows};

fn start() -> Store {
    let mut start: Store = std::array::from_fn(|place| 5 * place as u16);
    start[0] = 3;
    start
}

/// The circuits of all programs, each with its pulse length, and the functional ones.
fn circuits() -> Vec<(u8, Circuit)> {
    let own = |program: &Program| (program.pulse, circuits::of_program(program));
    let mut all: Vec<(u8, Circuit)> = programs().iter().map(own).collect();
    all.extend(functional::circuits().map(|(_, circuit)| (1, circuit)));
    all
}

#[test]
fn stops_tell_what_every_instant_does() {
    let (mut changes, mut pulses, mut latched) = (0, 0, 0);
    for ((pulse, circuit), from) in circuits().into_iter().zip([0, 1, 17].into_iter().cycle()) {
        let cells = (0..circuit.netlist.cells.len()).map(|cell| cell.to_string());
        let elements = store::OF_ARRAYS.step_by(17).map(store::name);
        let names: Vec<String> = cells.chain(elements).collect();
        let asked = names.join(",");
        let wires = choice::wires(&circuit, &[], Some(&asked), false).expect("wires");
        let by_instants = circuits::recorded(&circuit, (&start(), &[]), wires, from, 90);
        // One by one, so that the stops are those of this wire alone.
        for (wire, values) in by_instants.wires.iter().zip(&by_instants.values) {
            let file = probe::probe(&circuit.netlist, std::slice::from_ref(wire));
            let file = file.expect("a probe");
            let by_stops = probe::record(&file, &start(), vec![wire.clone()], from, 90);
            assert_eq!(by_stops.expect("a run").values[0], *values, "{}", wire.name);
            let moves = values.windows(2).filter(|pair| pair[0] != pair[1]).count();
            changes += moves;
            pulses += usize::from(pulse > 1 && moves > 0);
            let latch = |cell: u16| circuit.netlist.cells[usize::from(cell)].kind == LATCH;
            let is_latch = matches!(wire.shows, Shows::Cell(cell) if latch(cell));
            latched += usize::from(is_latch && moves > 0);
        }
    }
    assert!(changes > 5_000, "{changes} changes");
    assert!(pulses > 300, "{pulses} wires with longer pulses");
    assert!(latched > 20, "{latched} latches that change");
}

/// All wires at once, and the number in flight, which no stop tells.
#[test]
fn many_wires_share_their_stops() {
    for (_, circuit) in circuits() {
        let wires = choice::wires(&circuit, &[], None, true).expect("wires");
        let Some(file) = probe::probe(&circuit.netlist, &wires) else {
            assert!(circuit.netlist.cells.len() + wires.len() > CELLS);
            continue;
        };
        let by_stops = probe::record(&file, &start(), wires.clone(), 0, 200).expect("a run");
        assert_eq!(
            by_stops,
            circuits::recorded(&circuit, (&start(), &[]), wires, 0, 200)
        );
    }
    let circuit = circuits::of_program(&programs()[0]);
    let wires = choice::wires(&circuit, &[], Some("in_flight"), false).expect("a wire");
    assert!(probe::probe(&circuit.netlist, &wires).is_none());
}

/// Two pulses on their way in one delay, for which a compact state has no room.
#[test]
fn crowded_delays_are_recorded_too() {
    let list = "finish line\nstart\nground\nconstant 0\nidle memories\ntwo: delay 2 of start\n\
                four: delay 4 of start\nboth: either two four\nline: delay 5 of both\n";
    let circuit = circuits::of_list(list);
    let wires = choice::wires(&circuit, &[], Some("both,line"), false).expect("wires");
    let file = probe::probe(&circuit.netlist, &wires).expect("a probe");
    let crowded = product::begin(Format::Compact, &file, &start());
    let (mut state, _) = crowded.expect("a state");
    let mut went = |_| product::go(Format::Compact, &file, &mut state, 20);
    let met = (0..20).map(&mut went).find_map(Result::err);
    assert_eq!(met.map(|met| met.number), Some(26));
    let by_stops = probe::record(&file, &start(), wires.clone(), 0, 20).expect("a run");
    let high = |row: usize| {
        let values = (0..).zip(&by_stops.values[row]);
        let high = values.filter(|(_, value)| **value == 1);
        high.map(|(instant, _)| instant).collect::<Vec<u32>>()
    };
    assert_eq!((high(0), high(1)), (vec![2, 4], vec![7, 9]));
}
