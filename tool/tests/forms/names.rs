//! What wires are called: by line and word, each by a name of its own, in dumps as in
//! what GTKWave shows of them; and by the names of a list.

use crate::circuits::{self, recorded};
use crate::programs::{examples, programs, top};
use crate::vcd::read;
use hub::input::Circuit;
use hub::wave::scopes::scopes;
use hub::wave::{choice, gtkw, vcd, Wire};
use std::collections::BTreeSet;
use std::fs;

fn wires(circuit: &Circuit, text: &str, asked: Option<&str>) -> Vec<Wire> {
    choice::wires(circuit, text.as_bytes(), asked, false).expect("wires")
}

fn names(wires: &[Wire]) -> Vec<&str> {
    wires.iter().map(|wire| wire.name.as_str()).collect()
}

/// A text's wires are named by line and word, and lie in the statements around.
#[test]
fn wires_of_a_text_tell_their_line() {
    let (_, text) = &examples()[examples().len() - 1];
    let circuit = circuits::of_text(text);
    let wires = wires(&circuit, text, None);
    let loops = wires
        .iter()
        .filter(|wire| wire.name.ends_with("while.start"));
    let loops: Vec<&Wire> = loops.collect();
    assert_eq!(loops[0].name, "line1.while.start");
    assert_eq!(loops[1].name, "line2.while.start");
    assert_eq!(loops[0].about, "while x0 @1");
    assert_eq!(loops[1].scope, ["line2.parallel", "line2.while"]);
    assert!(names(&wires).contains(&"line1.x0.finish"));
}

/// The second of a kind on a line has a number; kind and node are a name as well.
#[test]
fn statements_of_one_line_differ() {
    let text = "x0 := 1 @1 ; x0 := 2 @1 ; tick 3 ; a1[0] := 3 @1";
    let circuit = circuits::of_text(text);
    let shown = wires(&circuit, text, None);
    for name in [
        "line1.x0.start",
        "line1.x0_2.start",
        "line1.tick.finish",
        "line1.a1.finish",
    ] {
        assert!(names(&shown).contains(&name), "{name}");
    }
    let asked = wires(&circuit, text, Some("line1.x0_2.start,assign4.start"));
    assert_eq!(asked[0].shows, asked[1].shows);
}

/// What words and arrays take in has names too.
#[test]
fn clocks_and_data_have_names() {
    let text = "x0 := 1 @1 ; a1[0] := x0 @1";
    let circuit = circuits::of_text(text);
    let asked = "x0.clock,x0.data,a1.clock,a1.data,a1.address,cell=3";
    let wires = wires(&circuit, text, Some(asked));
    let control: Vec<bool> = wires.iter().map(|wire| wire.control).collect();
    assert_eq!(control, [true, false, true, false, false, true]);
    assert_eq!(wires[0].shows, wires[5].shows);
}

/// The names of a list are those of its wires and words.
#[test]
fn lists_have_names() {
    let text = fs::read_to_string(top().join("docs/course/stall_17.list")).expect("a list");
    let circuit = circuits::of_list(&text);
    let wires = wires(&circuit, &text, None);
    assert_eq!(names(&wires)[..4], ["start", "finish", "x0", "test"]);
    let renamed = circuits::of_list(&text.replace("x0", "left"));
    assert_eq!(renamed.names().words[..2], ["left", "x1"]);
    assert_eq!(renamed.netlist, circuit.netlist);
}

/// All names of a dump differ, also the last parts of those of statements, and what
/// GTKWave is told to show is in the dump, all of it.
#[test]
fn names_in_dumps_differ() {
    for program in programs() {
        let circuit = circuits::of_program(&program);
        let wires = wires(&circuit, "", None);
        let waves = recorded(&circuit, (&[0; hub::store::LENGTH], &[]), wires, 0, 20);
        let full = scopes(vcd::WHOLE, &waves.wires).full();
        let leaves: BTreeSet<&str> = full
            .iter()
            .map(|n| n.rsplit('.').next().expect("a name"))
            .collect();
        assert_eq!(leaves.len(), full.len());
        let rows = gtkw::gtkw("x.vcd", &waves);
        let rows = rows.lines().filter(|line| line.starts_with("hub."));
        let rows: BTreeSet<String> = rows
            .map(|row| row.split('[').next().expect("a name").to_string())
            .collect();
        let (dumped, _) = read(&vcd::vcd(&waves));
        assert_eq!(rows, dumped.keys().cloned().collect());
    }
}
