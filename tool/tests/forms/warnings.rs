//! Warnings: of programs that earn one, and on generated programs held against runs.

use crate::circuits;
use crate::programs::{programs, Chance, Program};
use hub::input::Program as Accepted;
use hub::names::Names;
use hub::preorder::subtree_end;
use hub::store::{Store, LENGTH};
use hub::types::{Beside, Node};
use hub::warnings::{warnings, Warning};
use hub::wave::{Shows, Wire};
use hub::{origin, product, source};

fn warned(program: &Program) -> Vec<Warning> {
    let accepted = Accepted {
        procedures: program.procedures,
        bytes: program.bytes.clone(),
        nodes: product::nodes(&program.bytes),
        places: None,
        long: false,
        names: Names::default(),
        said: Vec::new(),
    };
    warnings(program.beside(), &accepted, &|node| format!("node {node}"))
}

/// A text, and of each warning about it what it is about, and the node.
const TOLD: &[(&str, &[(&str, usize)])] = &[
    (
        "if !(x0 < 5) @18 then ok else tick 1 end",
        &[("condition", 1), ("unreached", 6)],
    ),
    ("if not x0 < 5 then ok else tick 1 end", &[]),
    ("if !x0 then ok else tick 1 end", &[]),
    (
        "if (x0 < 5) | 1 then tick 2 else tick 1 end",
        &[("condition", 1), ("unreached", 7)],
    ),
    (
        "if (x0 < 5) & 2 then tick 2 else tick 1 end",
        &[("condition", 1), ("unreached", 6)],
    ),
    ("if (x0 < 5) & (x1 = 2) then tick 2 else tick 1 end", &[]),
    (
        "if 2 - 2 then tick 1 end",
        &[("condition", 1), ("unreached", 4)],
    ),
    ("while 1 do ok end", &[("condition", 1)]),
    (
        "while 1 do ok end ; tick 3",
        &[("condition", 2), ("unreached", 4)],
    ),
    (
        "while 0 do tick 3 end",
        &[("condition", 1), ("unreached", 2)],
    ),
    ("loop do ok end ; tick 3", &[("unreached", 3)]),
    ("loop do exit ; tick 2 end ; tick 3", &[("unreached", 4)]),
    ("loop do if x0 then exit end ; tick 2 end ; tick 3", &[]),
    (
        "procedure p do loop do ok end end call p ; tick 3",
        &[("unreached", 4)],
    ),
    ("while x0 do x1 := x1 + 1 end", &[("endless", 0)]),
    ("while x0 do x0 := x0 - 1 end", &[]),
    ("repeat tick 1 until a0[x0] = 3 end", &[("endless", 0)]),
    ("repeat a0[x1] := 3 until a0[x0] = 3 end", &[]),
    ("procedure p do x0 := 0 end while x0 do call p end", &[]),
    (
        "loop do while x0 do if x1 then exit end ; tick 1 end end",
        &[],
    ),
    ("x0 := x0 + 1 @20", &[("delay", 0)]),
    ("x0 := x0 + 1 @+4", &[]),
    (
        "while x0 @3 do x0 := x0 - 1 @20 end",
        &[("delay", 0), ("delay", 2)],
    ),
    (
        "procedure p do ok end procedure q do call p end call p",
        &[("uncalled", 1)],
    ),
    ("x1 := x0 ; x1 := 3", &[("unread", 1)]),
    ("a1[0] := x0", &[("unread", 0)]),
];

#[test]
fn what_is_not_meant_is_told() {
    for (text, expected) in TOLD {
        let mut source = source::read(text.as_bytes()).expect(text);
        source.settle(Beside::NOTHING).expect(text);
        let accepted = Accepted {
            procedures: source.procedures,
            bytes: product::program_bytes(&source.nodes),
            nodes: source.nodes.clone(),
            places: None,
            long: true,
            names: Names::default(),
            said: source.said.clone(),
        };
        let beside = Beside::procedures(source.procedures);
        assert_eq!(product::check(beside, &accepted.bytes), Ok(()), "{text}");
        let told = warnings(beside, &accepted, &|node| node.to_string());
        let mut found: Vec<(&str, usize)> = told
            .iter()
            .map(|warning| (warning.about, warning.node))
            .collect();
        // Most of these leave a word unread, which is told last.
        if !expected.iter().any(|(about, _)| *about == "unread") {
            found.retain(|(about, _)| *about != "unread");
        }
        assert_eq!(found, *expected, "{text}");
    }
}

fn random(chance: &mut Chance) -> Store {
    let mut store = [0; LENGTH];
    for word in &mut store {
        *word = [0, 1, 2, 5, 32_767, 32_768, 65_535][chance.below(7)];
    }
    store
}

/// A condition that is said to hold always, or never, does so by the rules, from any
/// words.
#[test]
fn conditions_come_to_what_is_said() {
    let (mut chance, mut tried) = (Chance(3), 0);
    for program in programs() {
        let nodes = product::nodes(&program.bytes);
        for warning in warned(&program)
            .iter()
            .filter(|warning| warning.about == "condition")
        {
            let holds = warning.what.contains("always");
            let condition = &nodes[warning.node..subtree_end(&nodes, warning.node)];
            let assigned = Node {
                kind: 18,
                delay: 255,
                n: 0,
            };
            let alone = product::program_bytes(&[&[assigned], condition].concat());
            for _ in 0..20 {
                let start = random(&mut chance);
                let end = product::reference(Beside::NOTHING, &alone, &start, 1_000);
                let words = end.expect("a program").expect("it ends").words;
                assert_eq!(words[0] != 0, holds, "{warning:?}");
                tried += 1;
            }
        }
    }
    assert!(tried > 300, "{tried}");
}

/// What is said to be never reached isn't started in runs from any words.
#[test]
fn what_is_never_reached_is_not_started() {
    let (mut chance, mut tried) = (Chance(4), 0);
    for program in programs()
        .iter()
        .filter(|program| program.bytes.len() < 4 * 60)
    {
        let told = warned(program);
        let unreached: Vec<_> = told
            .iter()
            .filter(|warning| warning.about == "unreached")
            .collect();
        if unreached.is_empty() {
            continue;
        }
        let circuit = circuits::of_program(program);
        let nodes = product::nodes(&program.bytes);
        let trace = origin::trace(program.procedures, &nodes, &circuit.netlist).expect("a trace");
        let wire = |node: usize| Wire {
            name: String::new(),
            about: String::new(),
            scope: Vec::new(),
            shows: Shows::Cell(trace.ends[node].expect("a statement").start),
            control: true,
        };
        let wires: Vec<Wire> = unreached.iter().map(|warning| wire(warning.node)).collect();
        let start = random(&mut chance);
        let waves = circuits::recorded(&circuit, (&start, &[]), wires, 0, 300);
        for (warning, values) in unreached.iter().zip(&waves.values) {
            assert!(values.iter().all(|value| *value == 0), "{warning:?}");
            tried += 1;
        }
    }
    assert!(tried > 20, "{tried}");
}
