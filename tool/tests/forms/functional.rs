//! Functional circuits of the programs that can have one: their cells, lists, pictures
//! and runs.

use crate::circuits::{self, recorded};
use crate::pictures::{assert_clear, cells, chained};
use crate::programs::{programs, Program};
use hub::bound::{self, Takes};
use hub::draw::{dot, svg};
use hub::input::Circuit;
use hub::kinds::{is_idle, untold};
use hub::store::{self, Store, VARIABLES};
use hub::types::{Answer, Beside, Format, Origin, Wiring};
use hub::wave::{choice, Shows};
use hub::{labels, listing, product};

/// The programs that have a functional circuit, as many pulses as they were made for.
pub fn functional() -> Vec<Program> {
    let has_one = |program: &Program| {
        program.procedures == 0 && product::check(Beside::FUNCTIONAL, &program.bytes).is_ok()
    };
    let programs: Vec<Program> = programs().into_iter().filter(has_one).collect();
    assert!(programs.len() > 150, "{}", programs.len());
    programs
}

pub fn circuits() -> impl Iterator<Item = (Program, Circuit)> {
    let programs = functional().into_iter();
    programs.map(|program| {
        let circuit = circuits::functional(&program);
        (program, circuit)
    })
}

fn start() -> Store {
    store::of_words(&std::array::from_fn(|k| [3, 1, 0, 2, 65_535, 4][k % 6]))
}

/// The cell that a statement's word is handed on by, and the cells of each role, are of the
/// kinds that the wiring has for them. That all cells are the product's is asked for each
/// circuit that is made.
#[test]
fn cells_are_what_they_are_said_to_be() {
    let (mut latches, mut choices) = (0, 0);
    for (program, circuit) in circuits() {
        let nodes = product::nodes(&program.bytes);
        let (_, trace) = circuit.program.as_ref().expect("a program");
        assert_eq!(trace.origins.len(), circuit.netlist.cells.len());
        for (cell, Origin { node, role, word }) in circuit.netlist.cells.iter().zip(&trace.origins)
        {
            let kind = match *role {
                "latched" => 45,
                "latching" | "delay" => 34,
                "at first" | "of a round" => 41,
                "of then" | "of else" => 6,
                "to latch" | "chosen" | "at the end" => 7,
                "at the start" => 40,
                _ => cell.kind,
            };
            assert_eq!(cell.kind, kind, "{role}");
            let for_words = matches!(kind, 40 | 41 | 45) || role.contains(' ') && kind != cell.kind;
            assert!(!for_words || word.is_some(), "{role}");
            latches += usize::from(*role == "latched");
            choices += usize::from(*role == "chosen");
            if let (Some(word), Some(node)) = (word, node) {
                let part = &nodes[*node..hub::preorder::subtree_end(&nodes, *node)];
                let writes = part.iter().any(|node| node.kind == 18 && node.n == *word);
                assert!(writes, "{role} of x{word} at node {node}");
            }
        }
    }
    assert!(latches > 100 && choices > 100, "{latches} {choices}");
}

#[test]
fn lists_give_the_netlist_file_back() {
    for (_, circuit) in circuits() {
        let notes = labels::of_cells(&circuit, &[]).expect("notes");
        let all = vec![false; circuit.netlist.cells.len()];
        for left_out in [untold(&circuit.netlist, circuit.wiring), all] {
            let list = listing::list(&circuit.netlist, &left_out, |cell| notes[cell].clone());
            let listed = listing::wired(&list).unwrap_or_else(|wrong| panic!("{wrong:?}\n{list}"));
            let file = product::write_netlist(&listed.netlist);
            assert_eq!(file.as_ref(), Ok(&circuit.file), "{list}");
        }
        // Every cell that isn't one of every netlist's is told.
        let told = notes.iter().filter(|note| note.is_none()).count();
        assert_eq!(told, 3, "start, ground and zero");
    }
}

/// The cells that are drawn: those that aren't idle, without the zero, which is a name,
/// and without words that are at the end as at the start.
fn drawn(circuit: &Circuit) -> usize {
    let cells = &circuit.netlist.cells;
    let busy = cells[..cells.len() - VARIABLES].iter();
    let busy = busy.filter(|cell| !is_idle(cell)).count() - 2;
    let last = cells[cells.len() - VARIABLES..].iter();
    busy + last
        .filter(|cell| !is_idle(&cells[usize::from(cell.a)]))
        .count()
}

#[test]
fn pictures_are_clear() {
    for (_, circuit) in circuits() {
        let alone = Circuit {
            program: None,
            ..circuit.clone()
        };
        for circuit in [circuit, alone] {
            let picture = svg::svg(&circuit, &[], false).expect("a picture");
            assert_clear(&picture);
            let boxes = 1 + drawn(&circuit) - chained(&circuit);
            assert_eq!(cells(&picture).len(), boxes, "{picture}");
        }
    }
}

#[test]
fn all_cells_are_drawn_where_that_is_asked_for() {
    for (_, circuit) in circuits().take(12) {
        let picture = svg::svg(&circuit, &[], true).expect("a picture");
        assert_clear(&picture);
        assert_eq!(cells(&picture).len(), 1 + circuit.netlist.cells.len());
    }
}

#[test]
fn graphs_are_whole() {
    for (_, circuit) in circuits() {
        let graph = dot::dot(&circuit, &[], false).expect("a graph");
        let flags = graph.matches("shape=cds").count();
        assert_eq!(graph.matches("[label=\"").count() - flags, drawn(&circuit));
        assert_eq!(graph.matches('{').count(), graph.matches('}').count());
    }
}

/// From a begun or started run on, the next finish and the words there.
fn ended(circuit: &Circuit, state: &mut [u8], from: Answer) -> Option<Answer> {
    let mode = circuit.mode(Format::Full);
    match from.ended {
        true => Some(from),
        false => {
            let answer = product::go(mode, &circuit.file, state, 400).expect("it goes on");
            answer.ended.then_some(answer)
        }
    }
}

/// A run ends when the rules say so, with their words, holds them, and a second start
/// runs from the start words and not from the last ones.
#[test]
fn runs_end_as_the_rules_say_and_again_from_the_start_words() {
    let mut again = 0;
    for (program, circuit) in circuits() {
        let mode = circuit.mode(Format::Full);
        let rules = product::reference(Beside::FUNCTIONAL, &program.bytes, &start(), 400);
        let rules = rules.expect("a program");
        let begun = product::begin(mode, &circuit.file, &start());
        let (mut state, begun) = begun.expect("a run");
        let Some(end) = ended(&circuit, &mut state, begun) else {
            assert_eq!(rules, None);
            continue;
        };
        let rules = rules.expect("an end");
        assert_eq!((end.instant, end.words), (rules.instant, rules.words));
        let held = product::go(mode, &circuit.file, &mut state, 30).expect("it goes on");
        assert_eq!((held.ended, held.words), (false, rules.words));
        let started = product::start(mode, &circuit.file, &mut state).expect("a start");
        assert_eq!(
            started.words, rules.words,
            "held in the instant of the start"
        );
        let second = ended(&circuit, &mut state, started).expect("a second end");
        let from = second.instant - started.instant;
        assert_eq!((from, second.words), (rules.instant, rules.words));
        again += usize::from(rules.words != store::words(&start()));
    }
    assert!(again > 30, "{again} runs change words");
}

/// What is shown of words is what a run answers with, and a loop's latches are among it.
#[test]
fn waves_show_the_words_at_the_end() {
    let mut latched = 0;
    for (program, circuit) in circuits() {
        let wires = choice::wires(&circuit, &[], None, true).expect("wires");
        let names: Vec<&str> = wires.iter().map(|wire| wire.name.as_str()).collect();
        let mut once = names.clone();
        once.sort_unstable();
        once.dedup();
        assert_eq!(once.len(), names.len(), "{names:?}");
        let kinds = &circuit.netlist.cells;
        latched += wires
            .iter()
            .filter(|wire| matches!(wire.shows, Shows::Cell(c) if kinds[usize::from(c)].kind == 45))
            .count();
        let rules = product::reference(Beside::FUNCTIONAL, &program.bytes, &start(), 300);
        let Some(end) = rules.expect("a program") else {
            continue;
        };
        let waves = recorded(&circuit, (&start(), &[]), wires, end.instant, end.instant);
        let shown = |name: &str| {
            let at = waves.wires.iter().position(|wire| wire.name == name);
            waves.values[at.expect("a wire")][0]
        };
        for (k, word) in end.words.iter().enumerate() {
            assert_eq!(shown(&format!("x{k}")), u32::from(*word));
            let kept = format!("x{k}.memory");
            assert_eq!(shown(&kept), u32::from(start()[k]));
        }
        assert_eq!(shown("finish"), 1);
    }
    assert!(latched > 50, "{latched}");
}

/// A netlist of one circuit runs as the other only where its last sixteen cells are right.
#[test]
fn netlists_run_as_functional_ones_if_they_are() {
    for (program, circuit) in circuits() {
        assert_eq!(circuit.wiring, Wiring::Functional);
        assert_eq!(product::check_last(&circuit.file), Ok(()));
        let other = product::compile(Beside::NOTHING, &program.bytes);
        if let Ok(other) = other {
            let met = product::check_last(&other).expect_err("other last cells");
            assert_eq!(met.number, 12);
        }
    }
}

/// A run takes no less than the least and no more than the most.
#[test]
fn runs_take_what_is_told_before() {
    let mut both = 0;
    for program in functional() {
        let nodes = product::nodes(&program.bytes);
        let bounds = bound::bounds(Beside::FUNCTIONAL, &nodes);
        let Takes::Main(span) = bounds[0].takes else {
            panic!("the main program comes first")
        };
        assert!(span.is_known() || nodes.len() > 60, "{}", nodes.len());
        let rules = product::reference(Beside::FUNCTIONAL, &program.bytes, &start(), 2_000);
        if let Some(end) = rules.expect("a program") {
            assert!(
                span.least.is_ok_and(|least| least <= end.instant),
                "{span:?}"
            );
            assert!(
                span.most.map_or(true, |most| most >= end.instant),
                "{span:?}"
            );
            both += usize::from(span.most.is_ok());
        }
    }
    assert!(both > 10, "{both}");
}

/// Many loops in each other are drawn at once, in both circuits: the frames' borders are
/// counted one by one.
#[test]
fn deep_programs_are_drawn() {
    let deep = (0..40).fold("x0 := 0 @1".to_string(), |inner, _| {
        format!("while x0 @1 do {inner} end")
    });
    for circuit in [
        circuits::of_text(&deep),
        circuits::functional_of_text(&deep),
    ] {
        assert_clear(&svg::svg(&circuit, deep.as_bytes(), false).expect("a picture"));
    }
}
