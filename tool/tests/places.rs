//! Where nodes stand in a text, where cells come from, and what is found out by
//! asking: held against the product on the vectors of tests/vectors.

use hub::input::{Form, Given};
use hub::origin::{trace, trace_functional, Ends};
use hub::preorder::{roots, subtree_end};
use hub::refusals::Report;
use hub::source::Place;
use hub::types::{Beside, Node, Refusal, INTERNAL};
use hub::{product, refusals, source};
use std::fs;
use std::path::{Path, PathBuf};

/// The programs of a folder of the vectors, which has many.
fn programs(folder: &str) -> Vec<PathBuf> {
    let files = vectors(folder);
    assert!(files.len() > 40, "{folder} has programs");
    files
}

fn vectors(folder: &str) -> Vec<PathBuf> {
    let vectors = Path::new(env!("CARGO_MANIFEST_DIR")).join("../tests/vectors");
    let entries = fs::read_dir(vectors.join(folder)).expect("the vectors");
    let mut files: Vec<PathBuf> = entries
        .map(|entry| entry.expect("an entry").path())
        .collect();
    files.retain(|file| file.extension().is_some_and(|ending| ending == "prog"));
    files
}

fn given(name: &Path) -> Given {
    Given {
        name: name.display().to_string(),
        form: Form::Program,
        bytes: fs::read(name).expect("a vector"),
        aside: Beside::NOTHING.into(),
        long: None,
    }
}

/// Folders of vectors, and of each the accepted programs and the calls in them.
const COMPILED: [(&str, usize, usize); 5] = [
    ("compile", 60, 0),
    ("s05/compile", 25, 0),
    ("s06/compile", 29, 0),
    ("s08/compile", 26, 135),
    ("s10/compile", 28, 8),
];

#[test]
fn cells_come_from_the_nodes_of_their_program() {
    for (folder, accepted, calls) in COMPILED {
        let files = programs(folder);
        let traced: Vec<usize> = files.iter().filter_map(|file| traced(file)).collect();
        let found = (traced.len(), traced.iter().sum());
        assert_eq!(found, (accepted, calls), "{folder}");
    }
}

/// Folders of vectors, and of each the programs that have a functional circuit.
const HANDED_ON: [&str; 4] = ["compile", "s05/compile", "s06/compile", "s11/functional"];

/// The functional circuit of a program is the product's, cell by cell, and each statement
/// has its ends in it.
#[test]
fn functional_cells_come_from_the_nodes_of_their_program() {
    let mut traced = 0;
    for file in HANDED_ON.into_iter().flat_map(vectors) {
        let bytes = fs::read(&file).expect("a vector");
        let Ok(compiled) = product::compile(Beside::FUNCTIONAL, &bytes) else {
            continue;
        };
        let nodes = product::nodes(&bytes);
        let netlist = product::read_netlist(&compiled).expect("an accepted netlist");
        let trace = trace_functional(&nodes, &netlist).expect("the product's cells");
        assert_eq!(trace.origins.len(), netlist.cells.len());
        let finish = netlist.finish;
        assert_eq!(trace.ends[0], Some(Ends { start: 0, finish }));
        for (node, found) in nodes.iter().enumerate() {
            let statement = found.kind >= 16;
            assert_eq!(trace.ends[node].is_some(), statement, "node {node}");
            assert_eq!(trace.values[node].is_some(), !statement, "node {node}");
        }
        traced += 1;
        let mut other = netlist;
        other.cells[30].a ^= 1;
        let fault = trace_functional(&nodes, &other).expect_err("another input");
        assert_eq!(fault.exit, INTERNAL);
    }
    assert!(traced > 80, "{traced}");
}

/// Holds the trace of a program, if it is accepted, against its nodes and cells, and
/// tells how many calls it has. The main program has the netlist's start and finish,
/// and a call finishes by a merge of its own.
fn traced(file: &Path) -> Option<usize> {
    let bytes = fs::read(file).expect("a vector");
    let (pulse, procedures) = given_beside(file);
    let table = fs::read(file.with_extension("table")).ok();
    let beside = Beside {
        table: table.as_deref(),
        procedures,
        pulse,
        ..Beside::NOTHING
    };
    let compiled = product::compile(beside, &bytes).ok()?;
    let nodes = product::nodes(&bytes);
    let netlist = product::read_netlist(&compiled).expect("an accepted netlist");
    let trace = trace(procedures, &nodes, &netlist).expect("the product's cells");
    assert_eq!(trace.origins.len(), netlist.cells.len());
    let (main, finish) = (roots(&nodes).0[procedures], netlist.finish);
    assert_eq!(trace.ends[main], Some(Ends { start: 0, finish }));
    let mut calls = 0;
    for (node, found) in nodes.iter().enumerate() {
        let statement = found.kind >= 16;
        assert_eq!(trace.ends[node].is_some(), statement, "node {node}");
        assert_eq!(trace.values[node].is_some(), !statement, "node {node}");
        if let (27, Some(ends)) = (found.kind, trace.ends[node]) {
            let finish = usize::from(ends.finish);
            assert_eq!(netlist.cells[finish].kind, 39, "node {node}");
            assert_eq!(trace.origins[finish].node, Some(node));
            calls += 1;
        }
    }
    Some(calls)
}

/// The pulse length of a vector and how many procedures it has, as its .given
/// tells where it has one.
fn given_beside(file: &Path) -> (u8, usize) {
    let given = fs::read_to_string(file.with_extension("given")).unwrap_or_default();
    let mut numbers = given.split(' ').map(str::parse);
    let mut next = || numbers.next().and_then(Result::ok);
    let (pulse, procedures): (Option<usize>, Option<usize>) = (next(), next());
    let pulse = pulse.map_or(1, |pulse| pulse as u8);
    (pulse, procedures.unwrap_or(0))
}

#[test]
fn other_cells_than_the_products_are_an_internal_error() {
    let program = [17, 2, 0, 0];
    let file = product::compile(Beside::NOTHING, &program).expect("an accepted program");
    let mut netlist = product::read_netlist(&file).expect("an accepted netlist");
    netlist.cells[3].delay = 3;
    let fault = trace(0, &product::nodes(&program), &netlist).expect_err("another delay");
    assert_eq!(fault.exit, INTERNAL);
}

/// Of each node: all of it, the word or sign that names it, and its delay.
#[test]
fn nodes_stand_in_their_text() {
    let text = "while (x0 | !x1) = 2 @9 do { x0 := x0 - 1 - 2 @34; tick 3 } end || ok";
    let expected = [
        (20, text, "||", None),
        (22, &text[..text.len() - 6], "while", Some("@9")),
        (8, "(x0 | !x1) = 2", "=", None),
        (7, "(x0 | !x1)", "|", None),
        (2, "x0", "x0", None),
        (3, "!x1", "!", None),
        (2, "x1", "x1", None),
        (1, "2", "2", None),
        (19, "{ x0 := x0 - 1 - 2 @34; tick 3 }", ";", None),
        (18, "x0 := x0 - 1 - 2 @34", "x0", Some("@34")),
        (5, "x0 - 1 - 2", "-", None),
        (5, "x0 - 1", "-", None),
        (2, "x0", "x0", None),
        (1, "1", "1", None),
        (1, "2", "2", None),
        (17, "tick 3", "tick", Some("3")),
        (16, "ok", "ok", None),
    ];
    let found = source::read(text.as_bytes()).expect("a text");
    let shown = |span: hub::types::Span| &text[span.start..span.end];
    let places = found.nodes.iter().zip(&found.places).map(|(node, place)| {
        let delay = place.delay.map(shown);
        (node.kind, shown(place.whole), shown(place.mark), delay)
    });
    assert_eq!(places.collect::<Vec<_>>(), expected);
}

/// Texts of every form, each read as the product reads it.
#[test]
fn texts_are_read_as_the_product_reads_them() {
    let texts = [
        "ok",
        "{ok}",
        "ok;ok;ok||ok||ok;ok",
        "{ok||ok};{ok||{ok;ok}};ok",
        "if x0 & 1 | x2 < 3 & !!x3 = 4 @40 then ok else tick 1 || tick 2 end",
        "repeat x3 := 65535 - x3 + 1 @33; ok until x3 = 0 | x15 < 7 @18 end",
        "while((x1+(x2-x3)))@33 do\n\nok;{tick 255}\nend",
        "x0:=!(x0=x1)&(x2|x3)&x4@9;x1:=(x1<x2)=x3@23",
    ];
    for text in texts {
        let bytes = product::read_text(Beside::NOTHING, text.as_bytes()).expect(text);
        let read = source::read(text.as_bytes()).expect(text);
        assert_eq!(read.nodes, product::nodes(&bytes), "{text}");
    }
}

/// Programs of every kind, typed: the places are those of the product's nodes,
/// each within its parent's.
#[test]
fn typed_programs_are_read_as_the_product_reads_them() {
    let mut typed = 0;
    for file in programs("compile") {
        let nodes = product::nodes(&fs::read(&file).expect("a vector"));
        if !hub::format::has_text(0, &nodes) {
            continue;
        }
        let tree = hub::format::tree(&nodes).expect("an accepted program");
        let text = hub::format::format(&tree);
        let given = Given {
            form: Form::Text,
            bytes: text.clone().into_bytes(),
            ..given(&file)
        };
        let Ok(read) = given.program() else {
            assert!(text.len() > 4_096, "{text}");
            continue;
        };
        assert_eq!(read.nodes, nodes, "{text}");
        let places = read.places.expect("it came as a text");
        for (node, place) in places.iter().enumerate() {
            let below = &places[node..subtree_end(&nodes, node)];
            let within = |part: &Place| {
                place.whole.start <= part.whole.start && part.whole.end <= place.whole.end
            };
            assert!(below.iter().all(within), "node {node} of {text}");
        }
        typed += 1;
    }
    assert!(typed > 50);
}

/// Every beginning and every lack of a word ends in a place, and in no fault.
#[test]
fn broken_texts_are_met_with_a_place() {
    let text = "while x0 @1 do { x0 := (x0 - 1) & 3 @18 || ok } end";
    for end in 0..text.len() {
        if let Err(broken) = source::read(&text.as_bytes()[..end]) {
            assert!(broken.span.end <= end, "{end}");
        }
    }
}

/// The vectors that a refusal meets, and what is told of each.
fn refused(number: u8) -> Vec<(Given, Report)> {
    let reported = |given: Given| {
        let met = product::check(Beside::NOTHING, &given.bytes).err()?;
        let report = (met.number == number).then(|| refusals::report(&given, met))?;
        Some((given, report.expect("a report")))
    };
    let given = programs("program").into_iter().map(|file| given(&file));
    given.filter_map(reported).collect()
}

#[test]
fn a_clash_has_a_use_on_each_side() {
    let clashes = refused(8);
    assert!(clashes.len() > 2);
    for (given, report) in clashes {
        let (nodes, place) = (product::nodes(&given.bytes), report.refusal.place);
        let [left, right] = report.uses.expect("both uses");
        let middle = subtree_end(&nodes, place + 1);
        assert!((place + 1..middle).contains(&left));
        assert!((middle..subtree_end(&nodes, middle)).contains(&right));
        let uses = [nodes[left], nodes[right]];
        let shared = report.variable.or(report.array);
        assert!(uses.iter().all(|node: &Node| shared == Some(node.n)));
        let arrays = uses.map(|node| matches!(node.kind, 10 | 24));
        assert_eq!(arrays, [report.array.is_some(); 2]);
        assert!(uses.iter().any(|node| matches!(node.kind, 18 | 24)));
    }
}

#[test]
fn the_least_delay_is_the_first_that_passes() {
    let small = refused(7);
    assert!(small.len() > 5);
    for (given, report) in small {
        let met = report.refusal;
        let passes = |delay: &u8| {
            let mut bytes = given.bytes.clone();
            bytes[4 * met.place + 1] = *delay;
            product::check(Beside::NOTHING, &bytes) != Err(met)
        };
        assert_eq!(report.least, (0..=255).find(passes), "{}", given.name);
    }
}

const CLASH: &str = "a2 is read on one side of a parallel statement and written on the other";
const NO_LOOP: &str = "this exit has no loop around it";
const BETWEEN: &str = "a parallel statement stands between this exit and the loop around it";

/// Refused outlines: the number, the rule that is told, and the lines that are
/// marked, the refusal's own first. A line is a node.
const TOLD: [(&str, u8, &str, &[usize]); 8] = [
    // The uses of an array that clash are found among others of the same side, and
    // an array is no variable of its number.
    (
        "parallel\n sequence\n  assign a1 @4\n   element a0\n    constant 0\n   variable x1\n  \
         assign x0 @8\n   element a1\n    element a2\n     variable x2\n sequence\n  \
         assign x3 @4\n   element a3\n    variable x1\n  assign a2 @1\n   variable x2\n   constant 1\n",
        8,
        CLASH,
        &[0, 8, 14],
    ),
    // An exit is refused for want of a loop, or for the parallel node between it and
    // the loop around it, the innermost of each; other loops, and parallel nodes
    // that are around the loop, don't count.
    ("exit", 22, NO_LOOP, &[0]),
    ("while @1\nconstant 1\nexit", 22, NO_LOOP, &[2]),
    ("sequence\nloop @1\nexit\nexit", 22, NO_LOOP, &[3]),
    ("parallel\nloop @1\nexit\nexit", 22, NO_LOOP, &[3]),
    ("loop @1\nparallel\nok\nexit", 22, BETWEEN, &[3, 1, 0]),
    (
        "loop @1\nparallel\nloop @1\nparallel\nparallel\nok\nok\nexit\nok",
        22,
        BETWEEN,
        &[7, 3, 2],
    ),
    (
        "loop @1\nparallel\nloop @1\nsequence\nok\nexit\nparallel\nexit\nok",
        22,
        BETWEEN,
        &[7, 6, 0],
    ),
];

#[test]
fn a_refused_outline_is_told_with_what_the_rule_is_about() {
    for (outline, number, rule, lines) in TOLD {
        let given = Given {
            form: Form::Outline,
            bytes: outline.as_bytes().to_vec(),
            ..given(Path::new("/dev/null"))
        };
        let nodes = given.source().expect("an outline").nodes;
        let met = product::check(Beside::NOTHING, &product::program_bytes(&nodes));
        let met = met.expect_err(outline);
        let report = refusals::report(&given, met).expect("a report");
        let marked: Vec<usize> = report.marks.iter().map(|mark| mark.line - 1).collect();
        assert_eq!(met, Refusal::new(number, lines[0]), "{outline}");
        assert_eq!((&report.rule[..], &marked[..]), (rule, lines), "{outline}");
        if let Some(uses) = report.uses {
            assert_eq!(uses[..], lines[1..], "{outline}");
        }
    }
}
