//! Pictures of circuits: every cell is there, no wire lies on another or runs
//! through a cell, and no text on another; those of the examples are kept.

use crate::circuits;
use crate::programs::{examples, outlines, programs, top};
use hub::draw::{dot, svg};
use hub::input::Circuit;
use hub::kinds::is_idle;
use hub::store::LENGTH;
use hub::types::{Cell, Format};
use hub::verilog::{module, testbench, Edges, Expected};
use hub::wave::{choice, vcd};
use hub::{labels, product};
use std::fs;
use std::io::Write;
use std::process::{Command, Stdio};

/// A rectangle: left, top, right, bottom, in tenths.
type Box = [i32; 4];

/// The value of an element's attribute.
fn attribute<'t>(element: &'t str, name: &str) -> Option<&'t str> {
    let begins = format!(" {name}=\"");
    let at = element.find(&begins)? + begins.len();
    element[at..].split('"').next()
}

fn tenths(element: &str, name: &str) -> i32 {
    let value = attribute(element, name).unwrap_or_else(|| panic!("{name} of {element}"));
    (value.parse::<f64>().expect("a number") * 10.0) as i32
}

fn elements<'t>(picture: &'t str, name: &str) -> Vec<&'t str> {
    let begins = format!("<{name} ");
    picture
        .lines()
        .filter(|line| line.starts_with(&begins))
        .collect()
}

/// The boxes of the cells: those that have a stroke of their own kind.
pub fn cells(picture: &str) -> Vec<Box> {
    let cell = |line: &&str| line.contains("stroke-width");
    let rectangles = elements(picture, "rect").into_iter().filter(cell);
    rectangles
        .map(|line| {
            let [x, y, width, height] = ["x", "y", "width", "height"].map(|n| tenths(line, n));
            [x, y, x + width, y + height]
        })
        .collect()
}

/// The boxes of the texts, from a monospaced font's width.
fn texts(picture: &str) -> Vec<Box> {
    let text = |line: &str| {
        let said = line.split('>').nth(1).expect("a text").split('<').next();
        let said = said
            .expect("a text")
            .replace("&lt;", "<")
            .replace("&gt;", ">");
        let letters = said.replace("&amp;", "&").chars().count() as i32;
        let size = tenths(line, "font-size");
        let (x, y, width) = (
            tenths(line, "x"),
            tenths(line, "y"),
            letters * size * 6 / 10,
        );
        let left = match attribute(line, "text-anchor") {
            Some("middle") => x - width / 2,
            Some("end") => x - width,
            _ => x,
        };
        [left, y - size * 7 / 10, left + width, y]
    };
    elements(picture, "text").into_iter().map(text).collect()
}

fn overlap(one: &Box, other: &Box) -> bool {
    one[0] < other[2] && other[0] < one[2] && one[1] < other[3] && other[1] < one[3]
}

/// The straight parts of each wire's ways.
fn wires(picture: &str) -> Vec<(String, Vec<Box>)> {
    let mut wires: Vec<(String, Vec<Box>)> = Vec::new();
    for line in elements(picture, "path") {
        let Some(wire) = attribute(line, "id") else {
            continue;
        };
        let wire = wire.split('-').next().expect("a wire").to_string();
        let way = attribute(line, "d").expect("a way");
        let point = |text: &str| {
            let (x, y) = text.split_once(' ').expect("a point");
            [x, y].map(|n| 10 * n.parse::<i32>().expect("a number"))
        };
        let points: Vec<[i32; 2]> = way[1..].split('L').map(point).collect();
        let part = |ends: &[[i32; 2]]| {
            let [[x, y], [u, v]] = [ends[0], ends[1]];
            [x.min(u), y.min(v), x.max(u), y.max(v)]
        };
        wires.push((wire, points.windows(2).map(part).collect()));
    }
    wires
}

/// Whether two straight parts lie on each other for more than a point.
fn together(one: &Box, other: &Box) -> bool {
    let flat = |part: &Box| part[1] == part[3];
    let upright = |part: &Box| part[0] == part[2];
    (flat(one) && flat(other) && one[1] == other[1] && one[0] < other[2] && other[0] < one[2])
        || (upright(one)
            && upright(other)
            && one[0] == other[0]
            && one[1] < other[3]
            && other[1] < one[3])
}

/// No text lies on another.
pub fn assert_legible(picture: &str) {
    let texts = texts(picture);
    for (k, text) in texts.iter().enumerate() {
        let on = |other: &Box| overlap(text, other);
        assert!(!texts[..k].iter().any(on), "{text:?}\n{picture}");
    }
}

pub fn assert_clear(picture: &str) {
    assert_legible(picture);
    let (cells, wires) = (cells(picture), wires(picture));
    for (k, cell) in cells.iter().enumerate() {
        assert!(
            !cells[..k].iter().any(|other| overlap(cell, other)),
            "{cell:?}\n{picture}"
        );
    }
    for (k, (wire, parts)) in wires.iter().enumerate() {
        for part in parts {
            let inside = |cell: &&Box| overlap(&grown(part), cell);
            assert!(
                !cells.iter().any(|cell| inside(&cell)),
                "{wire} {part:?}\n{picture}"
            );
            let others = wires[..k].iter().filter(|(other, _)| other != wire);
            let clash = others
                .flat_map(|(_, parts)| parts)
                .find(|other| together(part, other));
            assert_eq!(clash, None, "{wire} {part:?}\n{picture}");
        }
    }
}

/// A line as a box, shorter at both ends, where it may touch a cell.
fn grown(part: &Box) -> Box {
    match part[1] == part[3] {
        true => [part[0] + 1, part[1] - 1, part[2] - 1, part[3] + 1],
        false => [part[0] - 1, part[1] + 1, part[2] + 1, part[3] - 1],
    }
}

#[test]
fn pictures_are_clear() {
    for program in programs() {
        let circuit = circuits::of_program(&program);
        let picture = svg::svg(&circuit, &[], false).expect("a picture");
        assert_clear(&picture);
        let boxes = 1 + drawn(&circuit) - chained(&circuit);
        assert_eq!(cells(&picture).len(), boxes, "{picture}");
    }
}

/// The same where the program isn't known.
#[test]
fn pictures_of_netlists_are_clear() {
    for program in programs() {
        let circuit = Circuit {
            program: None,
            ..circuits::of_program(&program)
        };
        let picture = svg::svg(&circuit, &[], false).expect("a picture");
        assert_clear(&picture);
        let boxes = 1 + drawn(&circuit) - chained(&circuit);
        assert_eq!(cells(&picture).len(), boxes, "{picture}");
    }
}

/// How many ors go to the next or of their chain and nowhere else, and are drawn in
/// its box. Those of expressions aren't, where they are known.
pub fn chained(circuit: &Circuit) -> usize {
    let cells = &circuit.netlist.cells;
    let role = |cell: usize| match &circuit.program {
        Some((_, trace)) => trace.origins[cell].role,
        None => "",
    };
    let written = |cell: usize| ["value", "finish", "test", "body"].contains(&role(cell));
    let chained = |cell: &usize| {
        let own = cells[*cell].kind;
        let takes = |wire: &&u16| usize::from(**wire) == *cell;
        let inputs: Vec<Vec<u16>> = cells.iter().map(hub::kinds::inputs).collect();
        let readers: usize = inputs.iter().map(|i| i.iter().filter(takes).count()).sum();
        let is_next = |(next, c): (usize, &Cell)| {
            c.kind == own && usize::from(c.a) == *cell && role(next) == role(*cell)
        };
        let next = cells.iter().enumerate().any(is_next);
        let or = [7, 35].contains(&own) && usize::from(circuit.netlist.finish) != *cell;
        or && readers == 1 && next && !written(*cell)
    };
    (0..cells.len()).filter(chained).count()
}

/// How many cells are drawn: no idle memories and arrays, and ground and zero
/// only where something takes them in.
fn drawn(circuit: &Circuit) -> usize {
    let cells = &circuit.netlist.cells;
    let idle = cells.iter().filter(|cell| is_idle(cell)).count();
    let busy = || cells.iter().filter(|cell| !is_idle(cell));
    let finish = circuit.netlist.finish;
    let taken =
        |wire| wire == finish || busy().any(|cell| hub::kinds::inputs(cell).contains(&wire));
    cells.len() - idle - [1, 2].into_iter().filter(|wire| !taken(*wire)).count()
}

#[test]
fn all_cells_are_drawn_where_that_is_asked_for() {
    let circuit = circuits::of_program(&programs()[0]);
    let picture = svg::svg(&circuit, &[], true).expect("a picture");
    assert_clear(&picture);
    let boxes = 1 + circuit.netlist.cells.len() - chained(&circuit);
    assert_eq!(cells(&picture).len(), boxes);
}

/// Graphviz takes the graphs, where it is installed; a graph has each cell.
#[test]
fn graphs_are_whole() {
    let graphviz = Command::new("dot").arg("-V").output().is_ok();
    for (number, program) in programs().into_iter().enumerate() {
        let circuit = circuits::of_program(&program);
        let graph = dot::dot(&circuit, &[], false).expect("a graph");
        assert_eq!(
            graph.matches("[label=\"").count() - flags(&graph),
            drawn(&circuit) - chained(&circuit)
        );
        assert_eq!(graph.matches('{').count(), graph.matches('}').count());
        if graphviz && number < 20 {
            assert!(accepted(&graph), "{graph}");
        }
    }
}

fn flags(graph: &str) -> usize {
    graph.matches("shape=cds").count()
}

/// Whether Graphviz reads a graph.
fn accepted(graph: &str) -> bool {
    let mut reader = Command::new("dot")
        .arg("-Tcanon")
        .stdin(Stdio::piped())
        .stdout(Stdio::null())
        .spawn()
        .expect("it runs");
    let mut input = reader.stdin.take().expect("its input");
    input.write_all(graph.as_bytes()).expect("it reads");
    drop(input);
    reader.wait().expect("it ends").success()
}

/// The examples that have a functional circuit.
const FUNCTIONAL: [&str; 4] = [
    "eight_groups",
    "overstepped",
    "sixty_four_boards",
    "two_boards",
];

/// A circuit as Verilog, with a testbench of 60 instants.
fn as_verilog(circuit: &Circuit, text: &[u8]) -> String {
    let (netlist, start) = (&circuit.netlist, [3; LENGTH]);
    let mode = circuit.mode(Format::Full);
    let begun = product::begin(mode, &circuit.file, &start);
    let (mut state, _) = begun.expect("a state");
    let answer = product::go(mode, &circuit.file, &mut state, 60).expect("an answer");
    let expected = Expected {
        ended: answer.ended,
        instant: answer.instant,
        last: &product::contents(Format::Full, &answer, &state, netlist.cells.len()),
    };
    let notes = labels::of_cells(circuit, text).expect("notes");
    let text = module(netlist, circuit.wiring, Edges::Rising, &start, &notes);
    text + &testbench(netlist, expected)
}

/// The examples' pictures, graphs, dumps and modules are those that are kept. With
/// KEEP=1 they are made anew.
#[test]
fn pictures_of_the_examples_are_kept() {
    let folder = top().join("tool/tests/kept/pictures");
    let texts = examples()
        .into_iter()
        .map(|(name, text)| (name, circuits::of_text(&text), text));
    let outlines = outlines()
        .into_iter()
        .map(|(name, text)| (name, circuits::of_outline(&text), text));
    let functional = examples()
        .into_iter()
        .filter(|(name, _)| FUNCTIONAL.contains(&name.as_str()))
        .map(|(name, text)| {
            let circuit = circuits::functional_of_text(&text);
            (format!("{name}_functional"), circuit, text)
        });
    for (name, circuit, text) in texts.chain(outlines).chain(functional) {
        let bytes = text.as_bytes();
        let wires = choice::wires(&circuit, bytes, None, false).expect("wires");
        let words = std::array::from_fn(|k| 3 + k as u16);
        let waves = circuits::recorded(&circuit, (&words, &[]), wires, 0, 60);
        for (ending, made) in [
            ("svg", svg::svg(&circuit, bytes, false).expect("a picture")),
            ("dot", dot::dot(&circuit, bytes, false).expect("a graph")),
            ("vcd", vcd::vcd(&waves)),
            ("v", as_verilog(&circuit, bytes)),
        ] {
            let file = folder.join(format!("{name}.{ending}"));
            if std::env::var_os("KEEP").is_some() {
                fs::create_dir_all(&folder).expect("a folder");
                fs::write(&file, &made).expect("a kept file");
            }
            let kept = fs::read_to_string(&file).expect("a kept file");
            assert_eq!(made, kept, "{}", file.display());
        }
    }
}
