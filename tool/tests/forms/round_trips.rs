//! What the tool writes it takes back, to the byte.

use crate::programs::{programs, texts, Chance};
use crate::{circuits, programs};
use hub::kinds::untold;
use hub::lines::Wrong;
use hub::names::Names;
use hub::types::{Beside, Cell, Netlist, Node};
use hub::{assemble, format, labels, listing, outline, product};
use std::fmt::Debug;

#[test]
fn outlines_give_the_program_back() {
    for program in programs() {
        let outline = outline::outline(
            program.procedures,
            &product::nodes(&program.bytes),
            &Names::default(),
        );
        let own = (program.procedures, program.bytes);
        assert_eq!(assembled(&outline), own, "{outline}");
    }
}

/// Bytes that are no program have an outline too, and it gives them back.
#[test]
fn outlines_give_any_nodes_back() {
    let mut chance = Chance(5);
    for _ in 0..300 {
        let mut byte = || chance.below(256) as u8;
        let nodes: Vec<Node> = (0..10)
            .map(|_| Node {
                kind: byte() % 32,
                delay: byte() % 3,
                n: u16::from(byte() % 20) * 13,
            })
            .collect();
        let outline = outline::outline(0, &nodes, &Names::default());
        let bytes = product::program_bytes(&nodes);
        assert_eq!(assembled(&outline).1, bytes, "{outline}");
    }
}

/// Each text is wrong, and the line and the reason are told.
fn told_with_their_line<T: Debug>(
    read: impl Fn(&str) -> Result<T, Wrong>,
    texts: &[(&str, usize, &str)],
) {
    for &(text, line, why) in texts {
        let wrong = read(text).expect_err(text);
        assert_eq!(wrong.line, line, "{text}: {wrong:?}");
        assert!(wrong.why.contains(why), "{text}: {wrong:?}");
    }
}

/// The number of procedures and the bytes of an outline.
fn assembled(outline: &str) -> (usize, Vec<u8>) {
    let source = assemble::assemble(outline).unwrap_or_else(|wrong| panic!("{wrong:?}\n{outline}"));
    (source.procedures, product::program_bytes(&source.nodes))
}

/// A heading stands where the statement that it names begins; 'main' may be left
/// out.
#[test]
fn headings_tell_the_procedures() {
    for (outline, procedures) in [
        ("ok", 0),
        ("main\nok", 0),
        ("procedure 0\nok\nmain\ncall 0 @1", 1),
        ("procedure 0\nok\ncall 0 @1", 1),
        (
            "procedure 0\nsequence\nok\ntick @3\nprocedure 1\nok\nmain\nok",
            2,
        ),
    ] {
        assert_eq!(assembled(outline).0, procedures, "{outline}");
    }
    let wrong = [
        ("procedure 1\nok", 1, "this is procedure 0"),
        ("procedure 0\nok\nprocedure 0\nok", 3, "this is procedure 1"),
        ("procedure 0\nprocedure 1\nok", 2, "one whole statement"),
        (
            "procedure 0\nsequence\nok\nmain\nok",
            4,
            "the second statement of the `sequence` in line 2 is missing",
        ),
        (
            "procedure 0\nok\nok\nmain\nok",
            4,
            "several are one in a sequence",
        ),
        ("ok\nprocedure 0\nok", 2, "one whole statement"),
        ("procedure x\nok", 1, "number"),
        ("procedure\nok", 1, "procedure"),
    ];
    told_with_their_line(assemble::assemble, &wrong);
}

#[test]
fn texts_give_the_program_back() {
    for program in texts() {
        let text = formatted(&program);
        assert_eq!(
            product::read_text(Beside::NOTHING, text.as_bytes()),
            Ok(program),
            "{text}"
        );
    }
}

fn formatted(program: &[u8]) -> String {
    let tree = format::tree(&product::nodes(program)).expect("a tree");
    format::format(&tree)
}

/// No pair of brackets can be left out: without it the text is another program
/// or none.
#[test]
fn texts_have_the_fewest_brackets() {
    let mut pairs = 0;
    for program in texts() {
        let text = formatted(&program);
        for (open, close) in brackets(&text) {
            let mut less = text.clone().into_bytes();
            less[open] = b' ';
            less[close] = b' ';
            assert_ne!(
                product::read_text(Beside::NOTHING, &less).as_ref(),
                Ok(&program),
                "{text}"
            );
            pairs += 1;
        }
    }
    assert!(pairs > 300, "{pairs} pairs of brackets were tried");
}

/// The places of each bracket and of the one that closes it.
fn brackets(text: &str) -> Vec<(usize, usize)> {
    let (mut open, mut pairs) = (Vec::new(), Vec::new());
    for (at, byte) in text.bytes().enumerate() {
        match byte {
            b'(' | b'{' => open.push(at),
            b')' | b'}' => pairs.push((open.pop().expect("an open bracket"), at)),
            _ => {}
        }
    }
    pairs
}

/// Lines are no wider than they need be: only what can't be broken is wide.
#[test]
fn texts_are_short_enough_to_be_read() {
    for (name, text) in programs::examples() {
        let Ok(program) = product::read_text(Beside::NOTHING, text.as_bytes()) else {
            continue;
        };
        let wide = formatted(&program).lines().any(|line| line.len() > 80);
        assert!(!wide, "{name}");
    }
}

#[test]
fn lists_give_the_netlist_file_back() {
    for program in programs() {
        let circuit = circuits::of_program(&program);
        let notes = labels::of_cells(&circuit, &[]).expect("notes");
        let all = vec![false; circuit.netlist.cells.len()];
        for left_out in [untold(&circuit.netlist, circuit.wiring), all] {
            let list = listing::list(&circuit.netlist, &left_out, |cell| notes[cell].clone());
            let listed = listing::wired(&list).unwrap_or_else(|wrong| panic!("{wrong:?}\n{list}"));
            let file = product::write_netlist(&listed.netlist);
            assert_eq!(file.as_ref(), Ok(&circuit.file), "{list}");
        }
    }
}

/// Cells that no netlist may have stand in a list too.
#[test]
fn lists_give_any_cells_back() {
    let mut chance = Chance(6);
    for _ in 0..300 {
        let cells: Vec<Cell> = (0..20)
            .map(|_| {
                let [kind, delay, a, b] = [46, 3, 25, 25].map(|limit| chance.below(limit));
                Cell::new(kind as u8, delay as u8, a as u16, b as u16)
            })
            .collect();
        let netlist = Netlist {
            cells,
            finish: 3,
            pulse: 1 + chance.below(255) as u8,
        };
        let all = vec![false; netlist.cells.len()];
        let list = listing::list(&netlist, &all, |_| None);
        let listed = listing::wired(&list).unwrap_or_else(|wrong| panic!("{wrong:?}\n{list}"));
        assert_eq!(listed.netlist, netlist, "{list}");
    }
}

/// Names stand for the cells that they are given to, in any order.
#[test]
fn names_are_the_cells_numbers() {
    let list = "finish last\nstart\nground\nconstant 0\nlast: delay 7 of middle\n\
        middle: either start last\nx0: memory clock last data x1\nidle memories\nelement x0 of a2\n";
    let listed = listing::wired(list).expect("a list");
    let cells = &listed.netlist.cells;
    assert_eq!(listed.netlist.finish, 3);
    assert_eq!(cells[3], Cell::new(34, 7, 4, 0));
    assert_eq!(cells[4], Cell::new(35, 0, 0, 3));
    assert_eq!(cells[5], Cell::new(40, 0, 3, 6));
    assert_eq!(cells[29], Cell::new(44, 0, 25, 5));
    assert_eq!(cells.len(), 30);
    assert_eq!(listed.lines[4], Some(6));
    assert_eq!(listed.lines[25], None);
}

/// Where a line is about arrays, they stand where the list has them.
#[test]
fn idle_arrays_are_those_that_are_left() {
    let list = "finish start\nstart\nground\nconstant 0\nidle memories\n\
        array a0 clock start data 2\naddress last\nidle arrays\nlast: element x3 of a0\n";
    let listed = listing::wired(list).expect("a list");
    let cells = &listed.netlist.cells;
    assert_eq!(cells[19], Cell::new(42, 0, 0, 2));
    assert_eq!(cells[20], Cell::new(43, 0, 27, 0));
    assert_eq!(cells[21..23], hub::kinds::idle_array(1));
    assert_eq!(cells[25..27], hub::kinds::idle_array(3));
    assert_eq!(cells[27..], [Cell::new(44, 0, 19, 6)]);
}

/// What is wrong with a list is told with its line.
#[test]
fn wrong_lists_are_told_with_their_line() {
    let wrong = [
        ("start\n", 1, "which cell is the finish"),
        ("finish 0\nstart\ndelay 3\n", 3, "write: delay D of A"),
        ("finish 0\nstart\ndelay 300 of start\n", 3, "below 256"),
        (
            "finish 0\nstart\neither 0 nobody\n",
            3,
            "no cell is called 'nobody'",
        ),
        (
            "finish 0\n5 start\n3 ground\n",
            3,
            "cell 3 stands after cell 5",
        ),
        ("finish 0\nfinish 1\n", 2, "a second line"),
        ("finish 0\nlamp 3\n", 2, "is no kind"),
        ("finish 0\nname:\n", 2, "no cell after it"),
        ("finish 0, pulse long\nstart\n", 1, "below 256"),
        ("finish 0 pulse 3\nstart\n", 1, "which cell is the finish"),
        ("20000 cells, finish 0\n", 1, "at most 16384"),
        ("99999999999999999999 cells, finish 0\n", 1, "at most 16384"),
        (
            "finish 0\na: start\na: ground\n",
            3,
            "a second cell is called a",
        ),
        ("finish 0\n16384 start\n", 2, "cell 16384"),
    ];
    told_with_their_line(listing::wired, &wrong);
}
