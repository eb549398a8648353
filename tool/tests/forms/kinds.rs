//! What the tool knows of kinds, held against the product.

use hub::kinds::{idle_array, is_control, is_idle, is_store, CELLS, IDLE, MEMORY};
use hub::types::{Beside, Cell, Netlist, Refusal};
use hub::{listing, product};

/// A small netlist with a cell of this kind, and that cell's number. Arrays
/// stand behind the memories, and elements behind the arrays.
fn with(words: &str) -> (Netlist, u16) {
    let fixed = "finish start\nstart\nground\nconstant 0\n";
    let words = ["{d}", "{n}"]
        .iter()
        .fold(words.to_string(), |w, field| w.replace(field, "3"));
    let (cell, before, behind) = match words.split(' ').next() {
        Some("start") => (0, "", ""),
        Some("ground") => (1, "", ""),
        Some("array") => (25, "", ""),
        Some("address") => (26, "", ""),
        Some("element") => (27, "", words.as_str()),
        _ => (3, words.as_str(), ""),
    };
    let list = format!("{fixed}{before}\nidle memories\n{behind}\n");
    let listed = listing::wired(&list).expect("a list");
    (listed.netlist, cell)
}

/// The words of a kind with inputs of the sorts that it takes: a control wire,
/// start, or a word, the zero.
fn wired(kind: u8, words: &str) -> String {
    let [a, b] = match kind {
        34 | 35 | 38 | 39 => ["start", "start"],
        36 | 37 | 40 | 41 | 42 | 45 => ["start", "2"],
        44 => ["a0", "2"],
        _ => ["2", "2"],
    };
    words.replace("{a}", a).replace("{b}", b)
}

#[test]
fn control_wires_are_those_that_may_be_the_finish() {
    for template in CELLS.kinds {
        let (mut netlist, cell) = with(&wired(template.kind, template.words));
        assert_eq!(netlist.cells[usize::from(cell)].kind, template.kind);
        let accepted = product::write_netlist(&netlist);
        assert!(accepted.is_ok(), "{}: {accepted:?}", template.words);
        netlist.finish = cell;
        let expected = match is_control(template.kind) {
            true => Ok(()),
            false => Err(Refusal::new(12, usize::from(cell))),
        };
        assert_eq!(
            product::write_netlist(&netlist).map(drop),
            expected,
            "{}",
            template.words
        );
    }
}

/// The kinds that have words are all that the product takes.
#[test]
fn every_kind_of_cell_has_words() {
    for kind in 0..=255 {
        let known = CELLS.kinds.iter().any(|template| template.kind == kind);
        let taken = (0..16).any(|fields| {
            let bit = |k: u16| fields >> k & 1;
            let cell = Cell::new(kind, bit(0) as u8, 2 * bit(1), 2 * bit(2) * bit(3));
            accepted_at_3(cell)
        });
        assert!(known || !taken, "kind {kind}");
    }
}

fn accepted_at_3(cell: Cell) -> bool {
    let (mut netlist, _) = with("start");
    netlist.cells.insert(3, cell);
    if cell.kind == MEMORY {
        netlist.cells.remove(4);
    }
    product::write_netlist(&netlist).is_ok()
}

/// Idle memories and arrays are what unused words and arrays are compiled to.
#[test]
fn idle_memories_and_arrays_are_those_of_unused_words() {
    let ok = product::compile(Beside::NOTHING, &[16, 0, 0, 0]).expect("a netlist");
    let netlist = product::read_netlist(&ok).expect("cells");
    let arrays: Vec<Cell> = (0..4).flat_map(idle_array).collect();
    assert_eq!(netlist.cells[3..19], [IDLE; 16]);
    assert_eq!(netlist.cells[19..], arrays);
    for cell in &netlist.cells {
        assert_eq!(is_idle(cell), is_store(cell.kind), "{cell:?}");
    }
}
