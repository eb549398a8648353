//! The places of a netlist's cells where no program is known: a column for
//! each number of cells that a pulse or word has come through.

use super::block::Block;
use super::chains::ending;
use super::{stores, with_finish};
use crate::kinds::{inputs, is_store};
use crate::types::Netlist;

/// The ors of a chain stand below each other, in the column of the last.
pub fn placed(netlist: &Netlist, chains: &[Option<u16>], shown: &[bool]) -> Block {
    let levels = levels(netlist);
    let mut rows: Vec<usize> = Vec::new();
    let mut block = Block::default();
    for cell in 0..netlist.cells.len() as u16 {
        let at = usize::from(cell);
        if !shown[at] || is_store(netlist.cells[at].kind) {
            continue;
        }
        if chains[at].is_some() {
            continue;
        }
        let column = levels[at];
        rows.resize(rows.len().max(column + 1), 0);
        for cell in ending(chains, cell) {
            block = block.with(cell, column, rows[column]);
            rows[column] += 1;
        }
    }
    let words = stores(netlist, shown);
    let words = words
        .into_iter()
        .map(Block::cell)
        .fold(Block::default(), Block::below);
    with_finish(block, netlist).beside(words.framed("words".to_string()))
}

/// For each cell how many cells lead to it, memories, arrays and loops left
/// out.
fn levels(netlist: &Netlist) -> Vec<usize> {
    let mut levels = vec![None; netlist.cells.len()];
    for cell in 0..netlist.cells.len() {
        level(netlist, cell, &mut levels, &mut Vec::new());
    }
    levels.into_iter().map(|level| level.unwrap_or(0)).collect()
}

fn level(
    netlist: &Netlist,
    cell: usize,
    levels: &mut [Option<usize>],
    above: &mut Vec<usize>,
) -> usize {
    if let Some(known) = levels[cell] {
        return known;
    }
    above.push(cell);
    let mut own = 0;
    for input in inputs(&netlist.cells[cell]) {
        let input = usize::from(input);
        if !is_store(netlist.cells[input].kind) && !above.contains(&input) {
            own = own.max(1 + level(netlist, input, levels, above));
        }
    }
    above.pop();
    levels[cell] = Some(own);
    own
}
