//! The places of a functional circuit's cells: each statement's together in a frame, as
//! those of the other circuit; a loop begins with its latches and what is loaded into
//! them, an if ends with the choice of words.

use super::block::Block;
use super::with_finish;
use crate::format::Tree;
use crate::labels::Labels;
use crate::origin::Trace;
use crate::types::Netlist;
use std::collections::HashMap;

/// How many columns a sequence may take before its parts go below each other.
const WIDE: usize = 10;

/// All of a program's cells that are shown: start, the program, and the words at the end.
pub fn placed(netlist: &Netlist, trace: &Trace, labels: &Labels, shown: &[bool]) -> Block {
    let numbers = || 0..netlist.cells.len() as u16;
    let mut places = Places {
        labels,
        cells: HashMap::new(),
        words: HashMap::new(),
    };
    for (cell, origin) in numbers().zip(&trace.origins) {
        let Some(node) = origin.node else { continue };
        match origin.word {
            None => drop(places.cells.insert((node, origin.role), cell)),
            Some(_) => places
                .words
                .entry((node, origin.role))
                .or_default()
                .push(cell),
        }
    }
    let unowned = |roles: &[&str]| {
        let own = |cell: &u16| {
            let origin = trace.origins[usize::from(*cell)];
            origin.node.is_none() && roles.contains(&origin.role) && shown[usize::from(*cell)]
        };
        let cells = numbers().filter(own).map(Block::cell);
        cells.fold(Block::default(), Block::below)
    };
    let first = unowned(&["start", "ground", "zero"]);
    let words = unowned(&["at the start", "array", "address"]).framed("at the start".to_string());
    let program = first
        .below(words)
        .beside(places.statement(&labels.trees[0]));
    let last = unowned(&["at the end"]).framed("at the end".to_string());
    with_finish(program, netlist).beside(last)
}

struct Places<'p> {
    labels: &'p Labels,
    /// The cell of a node in a role, and those for words.
    cells: HashMap<(usize, &'static str), u16>,
    words: HashMap<(usize, &'static str), Vec<u16>>,
}

impl Places<'_> {
    fn cell(&self, tree: &Tree, role: &'static str) -> u16 {
        self.cells[&(tree.at, role)]
    }

    fn words(&self, tree: &Tree, role: &'static str) -> &[u16] {
        self.words.get(&(tree.at, role)).map_or(&[], Vec::as_slice)
    }

    fn statement(&self, tree: &Tree) -> Block {
        let block = match tree.node.kind {
            17 => Block::cell(self.cell(tree, "delay")),
            18 => self.assignment(tree),
            19 => return self.sequence(tree),
            20 => self.parallel(tree),
            21 => self.choice(tree),
            22 => self.while_loop(tree),
            23 => self.repeat_loop(tree),
            _ => Block::default(),
        };
        let (place, head) = (&self.labels.places[tree.at], &self.labels.heads[tree.at]);
        block.framed(format!("{place}: {head}"))
    }

    /// An expression, its operator on the right; a variable is a wire only.
    fn expression(&self, tree: &Tree) -> Block {
        let Some(&own) = self.cells.get(&(tree.at, "value")) else {
            return Block::default();
        };
        let parts = tree.parts.iter().map(|part| self.expression(part));
        let parts: Vec<Block> = parts.collect();
        let width = parts.iter().map(|part| part.width).max().unwrap_or(0);
        let mut block = Block::default();
        for part in parts {
            let (column, row) = (width - part.width, block.height);
            block = block.and(part, column, row);
        }
        block.with(own, width, 0)
    }

    /// The delay, and below it the value.
    fn assignment(&self, tree: &Tree) -> Block {
        let value = self.expression(&tree.parts[0]);
        let column = value.width.saturating_sub(1);
        Block::default()
            .with(self.cell(tree, "delay"), column, 0)
            .and(value, 0, 1)
    }

    fn sequence(&self, tree: &Tree) -> Block {
        let (p, q) = (
            self.statement(&tree.parts[0]),
            self.statement(&tree.parts[1]),
        );
        match p.width + q.width <= WIDE {
            true => p.beside(q),
            false => p.below(q),
        }
    }

    /// The sides below each other, the merge on the right.
    fn parallel(&self, tree: &Tree) -> Block {
        let p = self.statement(&tree.parts[0]);
        let q = match tree.parts[1].node.kind {
            20 => self.parallel(&tree.parts[1]),
            _ => self.statement(&tree.parts[1]),
        };
        let both = p.below(q);
        let column = both.width;
        both.with(self.cell(tree, "finish"), column, 0)
    }

    /// The branches as in the other circuit; below them the masks, and on the right the
    /// words of both, masked and joined.
    fn choice(&self, tree: &Tree) -> Block {
        let condition = self.expression(&tree.parts[0]);
        let delay = self.cells.get(&(tree.at, "delay"));
        let switch = condition.width.max(usize::from(delay.is_some()));
        let (p, q) = (
            self.statement(&tree.parts[1]),
            self.statement(&tree.parts[2]),
        );
        let (lower, column) = (p.height.max(1), switch - condition.width);
        let block = match delay {
            Some(delay) => Block::default().with(*delay, switch - 1, 0),
            None => Block::default(),
        };
        let block = block
            .and(condition, column, 1)
            .with(self.cell(tree, "then"), switch, 0)
            .with(self.cell(tree, "else"), switch, lower)
            .and(p, switch + 1, 0)
            .and(q, switch + 1, lower);
        let row = block.height;
        let masks = ["condition is 0", "mask of else", "mask of then"];
        let masked = (switch..).zip(masks).fold(block, |block, (column, role)| {
            block.with(self.cell(tree, role), column, row)
        });
        let choice = masked.width;
        let chosen = self.joined(masked, tree, ["of then", "of else", "chosen"], choice);
        chosen.with(self.cell(tree, "finish"), choice, 0)
    }

    /// For each word the two that may be taken, below each other from row 1 on, and the
    /// or on their right.
    fn joined(
        &self,
        mut block: Block,
        tree: &Tree,
        roles: [&'static str; 3],
        column: usize,
    ) -> Block {
        let [first, second, or] = roles.map(|role| self.words(tree, role));
        for (k, ((first, second), or)) in first.iter().zip(second).zip(or).enumerate() {
            let row = 1 + 2 * k;
            block = block
                .with(*first, column, row)
                .with(*second, column, row + 1)
                .with(*or, column + 1, row);
        }
        block
    }

    /// What a loop begins with: the or of its pulses with the delay of latching behind it,
    /// and below them the words that are loaded, and the latches.
    fn load(&self, tree: &Tree, pulses: &'static str) -> Block {
        let block = Block::default().with(self.cell(tree, pulses), 0, 0).with(
            self.cell(tree, "latching"),
            2,
            0,
        );
        let block = self.joined(block, tree, ["at first", "of a round", "to latch"], 0);
        let latches = self.words(tree, "latched").iter().enumerate();
        latches.fold(block, |block, (k, latch)| block.with(*latch, 2, 1 + 2 * k))
    }

    fn while_loop(&self, tree: &Tree) -> Block {
        let condition = self.expression(&tree.parts[0]);
        let p = self.statement(&tree.parts[1]);
        let load = self.load(tree, "test");
        let delay = load.width + condition.width.max(1) - 1;
        let switch = delay + 1;
        let (lower, column) = (p.height.max(1), switch - condition.width);
        load.with(self.cell(tree, "delay"), delay, 0)
            .and(condition, column, 1)
            .with(self.cell(tree, "body"), switch, 0)
            .with(self.cell(tree, "finish"), switch, lower)
            .and(p, switch + 1, 0)
    }

    fn repeat_loop(&self, tree: &Tree) -> Block {
        let condition = self.expression(&tree.parts[0]);
        let p = self.statement(&tree.parts[1]);
        let load = self.load(tree, "body");
        let body = load.width;
        let switch = body + condition.width.max(p.width + 1);
        let (lower, column) = (p.height.max(1), switch - condition.width);
        load.and(p, body, 0)
            .with(self.cell(tree, "delay"), switch - 1, 0)
            .and(condition, column, lower)
            .with(self.cell(tree, "finish"), switch, 0)
            .with(self.cell(tree, "again"), switch, 1)
    }
}
