//! The places of a program's cells: each statement's together in a frame, its
//! parts in the order in which the pulse goes through them.

use super::block::Block;
use super::{stores, with_finish};
use crate::format::Tree;
use crate::labels::Labels;
use crate::origin::Trace;
use crate::types::{Netlist, Node};
use std::collections::HashMap;

/// How many columns a sequence may take before its parts go below each other.
const WIDE: usize = 9;

/// All of a program's cells: start, the program below its procedures, and the
/// words beside it.
pub fn placed(netlist: &Netlist, trace: &Trace, labels: &Labels, shown: &[bool]) -> Block {
    let places = Places::of(netlist, trace, labels);
    let mut first = Block::cell(0);
    for fixed in [1, 2] {
        if shown[fixed] {
            first = first.below(Block::cell(fixed as u16));
        }
    }
    let program = first.beside(places.program(&labels.trees));
    with_finish(program, netlist).beside(places.words(netlist, shown))
}

struct Places<'p> {
    labels: &'p Labels,
    /// The cell of a node in a role.
    cells: HashMap<(usize, &'static str), u16>,
    trace: &'p Trace,
}

impl<'p> Places<'p> {
    fn of(netlist: &Netlist, trace: &'p Trace, labels: &'p Labels) -> Places<'p> {
        let numbers = 0..netlist.cells.len() as u16;
        let named = numbers.zip(&trace.origins);
        let cells = named.filter_map(|(cell, origin)| Some(((origin.node?, origin.role), cell)));
        Places {
            labels,
            cells: cells.collect(),
            trace,
        }
    }

    fn cell(&self, tree: &Tree, role: &'static str) -> u16 {
        self.cells[&(tree.at, role)]
    }

    /// The bodies, each in a frame of its own, and the main program below them.
    fn program(&self, trees: &[Tree]) -> Block {
        let mut block = Block::default();
        for (number, tree) in trees.iter().enumerate() {
            let own = match number + 1 < trees.len() {
                true => self.body(number, tree, trees),
                false => self.statement(tree),
            };
            block = block.below(own);
        }
        block
    }

    /// A body, behind the ors that join its callers.
    fn body(&self, number: usize, tree: &Tree, trees: &[Tree]) -> Block {
        let mut block = Block::default();
        let callers = trees.iter().flat_map(|root| callers(root, number));
        let joined = callers.filter_map(|call| self.cells.get(&(call, "callers")));
        for (row, join) in joined.enumerate() {
            block = block.with(*join, 0, row);
        }
        let body = block.beside(self.statement(tree));
        let name = self.labels.names.procedure(number as u16);
        body.named(format!("procedure {name}"))
    }

    fn statement(&self, tree: &Tree) -> Block {
        let block = match tree.node.kind {
            17 => Block::cell(self.cell(tree, "delay")),
            18 | 24 => self.assignment(tree),
            19 => return self.sequence(tree),
            20 => self.parallel(tree),
            21 => self.choice(tree),
            22 => self.while_loop(tree),
            23 => self.repeat_loop(tree),
            25 => self.exit_loop(tree),
            27 => {
                let delay = Block::cell(self.cell(tree, "delay"));
                delay.with(self.cell(tree, "finish"), 1, 0)
            }
            _ => Block::default(),
        };
        let (place, head) = (&self.labels.places[tree.at], &self.labels.heads[tree.at]);
        block.framed(format!("{place}: {head}"))
    }

    /// An expression, its operator on the right; a variable is a name only.
    fn expression(&self, tree: &Tree) -> Block {
        let Some(&own) = self.cells.get(&(tree.at, "value")) else {
            return Block::default();
        };
        let parts: Vec<Block> = tree
            .parts
            .iter()
            .map(|part| self.expression(part))
            .collect();
        let width = parts.iter().map(|part| part.width).max().unwrap_or(0);
        let mut block = Block::default();
        for part in parts {
            let (column, row) = (width - part.width, block.height);
            block = block.and(part, column, row);
        }
        block.with(own, width, 0)
    }

    /// The value with its gate and, below, an element's index with its own.
    fn assignment(&self, tree: &Tree) -> Block {
        let roles = ["gate", "index gate"];
        let parts = tree.parts.iter().rev().zip(roles);
        let parts: Vec<(Block, u16)> = parts
            .map(|(part, role)| (self.expression(part), self.cell(tree, role)))
            .collect();
        let width = parts.iter().map(|(part, _)| part.width).max();
        let gate = width.unwrap_or(0).max(1);
        let mut block = Block::default()
            .with(self.cell(tree, "delay"), gate - 1, 0)
            .with(self.cell(tree, "finish"), gate, 0);
        for (part, own) in parts {
            let (column, row) = (gate - part.width, block.height);
            block = block.with(own, gate, row).and(part, column, row);
        }
        block
    }

    fn sequence(&self, tree: &Tree) -> Block {
        let (p, q) = (
            self.statement(&tree.parts[0]),
            self.statement(&tree.parts[1]),
        );
        match p.width + q.width <= WIDE {
            true => p.beside(q),
            false => p.below(q),
        }
    }

    /// The sides below each other, the merge on the right.
    fn parallel(&self, tree: &Tree) -> Block {
        let p = self.statement(&tree.parts[0]);
        let q = match tree.parts[1].node.kind {
            20 => self.parallel(&tree.parts[1]),
            _ => self.statement(&tree.parts[1]),
        };
        let both = p.below(q);
        let column = both.width;
        both.with(self.cell(tree, "finish"), column, 0)
    }

    fn choice(&self, tree: &Tree) -> Block {
        let condition = self.expression(&tree.parts[0]);
        let delay = self.cells.get(&(tree.at, "delay"));
        let switch = condition.width.max(usize::from(delay.is_some()));
        let (p, q) = (
            self.statement(&tree.parts[1]),
            self.statement(&tree.parts[2]),
        );
        let (lower, column) = (p.height.max(1), switch - condition.width);
        let block = match delay {
            Some(delay) => Block::default().with(*delay, switch - 1, 0),
            None => Block::default(),
        };
        let block = block
            .and(condition, column, 1)
            .with(self.cell(tree, "then"), switch, 0)
            .with(self.cell(tree, "else"), switch, lower)
            .and(p, switch + 1, 0)
            .and(q, switch + 1, lower);
        let finish = block.width;
        block.with(self.cell(tree, "finish"), finish, 0)
    }

    fn while_loop(&self, tree: &Tree) -> Block {
        let condition = self.expression(&tree.parts[0]);
        let p = self.statement(&tree.parts[1]);
        let switch = condition.width.max(2);
        let (lower, column) = (p.height.max(1), switch - condition.width);
        Block::default()
            .with(self.cell(tree, "test"), switch - 2, 0)
            .with(self.cell(tree, "delay"), switch - 1, 0)
            .and(condition, column, 1)
            .with(self.cell(tree, "body"), switch, 0)
            .with(self.cell(tree, "finish"), switch, lower)
            .and(p, switch + 1, 0)
    }

    fn repeat_loop(&self, tree: &Tree) -> Block {
        let condition = self.expression(&tree.parts[0]);
        let p = self.statement(&tree.parts[1]);
        let switch = condition.width.max(2 + p.width);
        let (lower, column) = (p.height.max(1), switch - condition.width);
        let body = switch - 2 - p.width;
        Block::default()
            .with(self.cell(tree, "body"), body, 0)
            .and(p, body + 1, 0)
            .with(self.cell(tree, "delay"), switch - 1, 0)
            .and(condition, column, lower)
            .with(self.cell(tree, "finish"), switch, 0)
            .with(self.cell(tree, "again"), switch, 1)
    }

    /// The body, the delay behind it, and on the right the ors that join its
    /// exits.
    fn exit_loop(&self, tree: &Tree) -> Block {
        let p = self.statement(&tree.parts[0]);
        let delay = 1 + p.width;
        let mut block = Block::default()
            .with(self.cell(tree, "body"), 0, 0)
            .and(p, 1, 0)
            .with(self.cell(tree, "delay"), delay, 0);
        let exits = exits(&tree.parts[0]);
        let joined = exits
            .iter()
            .filter_map(|exit| self.cells.get(&(*exit, "joined")));
        for (row, join) in joined.enumerate() {
            block = block.with(*join, delay + 1, row);
        }
        block
    }

    /// Memories and arrays, each with the ors that join its clocks and data, an
    /// address with those that join its indices.
    fn words(&self, netlist: &Netlist, shown: &[bool]) -> Block {
        let mut block = Block::default();
        let joined = (0..netlist.cells.len() as u16).any(|cell| self.joins(cell).is_some());
        for store in stores(netlist, shown) {
            let own = |cell: &u16| self.joins(*cell) == Some(store);
            let row = block.height;
            let joins = (0..netlist.cells.len() as u16).filter(own);
            for (below, join) in joins.enumerate() {
                block = block.with(join, 0, row + below);
            }
            block = block.with(store, usize::from(joined), row);
        }
        block.framed("words".to_string())
    }

    /// The cell of the memory or array whose clocks, data or indices a cell
    /// joins.
    fn joins(&self, cell: u16) -> Option<u16> {
        let origin = self.trace.origins[usize::from(cell)];
        let joins = matches!(origin.role, "clock" | "data" | "address");
        let node = origin.node.filter(|_| joins)?;
        let mut trees = self.labels.trees.iter();
        let Node { kind, n, .. } = trees.find_map(|tree| find(tree, node))?.node;
        Some(match (kind, origin.role) {
            (24, "address") => self.trace.array(n) + 1,
            (24, _) => self.trace.array(n),
            _ => self.trace.first_memory + n,
        })
    }
}

/// The exits of a loop's body that end that loop.
fn exits(tree: &Tree) -> Vec<usize> {
    match tree.node.kind {
        25 => Vec::new(),
        26 => vec![tree.at],
        _ => tree.parts.iter().flat_map(exits).collect(),
    }
}

/// The calls of a procedure.
fn callers(tree: &Tree, procedure: usize) -> Vec<usize> {
    match tree.node.kind {
        27 if usize::from(tree.node.n) == procedure => vec![tree.at],
        _ => {
            let parts = tree.parts.iter();
            parts.flat_map(|part| callers(part, procedure)).collect()
        }
    }
}

/// The part of a tree at a node.
fn find(tree: &Tree, node: usize) -> Option<&Tree> {
    if tree.at == node {
        return Some(tree);
    }
    tree.parts.iter().find_map(|part| find(part, node))
}
