//! The layout of a program's functional circuit: every statement takes words in and
//! hands words on.

use super::{Ends, HandedOn, Trace};
use crate::kinds::idle_array;
use crate::preorder::subtree_end;
use crate::store::{ARRAYS, VARIABLES};
use crate::types::{Cell, Netlist, Node, Origin};

/// For each variable the wire that brings its word.
type Wires = [u16; VARIABLES];

/// The pulse that tells a statement's end, and the words that it hands on.
type End = (u16, Wires);

const ZERO: u16 = 2;
const FIRST_MEMORY: u16 = 3;
const LATCH: u8 = 45;

/// The functional netlist of an accepted program's nodes, and where its cells come from.
pub fn lay_out(nodes: &[Node]) -> (Netlist, Trace) {
    let mut walk = Walk {
        nodes,
        cells: Vec::new(),
        trace: Trace {
            origins: Vec::new(),
            ends: vec![None; nodes.len()],
            values: vec![None; nodes.len()],
            first_memory: FIRST_MEMORY,
            words: Vec::new(),
        },
    };
    let start = walk.heads();
    let (finish, words) = walk.statement(0, 0, start);
    for (variable, wire) in (0..).zip(words) {
        walk.put(Cell::new(7, 0, wire, ZERO), None, "at the end", variable);
    }
    let netlist = Netlist {
        cells: walk.cells,
        finish,
        pulse: 1,
    };
    (netlist, walk.trace)
}

struct Walk<'a> {
    nodes: &'a [Node],
    cells: Vec<Cell>,
    trace: Trace,
}

impl Walk<'_> {
    fn put(
        &mut self,
        cell: Cell,
        node: Option<usize>,
        role: &'static str,
        word: impl Into<Option<u16>>,
    ) -> u16 {
        let word = word.into();
        self.cells.push(cell);
        self.trace.origins.push(Origin { node, role, word });
        (self.cells.len() - 1) as u16
    }

    /// A cell of a node, without a delay.
    fn cell(&mut self, kind: u8, [a, b]: [u16; 2], node: usize, role: &'static str) -> u16 {
        self.put(Cell::new(kind, 0, a, b), Some(node), role, None)
    }

    fn delay(&mut self, delay: u8, from: u16, node: usize, role: &'static str) -> u16 {
        self.put(Cell::new(34, delay, from, 0), Some(node), role, None)
    }

    /// What every functional netlist begins with; the memories keep the start words.
    fn heads(&mut self) -> Wires {
        self.put(Cell::new(32, 0, 0, 0), None, "start", None);
        self.put(Cell::new(33, 0, 0, 0), None, "ground", None);
        self.put(Cell::new(1, 0, 0, 0), None, "zero", None);
        let idle = crate::kinds::IDLE;
        let memories = std::array::from_fn(|x| self.put(idle, None, "at the start", x as u16));
        for array in 0..ARRAYS as u8 {
            let [cell, address] = idle_array(array);
            self.put(cell, None, "array", None);
            self.put(address, None, "address", None);
        }
        memories
    }

    /// The wire of an expression.
    fn expression(&mut self, at: usize, words: &Wires) -> u16 {
        let Node { kind, n, .. } = self.nodes[at];
        let wire = match kind {
            1 => self.cell(1, [n, 0], at, "value"),
            2 => words[usize::from(n)],
            3 => {
                let a = self.expression(at + 1, words);
                self.cell(3, [a, 0], at, "value")
            }
            _ => {
                let a = self.expression(at + 1, words);
                let b = self.expression(subtree_end(self.nodes, at + 1), words);
                self.cell(kind, [a, b], at, "value")
            }
        };
        self.trace.values[at] = Some(wire);
        wire
    }

    /// The end of a statement with this start wire, which is brought these words.
    fn statement(&mut self, at: usize, start: u16, words: Wires) -> End {
        let Node { kind, delay, .. } = self.nodes[at];
        let (finish, handed) = match kind {
            16 => (start, words),
            17 => (self.delay(delay, start, at, "delay"), words),
            18 => self.assignment(at, start, words),
            19 => {
                let (middle, words) = self.statement(at + 1, start, words);
                self.statement(subtree_end(self.nodes, at + 1), middle, words)
            }
            20 => self.parallel(at, start, words),
            21 => self.choice(at, start, words),
            22 => self.while_loop(at, start, words),
            _ => self.repeat_loop(at, start, words),
        };
        self.trace.ends[at] = Some(Ends { start, finish });
        if matches!(kind, 18 | 21..=23) {
            let written = self.written(at);
            let handed_on = written.into_iter().map(|variable| HandedOn {
                node: at,
                variable,
                wire: handed[usize::from(variable)],
            });
            self.trace.words.extend(handed_on);
        }
        (finish, handed)
    }

    /// The variables that a statement writes, in order.
    fn written(&self, at: usize) -> Vec<u16> {
        let part = &self.nodes[at..subtree_end(self.nodes, at)];
        let writes = |x: &u16| part.iter().any(|node| node.kind == 18 && node.n == *x);
        (0..VARIABLES as u16).filter(writes).collect()
    }

    fn assignment(&mut self, at: usize, start: u16, mut words: Wires) -> End {
        let value = self.expression(at + 1, &words);
        let Node { delay, n, .. } = self.nodes[at];
        words[usize::from(n)] = value;
        (self.delay(delay, start, at, "delay"), words)
    }

    fn parallel(&mut self, at: usize, start: u16, words: Wires) -> End {
        let (p, q) = (at + 1, subtree_end(self.nodes, at + 1));
        let (p_finish, of_p) = self.statement(p, start, words);
        let (q_finish, mut handed) = self.statement(q, start, words);
        for x in self.written(p) {
            handed[usize::from(x)] = of_p[usize::from(x)];
        }
        (self.cell(38, [p_finish, q_finish], at, "finish"), handed)
    }

    /// The words of the branch that was taken, by masks of the condition's word.
    fn choice(&mut self, at: usize, start: u16, words: Wires) -> End {
        let condition = self.expression(at + 1, &words);
        let pulse = match self.nodes[at].delay {
            0 => start,
            delay => self.delay(delay, start, at, "delay"),
        };
        let p_start = self.cell(36, [pulse, condition], at, "then");
        let q_start = self.cell(37, [pulse, condition], at, "else");
        let p = subtree_end(self.nodes, at + 1);
        let (p_finish, of_p) = self.statement(p, p_start, words);
        let q = subtree_end(self.nodes, p);
        let (q_finish, of_q) = self.statement(q, q_start, words);
        let finish = self.cell(35, [p_finish, q_finish], at, "finish");
        let is_zero = self.cell(8, [condition, ZERO], at, "condition is 0");
        let of_else = self.cell(5, [ZERO, is_zero], at, "mask of else");
        let of_then = self.cell(3, [of_else, 0], at, "mask of then");
        let roles = ["of then", "of else", "chosen"];
        let written = [self.written(p), self.written(q)].concat();
        let masked = |masks: [u16; 2], of: [&Wires; 2], x: usize| {
            [
                Cell::new(6, 0, of[0][x], masks[0]),
                Cell::new(6, 0, of[1][x], masks[1]),
            ]
        };
        let both = |x| masked([of_then, of_else], [&of_p, &of_q], x);
        (finish, self.joined(at, &written, roles, both, words))
    }

    /// Of each of these variables the or of two cells, all firsts before all seconds
    /// before all ors; the words of the others are as they were.
    fn joined(
        &mut self,
        at: usize,
        variables: &[u16],
        roles: [&'static str; 3],
        both: impl Fn(usize) -> [Cell; 2],
        mut words: Wires,
    ) -> Wires {
        let mut variables = variables.to_vec();
        variables.sort_unstable();
        variables.dedup();
        let count = variables.len() as u16;
        for side in 0..2 {
            for x in &variables {
                self.put(both(usize::from(*x))[side], Some(at), roles[side], *x);
            }
        }
        for x in variables {
            let first = self.cells.len() as u16 - 2 * count;
            let or = Cell::new(7, 0, first, first + count);
            words[usize::from(x)] = self.put(or, Some(at), roles[2], x);
        }
        words
    }

    /// A latch for each word that the body of a loop writes, and the delay of the
    /// instant that latching takes; their inputs are still to come.
    fn latches(&mut self, at: usize, body: usize, words: Wires) -> (u16, u16, Wires) {
        let first = self.cells.len() as u16;
        let mut latched = words;
        for x in self.written(body) {
            let empty = Cell::new(LATCH, 0, 0, 0);
            latched[usize::from(x)] = self.put(empty, Some(at), "latched", x);
        }
        (first, self.delay(1, 0, at, "latching"), latched)
    }

    /// Feeds the latches: with a pulse of the start they take the words from before, with
    /// one that comes round those that the round has made.
    fn load(
        &mut self,
        at: usize,
        (first, latching): (u16, u16),
        load: u16,
        [start, again]: [u16; 2],
        [before, round]: [Wires; 2],
    ) {
        let written: Vec<u16> = (first..latching)
            .filter_map(|latch| self.trace.origins[usize::from(latch)].word)
            .collect();
        let roles = ["at first", "of a round", "to latch"];
        let both = |x: usize| {
            [
                Cell::new(41, 0, start, before[x]),
                Cell::new(41, 0, again, round[x]),
            ]
        };
        let loaded = self.joined(at, &written, roles, both, before);
        for (latch, x) in (first..).zip(written) {
            let cell = &mut self.cells[usize::from(latch)];
            (cell.a, cell.b) = (load, loaded[usize::from(x)]);
        }
        self.cells[usize::from(latching)].a = load;
    }

    fn while_loop(&mut self, at: usize, start: u16, words: Wires) -> End {
        let body = subtree_end(self.nodes, at + 1);
        let (first, latching, latched) = self.latches(at, body, words);
        let delay = self.delay(self.nodes[at].delay, latching, at, "delay");
        let condition = self.expression(at + 1, &latched);
        let p_start = self.cell(36, [delay, condition], at, "body");
        let finish = self.cell(37, [delay, condition], at, "finish");
        let (p_finish, round) = self.statement(body, p_start, latched);
        let test = self.cell(35, [start, p_finish], at, "test");
        self.load(
            at,
            (first, latching),
            test,
            [start, p_finish],
            [words, round],
        );
        (finish, latched)
    }

    fn repeat_loop(&mut self, at: usize, start: u16, words: Wires) -> End {
        let body = subtree_end(self.nodes, at + 1);
        let (first, latching, latched) = self.latches(at, body, words);
        let (p_finish, round) = self.statement(body, latching, latched);
        let delay = self.delay(self.nodes[at].delay, p_finish, at, "delay");
        let condition = self.expression(at + 1, &round);
        let finish = self.cell(36, [delay, condition], at, "finish");
        let again = self.cell(37, [delay, condition], at, "again");
        let load = self.cell(35, [start, again], at, "body");
        self.load(at, (first, latching), load, [start, again], [words, round]);
        (finish, round)
    }
}
