//! The layout of a program's cells, with the node and the role of each.

use super::{array_behind, Ends, Trace};
use crate::preorder::{roots, subtree_end};
use crate::store::{ARRAYS, VARIABLES};
use crate::types::{Cell, Netlist, Node, Origin};

/// For each variable and, behind them, each array, the wires that its
/// assignments contribute, with the assignment.
type Contributions = [Vec<(u16, usize)>; VARIABLES + ARRAYS];

/// The cell that is never high.
const GROUND: u16 = 1;

const CALL: u8 = 27;

/// The netlist of an accepted program's nodes for pulses of this length, and where
/// its cells come from.
pub fn lay_out(procedures: usize, pulse: u8, nodes: &[Node]) -> (Netlist, Trace) {
    let mut walk = Walk::new(pulse, nodes);
    let (roots, _) = roots(nodes);
    let (bodies, main) = roots.split_at(procedures);
    walk.put(Cell::new(32, 0, 0, 0), None, "start");
    walk.put(Cell::new(33, 0, 0, 0), None, "ground");
    walk.put(Cell::new(1, 0, 0, 0), None, "zero");
    let (clocks, callers) = walk.delays(procedures);
    let clocks = walk.joined(35, &clocks, GROUND, "clock");
    walk.stores(&clocks);
    walk.next_delay = 3;
    for (body, callers) in bodies.iter().zip(&callers) {
        let start = walk.chain(35, callers, GROUND, "callers");
        let finish = walk.statement(*body, start);
        walk.returns.push(finish);
    }
    let finish = walk.statement(main[0], 0);
    walk.feed_stores();
    walk.found(finish)
}

struct Walk<'a> {
    pulse: u8,
    nodes: &'a [Node],
    cells: Vec<Cell>,
    origins: Vec<Origin>,
    ends: Vec<Option<Ends>>,
    values: Vec<Option<u16>>,
    gates: Contributions,
    /// Those of the indices; variables have none.
    index_gates: Contributions,
    /// The starts of the exits that end the loop around, with the exit.
    exits: Vec<(u16, usize)>,
    /// The finishes of the bodies so far.
    returns: Vec<u16>,
    first_memory: u16,
    /// The delay cell of the next statement that has one: they were put in
    /// node order, and the walk comes to each when it is next.
    next_delay: u16,
}

impl<'a> Walk<'a> {
    fn new(pulse: u8, nodes: &'a [Node]) -> Walk<'a> {
        Walk {
            pulse,
            nodes,
            cells: Vec::new(),
            origins: Vec::new(),
            ends: vec![None; nodes.len()],
            values: vec![None; nodes.len()],
            gates: Contributions::default(),
            index_gates: Contributions::default(),
            exits: Vec::new(),
            returns: Vec::new(),
            first_memory: 0,
            next_delay: 0,
        }
    }

    fn found(self, finish: u16) -> (Netlist, Trace) {
        let netlist = Netlist {
            cells: self.cells,
            finish,
            pulse: self.pulse,
        };
        let trace = Trace {
            origins: self.origins,
            ends: self.ends,
            values: self.values,
            first_memory: self.first_memory,
            words: Vec::new(),
        };
        (netlist, trace)
    }

    fn put(&mut self, cell: Cell, node: Option<usize>, role: &'static str) -> u16 {
        self.cells.push(cell);
        self.origins.push(Origin {
            node,
            role,
            word: None,
        });
        (self.cells.len() - 1) as u16
    }

    /// A cell of a node, without a delay.
    fn cell(&mut self, kind: u8, [a, b]: [u16; 2], node: usize, role: &'static str) -> u16 {
        self.put(Cell::new(kind, 0, a, b), Some(node), role)
    }

    /// The delay cells in node order; gives the first delays of assignments, and
    /// the delays of each procedure's callers.
    fn delays(&mut self, procedures: usize) -> (Contributions, Vec<Vec<(u16, usize)>>) {
        let mut clocks = Contributions::default();
        let mut callers = vec![Vec::new(); procedures];
        for (k, node) in self.nodes.iter().enumerate() {
            if node.delay == 0 {
                continue;
            }
            let first = self.put(Cell::new(34, node.delay, 0, 0), Some(k), "delay");
            if let Some(written) = written(node) {
                self.put(Cell::new(34, self.pulse, first, 0), Some(k), "finish");
                clocks[written].push((first, k));
            }
            if node.kind == CALL {
                callers[usize::from(node.n)].push((first, k));
            }
        }
        (clocks, callers)
    }

    /// The memories, and behind them the arrays, each with its address.
    fn stores(&mut self, clocks: &[u16; VARIABLES + ARRAYS]) {
        let (memories, arrays) = clocks.split_at(VARIABLES);
        self.first_memory = self.cells.len() as u16;
        for clock in memories {
            self.put(Cell::new(40, 0, *clock, 0), None, "memory");
        }
        for (array, clock) in (0..).zip(arrays) {
            self.put(Cell::new(42, array, *clock, 0), None, "array");
            self.put(Cell::new(43, 0, 0, 0), None, "address");
        }
    }

    /// Joins the data of variables and arrays, then the addresses of arrays.
    fn feed_stores(&mut self) {
        let gates = std::mem::take(&mut self.gates);
        let data = self.joined(7, &gates, 2, "data");
        let gates = std::mem::take(&mut self.index_gates);
        let addresses = self.joined(7, &gates, 2, "address");
        for (number, (data, address)) in data.into_iter().zip(addresses).enumerate() {
            match number.checked_sub(VARIABLES) {
                None => self.cells[usize::from(self.first_memory) + number].b = data,
                Some(array) => {
                    let cell = usize::from(self.array(array as u16));
                    self.cells[cell].b = data;
                    self.cells[cell + 1].a = address;
                }
            }
        }
    }

    fn array(&self, array: u16) -> u16 {
        array_behind(self.first_memory, array)
    }

    /// The wire that joins each variable's wires; `none` where there are none.
    fn joined(
        &mut self,
        or: u8,
        contributions: &Contributions,
        none: u16,
        role: &'static str,
    ) -> [u16; VARIABLES + ARRAYS] {
        std::array::from_fn(|variable| self.chain(or, &contributions[variable], none, role))
    }

    /// The wire that joins wires, each cell the result so far with the next;
    /// `none` where there are none.
    fn chain(&mut self, or: u8, wires: &[(u16, usize)], none: u16, role: &'static str) -> u16 {
        let mut so_far = None;
        for (wire, node) in wires {
            so_far = Some(match so_far {
                None => *wire,
                Some(before) => self.cell(or, [before, *wire], *node, role),
            });
        }
        so_far.unwrap_or(none)
    }

    fn take_delay(&mut self) -> u16 {
        self.next_delay += 1;
        self.next_delay - 1
    }

    /// The delay cell of a node that is fed by its start.
    fn delayed(&mut self, start: u16) -> u16 {
        let delay = self.take_delay();
        self.feed(delay, start);
        delay
    }

    fn feed(&mut self, delay: u16, from: u16) {
        self.cells[usize::from(delay)].a = from;
    }

    /// The wire of an expression.
    fn expression(&mut self, at: usize) -> u16 {
        let Node { kind, n, .. } = self.nodes[at];
        let wire = match kind {
            1 => self.cell(1, [n, 0], at, "value"),
            2 => self.first_memory + n,
            3 => {
                let a = self.expression(at + 1);
                self.cell(3, [a, 0], at, "value")
            }
            10 => {
                let index = self.expression(at + 1);
                self.cell(44, [self.array(n), index], at, "value")
            }
            _ => {
                let a = self.expression(at + 1);
                let b = self.expression(subtree_end(self.nodes, at + 1));
                self.cell(kind, [a, b], at, "value")
            }
        };
        self.values[at] = Some(wire);
        wire
    }

    /// The finish wire of a statement with this start wire.
    fn statement(&mut self, at: usize, start: u16) -> u16 {
        let finish = match self.nodes[at].kind {
            16 => start,
            17 => self.delayed(start),
            18 => self.assignment(at, start),
            19 => {
                let middle = self.statement(at + 1, start);
                self.statement(subtree_end(self.nodes, at + 1), middle)
            }
            20 => {
                let p = self.statement(at + 1, start);
                let q = self.statement(subtree_end(self.nodes, at + 1), start);
                self.cell(38, [p, q], at, "finish")
            }
            21 => self.choice(at, start),
            22 => self.while_loop(at, start),
            24 => self.element_assignment(at, start),
            25 => self.exit_loop(at, start),
            26 => {
                self.exits.push((start, at));
                GROUND
            }
            CALL => {
                let delay = self.delayed(start);
                let body = self.returns[usize::from(self.nodes[at].n)];
                self.cell(39, [delay, body], at, "finish")
            }
            _ => self.repeat_loop(at, start),
        };
        self.ends[at] = Some(Ends { start, finish });
        finish
    }

    fn assignment(&mut self, at: usize, start: u16) -> u16 {
        let first = self.delayed(start);
        let second = self.take_delay();
        let value = self.expression(at + 1);
        let gate = self.cell(41, [first, value], at, "gate");
        self.gates[usize::from(self.nodes[at].n)].push((gate, at));
        second
    }

    fn element_assignment(&mut self, at: usize, start: u16) -> u16 {
        let first = self.delayed(start);
        let second = self.take_delay();
        let index = self.expression(at + 1);
        let value = self.expression(subtree_end(self.nodes, at + 1));
        let gate = self.cell(41, [first, value], at, "gate");
        let index_gate = self.cell(41, [first, index], at, "index gate");
        let array = VARIABLES + usize::from(self.nodes[at].n);
        self.gates[array].push((gate, at));
        self.index_gates[array].push((index_gate, at));
        second
    }

    fn choice(&mut self, at: usize, start: u16) -> u16 {
        let pulse = match self.nodes[at].delay {
            0 => start,
            _ => self.delayed(start),
        };
        let condition = self.expression(at + 1);
        let p_start = self.cell(36, [pulse, condition], at, "then");
        let q_start = self.cell(37, [pulse, condition], at, "else");
        let p = subtree_end(self.nodes, at + 1);
        let p_finish = self.statement(p, p_start);
        let q_finish = self.statement(subtree_end(self.nodes, p), q_start);
        self.cell(35, [p_finish, q_finish], at, "finish")
    }

    fn while_loop(&mut self, at: usize, start: u16) -> u16 {
        let delay = self.take_delay();
        let condition = self.expression(at + 1);
        let p_start = self.cell(36, [delay, condition], at, "body");
        let finish = self.cell(37, [delay, condition], at, "finish");
        let p_finish = self.statement(subtree_end(self.nodes, at + 1), p_start);
        let test = self.cell(35, [start, p_finish], at, "test");
        self.feed(delay, test);
        finish
    }

    fn repeat_loop(&mut self, at: usize, start: u16) -> u16 {
        let delay = self.take_delay();
        let condition = self.expression(at + 1);
        let finish = self.cell(36, [delay, condition], at, "finish");
        let again = self.cell(37, [delay, condition], at, "again");
        let p_start = self.cell(35, [start, again], at, "body");
        let p_finish = self.statement(subtree_end(self.nodes, at + 1), p_start);
        self.feed(delay, p_finish);
        finish
    }

    /// A loop that ends where its body comes to one of its exits.
    fn exit_loop(&mut self, at: usize, start: u16) -> u16 {
        let delay = self.take_delay();
        let p_start = self.cell(35, [start, delay], at, "body");
        let outer = std::mem::take(&mut self.exits);
        let p_finish = self.statement(at + 1, p_start);
        self.feed(delay, p_finish);
        let exits = std::mem::replace(&mut self.exits, outer);
        self.chain(35, &exits, GROUND, "joined")
    }
}

/// The variable, or behind them the array, that an assignment writes.
fn written(node: &Node) -> Option<usize> {
    match node.kind {
        18 => Some(usize::from(node.n)),
        24 => Some(VARIABLES + usize::from(node.n)),
        _ => None,
    }
}
