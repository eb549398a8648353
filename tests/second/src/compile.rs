//! Compiling to an imperative circuit: the published numbering.
//!
//! The cells come in the paper's order: three fixed ones, the delays, the
//! clock ors, the memories, the arrays, the walks of the bodies and of the main
//! program, the data ors, the address ors. A delay's feed, the data of memories
//! and arrays, and the addresses are known only later, and are filled in then.

use crate::cells::*;
use crate::contents::ARRAYS;
use crate::operator::Operator;
use crate::program::{Expression, Form, Program, Statement};
use crate::wiring::{Sources, Wire, Wiring, GROUND_WIRE, START_WIRE};
use values::Cell;

/// What is assigned to: the variables, then the arrays.
const TARGETS: usize = MEMORIES + ARRAYS;

/// For each target, the wires that its assignments contribute.
type Contributions = [Vec<Wire>; TARGETS];

/// The netlist of a checked program.
pub fn compile(program: &Program) -> Netlist {
    compile_to_the_ors(program).0
}

/// The same, and where the walk ends: from there on stand the ors of data and addresses.
pub fn compile_to_the_ors(program: &Program) -> (Netlist, usize) {
    let pulse = program.pulse;
    let mut wiring = Wiring::new();
    let first_delay = wiring.next();
    let (clocks, callers) = place_delays(program, &mut wiring);
    let clocks = join_all(&mut wiring, OR, &clocks, GROUND_WIRE);
    let first_memory = wiring.next();
    for (target, clock) in clocks.into_iter().enumerate() {
        place_target(&mut wiring, target, clock);
    }
    let mut walk = Walk {
        wiring,
        next_delay: first_delay,
        sources: Sources {
            words: std::array::from_fn(|variable| first_memory + variable as Wire),
            first_array: first_memory + MEMORIES as Wire,
        },
        data: Contributions::default(),
        addresses: Contributions::default(),
        exits: Vec::new(),
        returns: Vec::new(),
    };
    for (body, callers) in program.bodies.iter().zip(&callers) {
        walk.body(body, callers);
    }
    let finish = walk.statement(&program.main, START_WIRE);
    let walk_end = walk.wiring.cells.len();
    walk.join_gates();
    let netlist = Netlist {
        pulse,
        cells: walk.wiring.cells,
        finish,
    };
    (netlist, walk_end)
}

/// Appends a memory, or the two cells of an array; data and address come later.
fn place_target(wiring: &mut Wiring, target: usize, clock: Wire) {
    match target.checked_sub(MEMORIES) {
        None => wiring.cell(MEMORY, clock, 0),
        Some(array) => {
            wiring.push(Cell::new(ARRAY, array as u8, clock, 0));
            wiring.cell(ADDRESS, 0, 0)
        }
    };
}

/// The delay cells in node order; gives each target's first delays, which are
/// its clock pulses, and the delays of each procedure's callers.
fn place_delays(program: &Program, wiring: &mut Wiring) -> (Contributions, Vec<Vec<Wire>>) {
    let mut clocks = Contributions::default();
    let mut callers = vec![Vec::new(); program.bodies.len()];
    for statement in program.in_node_order() {
        // Statements without a use for a delay have 0, as some ifs.
        if statement.delay == 0 {
            continue;
        }
        let first = wiring.delay(statement.delay, 0);
        if let Some(target) = target(statement) {
            wiring.delay(program.pulse, first);
            clocks[target].push(first);
        }
        if let Form::Call(procedure) = statement.form {
            callers[procedure].push(first);
        }
    }
    (clocks, callers)
}

/// What a statement assigns to.
fn target(statement: &Statement) -> Option<usize> {
    match statement.form {
        Form::Assign(variable, _) => Some(variable),
        Form::AssignElement(array, ..) => Some(MEMORIES + array),
        _ => None,
    }
}

/// Joins each target's wires by or cells; one without any has `none`.
fn join_all(
    wiring: &mut Wiring,
    or: u8,
    contributions: &Contributions,
    none: Wire,
) -> [Wire; TARGETS] {
    std::array::from_fn(|target| join(wiring, or, &contributions[target], none))
}

/// Joins wires by or cells, each the result so far with the next wire; where
/// there are no wires, `none`.
fn join(wiring: &mut Wiring, or: u8, wires: &[Wire], none: Wire) -> Wire {
    let wires = wires.iter().copied();
    let joined = wires.reduce(|so_far, next| wiring.cell(or, so_far, next));
    joined.unwrap_or(none)
}

/// The walk over the bodies and the main program. It meets statements in node order, so the delay
/// cells, which were placed in that order, are taken one after another.
struct Walk {
    wiring: Wiring,
    next_delay: Wire,
    /// The memories and the arrays.
    sources: Sources,
    data: Contributions,
    addresses: Contributions,
    /// The starts of the exits met so far of the innermost loop around.
    exits: Vec<Wire>,
    /// The finishes of the bodies walked so far.
    returns: Vec<Wire>,
}

impl Walk {
    fn cell(&mut self, kind: u8, a: Wire, b: Wire) -> Wire {
        self.wiring.cell(kind, a, b)
    }

    fn take_delay(&mut self) -> Wire {
        let delay = self.next_delay;
        self.next_delay += 1;
        delay
    }

    fn feed(&mut self, delay: Wire, from: Wire) {
        self.wiring.feed(delay, from);
    }

    /// The data ors, then the address ors, and what they are for.
    fn join_gates(&mut self) {
        let or = Operator::Or.kind();
        let data = join_all(&mut self.wiring, or, &self.data, ZERO);
        let addresses = join_all(&mut self.wiring, or, &self.addresses, ZERO);
        let cells = &mut self.wiring.cells;
        for (memory, data) in self.sources.words.into_iter().zip(&data) {
            cells[usize::from(memory)].b = *data;
        }
        for array in 0..ARRAYS {
            let cell = usize::from(self.sources.array(array));
            cells[cell].b = data[MEMORIES + array];
            cells[cell + 1].a = addresses[MEMORIES + array];
        }
    }

    /// The wire of an expression.
    fn expression(&mut self, e: &Expression) -> Wire {
        self.wiring.expression(e, &self.sources)
    }

    /// The finish wire of a statement with this start wire.
    fn statement(&mut self, statement: &Statement, start: Wire) -> Wire {
        match &statement.form {
            Form::Ok => start,
            Form::Tick => {
                let delay = self.take_delay();
                self.feed(delay, start);
                delay
            }
            Form::Assign(variable, e) => {
                let (clock, finish) = self.two_delays(start);
                let value = self.expression(e);
                let gate = self.cell(GATE, clock, value);
                self.data[*variable].push(gate);
                finish
            }
            Form::AssignElement(array, index, value) => {
                self.assign_element(MEMORIES + array, index, value, start)
            }
            Form::Sequence(p, q) => {
                let middle = self.statement(p, start);
                self.statement(q, middle)
            }
            Form::Parallel(p, q) => {
                let p_finish = self.statement(p, start);
                let q_finish = self.statement(q, start);
                self.cell(MERGE, p_finish, q_finish)
            }
            Form::If(e, p, q) => {
                let pulse = self.delayed_start(statement.delay, start);
                self.choice(e, p, q, pulse)
            }
            Form::While(e, p) => self.while_loop(e, p, start),
            Form::Repeat(e, p) => self.repeat_loop(e, p, start),
            Form::Loop(p) => self.exit_loop(p, start),
            Form::Exit => {
                self.exits.push(start);
                GROUND_WIRE
            }
            Form::Call(procedure) => {
                let delay = self.take_delay();
                self.feed(delay, start);
                self.cell(RETURN, delay, self.returns[*procedure])
            }
        }
    }

    /// A body, which any of its callers starts.
    fn body(&mut self, body: &Statement, callers: &[Wire]) {
        let start = join(&mut self.wiring, OR, callers, GROUND_WIRE);
        let finish = self.statement(body, start);
        self.returns.push(finish);
    }

    /// The delays of an assignment: the first is its clock, the second its finish.
    fn two_delays(&mut self, start: Wire) -> (Wire, Wire) {
        let first = self.take_delay();
        let second = self.take_delay();
        self.feed(first, start);
        (first, second)
    }

    fn assign_element(
        &mut self,
        target: usize,
        index: &Expression,
        value: &Expression,
        start: Wire,
    ) -> Wire {
        let (clock, finish) = self.two_delays(start);
        let index = self.expression(index);
        let value = self.expression(value);
        let data = self.cell(GATE, clock, value);
        let address = self.cell(GATE, clock, index);
        self.data[target].push(data);
        self.addresses[target].push(address);
        finish
    }

    /// The pulse that an if's switches take: with a delay of 0, its start.
    fn delayed_start(&mut self, delay: u8, start: Wire) -> Wire {
        if delay == 0 {
            return start;
        }
        let delay = self.take_delay();
        self.feed(delay, start);
        delay
    }

    fn choice(&mut self, e: &Expression, p: &Statement, q: &Statement, pulse: Wire) -> Wire {
        let condition = self.expression(e);
        let p_start = self.cell(WHEN, pulse, condition);
        let q_start = self.cell(UNLESS, pulse, condition);
        let p_finish = self.statement(p, p_start);
        let q_finish = self.statement(q, q_start);
        self.cell(OR, p_finish, q_finish)
    }

    fn while_loop(&mut self, e: &Expression, p: &Statement, start: Wire) -> Wire {
        let delay = self.take_delay();
        let condition = self.expression(e);
        let p_start = self.cell(WHEN, delay, condition);
        let finish = self.cell(UNLESS, delay, condition);
        let p_finish = self.statement(p, p_start);
        let test = self.cell(OR, start, p_finish);
        self.feed(delay, test);
        finish
    }

    fn repeat_loop(&mut self, e: &Expression, p: &Statement, start: Wire) -> Wire {
        let delay = self.take_delay();
        let condition = self.expression(e);
        let finish = self.cell(WHEN, delay, condition);
        let again = self.cell(UNLESS, delay, condition);
        let p_start = self.cell(OR, start, again);
        let p_finish = self.statement(p, p_start);
        self.feed(delay, p_finish);
        finish
    }

    /// A loop; its finish is where its exits start.
    fn exit_loop(&mut self, p: &Statement, start: Wire) -> Wire {
        let delay = self.take_delay();
        let p_start = self.cell(OR, start, delay);
        let around = std::mem::take(&mut self.exits);
        let p_finish = self.statement(p, p_start);
        self.feed(delay, p_finish);
        let exits = std::mem::replace(&mut self.exits, around);
        join(&mut self.wiring, OR, &exits, GROUND_WIRE)
    }
}
