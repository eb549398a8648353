//! The check of a program: refusals 1 to 8, 22, 24, 25 and 28, and the reading
//! into trees.
//!
//! The order is the paper's: the length and the number of procedures; each node
//! by itself; the reading, which meets 5 and 6 on its way; for a functional
//! circuit the kinds; the exits; the calls; the delays; the parallel nodes, for
//! procedures and then for variables.

use crate::kinds::{row, ExpressionKind, Kind, Row, StatementKind};
use crate::program::{Expression, Form, Program, Statement};
use crate::table::Times;
use crate::word::number2;
use std::collections::BTreeSet;
use values::Refusal;

const NODE_LENGTH: usize = 4;
pub const MOST_NODES: usize = 200;
const MOST_PROCEDURES: usize = 8;

/// The program with so many procedures that these bytes are, for pulses of this
/// length, or the refusal found first.
pub fn check(
    bytes: &[u8],
    procedures: usize,
    pulse: u8,
    times: &Times,
) -> Result<Program, Refusal> {
    if procedures > MOST_PROCEDURES {
        return Err(Refusal::new(1, 0));
    }
    let nodes = nodes(bytes)?;
    checked(read(&nodes, procedures, pulse)?, times)
}

/// The program of a functional circuit, which has no procedures and pulses of one
/// instant.
pub fn check_functional(bytes: &[u8], times: &Times) -> Result<Program, Refusal> {
    let nodes = nodes(bytes)?;
    let program = read(&nodes, 0, 1)?;
    check_kinds(&nodes)?;
    checked(program, times)
}

/// What is asked of a program that has been read.
fn checked(program: Program, times: &Times) -> Result<Program, Refusal> {
    check_exits(&program)?;
    check_calls(&program)?;
    check_delays(&program, times)?;
    check_shared(&program)?;
    check_parallels(&program)?;
    Ok(program)
}

/// Refusal 28, at the first node of a kind that came with a change request.
fn check_kinds(nodes: &[Node]) -> Result<(), Refusal> {
    match nodes.iter().position(|node| node.row.is_added()) {
        Some(place) => Err(Refusal::new(28, place)),
        None => Ok(()),
    }
}

/// A node that is lawful by itself.
struct Node {
    row: &'static Row,
    delay: u8,
    n: u16,
}

/// Refusals 1 to 4.
fn nodes(bytes: &[u8]) -> Result<Vec<Node>, Refusal> {
    let length = bytes.len();
    if length == 0 || length > NODE_LENGTH * MOST_NODES || !length.is_multiple_of(NODE_LENGTH) {
        return Err(Refusal::new(1, 0));
    }
    let nodes = bytes.chunks_exact(NODE_LENGTH).enumerate();
    nodes
        .map(|(place, bytes)| node(bytes).map_err(|number| Refusal::new(number, place)))
        .collect()
}

/// One node, or the number of its refusal: 2, 3 or 4.
fn node(bytes: &[u8]) -> Result<Node, u8> {
    let (delay, n) = (bytes[1], number2(bytes, 2));
    let row = row(bytes[0]).ok_or(2)?;
    if (!row.uses_delay && delay != 0) || (!row.uses_n && n != 0) {
        return Err(3);
    }
    if n > row.most_n() {
        return Err(4);
    }
    Ok(Node { row, delay, n })
}

/// Refusals 5 and 6: one reading in node order, which stops at the first.
fn read(nodes: &[Node], procedures: usize, pulse: u8) -> Result<Program, Refusal> {
    let mut reader = Reader { nodes, next: 0 };
    let bodies = (0..procedures).map(|_| reader.statement());
    let bodies = bodies.collect::<Result<_, _>>()?;
    let main = reader.statement()?;
    if reader.next < nodes.len() {
        return Err(Refusal::new(6, reader.next));
    }
    Ok(Program {
        pulse,
        bodies,
        main,
    })
}

struct Reader<'a> {
    nodes: &'a [Node],
    next: usize,
}

impl<'a> Reader<'a> {
    /// The next node and its place.
    fn take(&mut self) -> Result<(usize, &'a Node), Refusal> {
        let place = self.next;
        let node = self.nodes.get(place).ok_or(Refusal::new(6, place))?;
        self.next += 1;
        Ok((place, node))
    }

    fn expression(&mut self) -> Result<Expression, Refusal> {
        let (place, node) = self.take()?;
        let Kind::Expression(kind) = node.row.kind else {
            return Err(Refusal::new(5, place));
        };
        Ok(match kind {
            ExpressionKind::Constant => Expression::Constant(node.n),
            ExpressionKind::Variable => Expression::Variable(usize::from(node.n)),
            ExpressionKind::Element => {
                Expression::Element(usize::from(node.n), Box::new(self.expression()?))
            }
            ExpressionKind::Operation(operator) => {
                let first = Box::new(self.expression()?);
                match node.row.children.len() {
                    1 => Expression::Unary(operator, first),
                    _ => Expression::Binary(operator, first, Box::new(self.expression()?)),
                }
            }
        })
    }

    fn statement(&mut self) -> Result<Statement, Refusal> {
        let (place, node) = self.take()?;
        let Kind::Statement(kind) = node.row.kind else {
            return Err(Refusal::new(5, place));
        };
        Ok(Statement {
            node: place,
            delay: node.delay,
            form: self.form(kind, node.n)?,
        })
    }

    /// The children of a statement; a tuple's fields are read from left to right.
    fn form(&mut self, kind: StatementKind, n: u16) -> Result<Form, Refusal> {
        Ok(match kind {
            StatementKind::Ok => Form::Ok,
            StatementKind::Tick => Form::Tick,
            StatementKind::Assign => Form::Assign(usize::from(n), self.expression()?),
            StatementKind::Sequence => Form::Sequence(self.part()?, self.part()?),
            StatementKind::Parallel => Form::Parallel(self.part()?, self.part()?),
            StatementKind::If => Form::If(self.expression()?, self.part()?, self.part()?),
            StatementKind::While => Form::While(self.expression()?, self.part()?),
            StatementKind::Repeat => Form::Repeat(self.expression()?, self.part()?),
            StatementKind::AssignElement => {
                Form::AssignElement(usize::from(n), self.expression()?, self.expression()?)
            }
            StatementKind::Loop => Form::Loop(self.part()?),
            StatementKind::Exit => Form::Exit,
            StatementKind::Call => Form::Call(usize::from(n)),
        })
    }

    fn part(&mut self) -> Result<Box<Statement>, Refusal> {
        Ok(Box::new(self.statement()?))
    }
}

/// Refusal 22, at the first exit that is none of a loop's own.
fn check_exits(program: &Program) -> Result<(), Refusal> {
    let loops = program.in_node_order().into_iter();
    let of_loops: BTreeSet<usize> = loops.flat_map(own_exits).collect();
    refuse_first(22, program, |statement| {
        matches!(statement.form, Form::Exit) && !of_loops.contains(&statement.node)
    })
}

/// The nodes of the exits that end this loop, if it is one.
fn own_exits(statement: &Statement) -> Vec<usize> {
    match &statement.form {
        Form::Loop(p) => p.exits().iter().map(|exit| exit.node).collect(),
        _ => Vec::new(),
    }
}

/// Refusal 24, at the first call of a procedure that isn't an earlier one. The
/// main program stands behind all procedures.
fn check_calls(program: &Program) -> Result<(), Refusal> {
    let numbered = program.roots().enumerate();
    let within = numbered.flat_map(|(root, body)| {
        let statements = body.in_node_order().into_iter();
        statements.map(move |statement| (root, statement))
    });
    let late = |&(root, statement): &(usize, &Statement)| match statement.form {
        Form::Call(procedure) => procedure >= root,
        _ => false,
    };
    match { within }.find(late) {
        Some((_, call)) => Err(Refusal::new(24, call.node)),
        None => Ok(()),
    }
}

/// Refusal 7, at the first statement whose delay is too small.
fn check_delays(program: &Program, times: &Times) -> Result<(), Refusal> {
    refuse_first(7, program, |statement| {
        u32::from(statement.delay) < least_delay(statement, program.pulse, times)
    })
}

/// The least delay of a statement: its kind's, and each expression's time.
fn least_delay(statement: &Statement, pulse: u8, times: &Times) -> u32 {
    let kind_needs = match statement.form {
        Form::Ok | Form::Sequence(..) | Form::Parallel(..) | Form::If(..) | Form::Exit => 0,
        Form::Tick | Form::Assign(..) | Form::AssignElement(..) => 1,
        Form::While(..) | Form::Repeat(..) | Form::Loop(_) | Form::Call(_) => apart(pulse),
    };
    let expressions = statement.expressions().into_iter();
    expressions.fold(kind_needs, |least, e| least.max(e.time(times)))
}

/// The instants from one pulse to the next in the same part of a circuit: the
/// wires that a longer one went through must be low once between.
fn apart(pulse: u8) -> u32 {
    match pulse {
        1 => 1,
        longer => u32::from(longer) + 1,
    }
}

/// Refusal 25, at the first parallel statement of which both sides reach one
/// procedure, be it through others.
fn check_shared(program: &Program) -> Result<(), Refusal> {
    refuse_first(25, program, |statement| match &statement.form {
        Form::Parallel(p, q) => program.reached(p) & program.reached(q) != 0,
        _ => false,
    })
}

/// Refusal 8, at the first parallel statement whose sides clash.
fn check_parallels(program: &Program) -> Result<(), Refusal> {
    refuse_first(8, program, |statement| match &statement.form {
        Form::Parallel(p, q) => clash(program, p, q),
        _ => false,
    })
}

/// Whether one side writes a variable that the other reads or writes.
fn clash(program: &Program, p: &Statement, q: &Statement) -> bool {
    let (p_writes, q_writes) = (program.writes(p), program.writes(q));
    p_writes & (program.reads(q) | q_writes) != 0 || q_writes & program.reads(p) != 0
}

/// Refuses the first statement, in node order, that breaks a rule.
fn refuse_first(
    number: u8,
    program: &Program,
    breaks: impl Fn(&Statement) -> bool,
) -> Result<(), Refusal> {
    let mut statements = program.in_node_order().into_iter();
    match statements.find(|statement| breaks(statement)) {
        Some(statement) => Err(Refusal::new(number, statement.node)),
        None => Ok(()),
    }
}
