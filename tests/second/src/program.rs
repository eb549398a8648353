//! A program as a tree, and what can be told of it without running it.
//!
//! Every statement keeps its node number, because refusals name it. Sets of
//! variables are masks: bit k stands for variable k, and the bits above those
//! for the arrays, of which each is one variable. Sets of procedures are masks,
//! too; what a called procedure does, its caller does.

use crate::contents::Contents;
use crate::operator::Operator;
use crate::table::Times;

pub type Set = u32;

/// The set of one variable.
pub fn variable_set(variable: usize) -> Set {
    1 << variable
}

/// The set of one array.
pub fn array_set(array: usize) -> Set {
    1 << (16 + array)
}

/// A set of procedures.
pub type Procedures = u8;

/// The bodies of the procedures, by number, and the main program, for pulses
/// of so many instants.
pub struct Program {
    pub pulse: u8,
    pub bodies: Vec<Statement>,
    pub main: Statement,
}

pub enum Expression {
    Constant(u16),
    Variable(usize),
    Unary(Operator, Box<Expression>),
    Binary(Operator, Box<Expression>, Box<Expression>),
    /// An array and the index.
    Element(usize, Box<Expression>),
}

pub struct Statement {
    pub node: usize,
    pub delay: u8,
    pub form: Form,
}

/// The form of a statement; children stand in node order.
pub enum Form {
    Ok,
    Tick,
    Assign(usize, Expression),
    Sequence(Box<Statement>, Box<Statement>),
    Parallel(Box<Statement>, Box<Statement>),
    If(Expression, Box<Statement>, Box<Statement>),
    While(Expression, Box<Statement>),
    Repeat(Expression, Box<Statement>),
    /// An array, the index and the value.
    AssignElement(usize, Expression, Expression),
    Loop(Box<Statement>),
    Exit,
    /// The number of a procedure; refusal 24 leaves only earlier ones.
    Call(usize),
}

impl Expression {
    /// Its value on these words.
    pub fn value(&self, now: &Contents) -> u16 {
        match self {
            Expression::Constant(n) => *n,
            Expression::Variable(variable) => now.words[*variable],
            Expression::Unary(operator, e) => operator.apply(e.value(now), 0),
            Expression::Binary(operator, e, f) => operator.apply(e.value(now), f.value(now)),
            Expression::Element(array, e) => now.arrays.element(*array, e.value(now)),
        }
    }

    /// Its time; 39,600 at most, so wider than a delay's byte.
    pub fn time(&self, times: &Times) -> u32 {
        match self {
            Expression::Constant(_) | Expression::Variable(_) => 0,
            Expression::Unary(operator, e) => times.of(*operator) + e.time(times),
            Expression::Binary(operator, e, f) => {
                times.of(*operator) + e.time(times).max(f.time(times))
            }
            Expression::Element(_, e) => times.of_element() + e.time(times),
        }
    }

    /// The variables it reads.
    pub fn reads(&self) -> Set {
        match self {
            Expression::Constant(_) => 0,
            Expression::Variable(variable) => variable_set(*variable),
            Expression::Unary(_, e) => e.reads(),
            Expression::Binary(_, e, f) => e.reads() | f.reads(),
            Expression::Element(array, e) => array_set(*array) | e.reads(),
        }
    }
}

impl Statement {
    /// The expressions that are this statement's own children.
    pub fn expressions(&self) -> Vec<&Expression> {
        match &self.form {
            Form::Assign(_, e) | Form::If(e, _, _) | Form::While(e, _) | Form::Repeat(e, _) => {
                vec![e]
            }
            Form::AssignElement(_, index, value) => vec![index, value],
            Form::Ok | Form::Tick | Form::Sequence(..) | Form::Parallel(..) => Vec::new(),
            Form::Loop(_) | Form::Exit | Form::Call(_) => Vec::new(),
        }
    }

    /// The statements that are its children, in node order.
    pub fn parts(&self) -> Vec<&Statement> {
        match &self.form {
            Form::Ok | Form::Tick | Form::Assign(..) | Form::AssignElement(..) => Vec::new(),
            Form::Exit | Form::Call(_) => Vec::new(),
            Form::Sequence(p, q) | Form::Parallel(p, q) | Form::If(_, p, q) => vec![p, q],
            Form::While(_, p) | Form::Repeat(_, p) | Form::Loop(p) => vec![p],
        }
    }

    /// It and all statements below it, in node order.
    pub fn in_node_order(&self) -> Vec<&Statement> {
        let mut all = Vec::new();
        self.append_to(&mut all);
        all
    }

    fn append_to<'a>(&'a self, all: &mut Vec<&'a Statement>) {
        all.push(self);
        for part in self.parts() {
            part.append_to(all);
        }
    }

    /// The exits, it and those below it, that end a loop around it: no loop and no
    /// parallel node stands between.
    pub fn exits(&self) -> Vec<&Statement> {
        match self.form {
            Form::Exit => vec![self],
            Form::Loop(_) | Form::Parallel(..) => Vec::new(),
            _ => {
                let parts = self.parts().into_iter();
                parts.flat_map(Statement::exits).collect()
            }
        }
    }

    /// The procedures that it or a statement below it calls.
    fn calls(&self) -> Procedures {
        let all = self.in_node_order().into_iter();
        all.fold(0, |called, statement| match statement.form {
            Form::Call(procedure) => called | 1 << procedure,
            _ => called,
        })
    }

    /// The variables that it or a statement below it reads, calls left out.
    fn own_reads(&self) -> Set {
        union(self.in_node_order(), |statement| {
            union(statement.expressions(), Expression::reads)
        })
    }

    /// The variables that it or a statement below it assigns, calls left out.
    fn own_writes(&self) -> Set {
        union(self.in_node_order(), |statement| match statement.form {
            Form::Assign(variable, _) => variable_set(variable),
            Form::AssignElement(array, ..) => array_set(array),
            _ => 0,
        })
    }
}

impl Program {
    /// The bodies, and the main program as the last.
    pub fn roots(&self) -> impl Iterator<Item = &Statement> {
        self.bodies.iter().chain([&self.main])
    }

    /// All statements, in node order.
    pub fn in_node_order(&self) -> Vec<&Statement> {
        self.roots().flat_map(Statement::in_node_order).collect()
    }

    /// The procedures that a statement calls, and those that these call. Calls
    /// are of earlier procedures, so that one look at each, from the last on,
    /// finds all.
    pub fn reached(&self, from: &Statement) -> Procedures {
        let later_first = self.bodies.iter().enumerate().rev();
        later_first.fold(from.calls(), |reached, (procedure, body)| {
            match reached & 1 << procedure {
                0 => reached,
                _ => reached | body.calls(),
            }
        })
    }

    /// The variables that a statement, or a body that it reaches, reads.
    pub fn reads(&self, statement: &Statement) -> Set {
        union(self.run_by(statement), Statement::own_reads)
    }

    /// The variables that a statement, or a body that it reaches, assigns.
    pub fn writes(&self, statement: &Statement) -> Set {
        union(self.run_by(statement), Statement::own_writes)
    }

    /// A statement and the bodies that it reaches.
    fn run_by<'a>(&'a self, statement: &'a Statement) -> Vec<&'a Statement> {
        let reached = self.reached(statement);
        let bodies = self.bodies.iter().enumerate();
        let bodies = bodies.filter(|(procedure, _)| reached & 1 << procedure != 0);
        let bodies = bodies.map(|(_, body)| body);
        [statement].into_iter().chain(bodies).collect()
    }
}

/// All members of the sets that these parts have.
fn union<Part>(parts: Vec<Part>, set: impl Fn(Part) -> Set) -> Set {
    parts.into_iter().map(set).fold(0, |all, set| all | set)
}
