//! The table of the kinds of nodes, as the paper prints it.

use crate::operator::Operator;

#[derive(Clone, Copy, Debug, PartialEq, Eq)]
pub enum Kind {
    Expression(ExpressionKind),
    Statement(StatementKind),
}

#[derive(Clone, Copy, Debug, PartialEq, Eq)]
pub enum ExpressionKind {
    Constant,
    Variable,
    Operation(Operator),
    Element,
}

#[derive(Clone, Copy, Debug, PartialEq, Eq)]
pub enum StatementKind {
    Ok,
    Tick,
    Assign,
    Sequence,
    Parallel,
    If,
    While,
    Repeat,
    AssignElement,
    Loop,
    Exit,
    Call,
}

/// What may stand at a child's place.
#[derive(Clone, Copy, Debug, PartialEq, Eq)]
pub enum Sort {
    Expression,
    Statement,
}

/// One row of the table.
pub struct Row {
    pub number: u8,
    pub name: &'static str,
    pub kind: Kind,
    pub children: &'static [Sort],
    pub uses_delay: bool,
    pub uses_n: bool,
}

impl Row {
    pub fn sort(&self) -> Sort {
        match self.kind {
            Kind::Expression(_) => Sort::Expression,
            Kind::Statement(_) => Sort::Statement,
        }
    }

    /// Whether document 01 doesn't have the kind.
    pub fn is_added(&self) -> bool {
        use {ExpressionKind::*, Kind::*, StatementKind::*};
        matches!(
            self.kind,
            Expression(Element) | Statement(AssignElement | Loop | Exit | Call)
        )
    }

    /// The highest n: the last variable's number, the last array's, or any; that a
    /// called procedure is there is told by its program.
    pub fn most_n(&self) -> u16 {
        use {ExpressionKind::*, Kind::*, StatementKind::*};
        match self.kind {
            Expression(Variable) | Statement(Assign) => 15,
            Expression(Element) | Statement(AssignElement) => 3,
            _ => u16::MAX,
        }
    }
}

/// A constant, a variable or an element: n in use, and no delay.
const fn named(
    number: u8,
    name: &'static str,
    kind: ExpressionKind,
    children: &'static [Sort],
) -> Row {
    Row {
        number,
        name,
        kind: Kind::Expression(kind),
        children,
        uses_delay: false,
        uses_n: true,
    }
}

/// An operator: neither delay nor n in use.
const fn operation(
    number: u8,
    name: &'static str,
    operator: Operator,
    children: &'static [Sort],
) -> Row {
    Row {
        number,
        name,
        kind: Kind::Expression(ExpressionKind::Operation(operator)),
        children,
        uses_delay: false,
        uses_n: false,
    }
}

/// A statement; of these the assignments and the call alone have a use for n.
const fn statement(
    number: u8,
    name: &'static str,
    kind: StatementKind,
    children: &'static [Sort],
    uses_delay: bool,
) -> Row {
    Row {
        number,
        name,
        kind: Kind::Statement(kind),
        children,
        uses_delay,
        uses_n: matches!(
            kind,
            StatementKind::Assign | StatementKind::AssignElement | StatementKind::Call
        ),
    }
}

const E: Sort = Sort::Expression;
const S: Sort = Sort::Statement;

pub const TABLE: [Row; 22] = [
    named(1, "constant", ExpressionKind::Constant, &[]),
    named(2, "variable", ExpressionKind::Variable, &[]),
    operation(3, "complement", Operator::Complement, &[E]),
    operation(4, "sum", Operator::Sum, &[E, E]),
    operation(5, "difference", Operator::Difference, &[E, E]),
    operation(6, "and", Operator::And, &[E, E]),
    operation(7, "or", Operator::Or, &[E, E]),
    operation(8, "equal", Operator::Equal, &[E, E]),
    operation(9, "less", Operator::Less, &[E, E]),
    named(10, "element", ExpressionKind::Element, &[E]),
    statement(16, "ok", StatementKind::Ok, &[], false),
    statement(17, "tick", StatementKind::Tick, &[], true),
    statement(18, "assign", StatementKind::Assign, &[E], true),
    statement(19, "sequence", StatementKind::Sequence, &[S, S], false),
    statement(20, "parallel", StatementKind::Parallel, &[S, S], false),
    statement(21, "if", StatementKind::If, &[E, S, S], true),
    statement(22, "while", StatementKind::While, &[E, S], true),
    statement(23, "repeat", StatementKind::Repeat, &[E, S], true),
    statement(
        24,
        "assign element",
        StatementKind::AssignElement,
        &[E, E],
        true,
    ),
    statement(25, "loop", StatementKind::Loop, &[S], true),
    statement(26, "exit", StatementKind::Exit, &[], false),
    statement(27, "call", StatementKind::Call, &[], true),
];

/// The row of a kind's number, if it is known.
pub fn row(number: u8) -> Option<&'static Row> {
    TABLE.iter().find(|row| row.number == number)
}
