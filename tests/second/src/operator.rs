//! The operators on words, which nodes of a program and cells share.

#[derive(Clone, Copy, Debug, PartialEq, Eq)]
pub enum Operator {
    Complement,
    Sum,
    Difference,
    And,
    Or,
    Equal,
    Less,
}

use Operator::*;

impl Operator {
    /// The operator whose kind, of node and of cell, is `kind`.
    pub fn of_kind(kind: u8) -> Option<Operator> {
        match kind {
            3 => Some(Complement),
            4 => Some(Sum),
            5 => Some(Difference),
            6 => Some(And),
            7 => Some(Or),
            8 => Some(Equal),
            9 => Some(Less),
            _ => None,
        }
    }

    /// The kind of its nodes and cells.
    pub fn kind(self) -> u8 {
        match self {
            Complement => 3,
            Sum => 4,
            Difference => 5,
            And => 6,
            Or => 7,
            Equal => 8,
            Less => 9,
        }
    }

    /// Its result; a complement looks at `a` alone.
    pub fn apply(self, a: u16, b: u16) -> u16 {
        match self {
            Complement => !a,
            Sum => a.wrapping_add(b),
            Difference => a.wrapping_sub(b),
            And => a & b,
            Or => a | b,
            Equal => u16::from(a == b),
            // Words count below zero here alone.
            Less => u16::from((a as i16) < b as i16),
        }
    }
}
