//! A grammar as data: rules of parts and words. A whole text is the first part.

use crate::kinds::Sort;

/// A part is a nonterminal symbol: a number that counts the grammar's parts.
pub type Part = usize;

/// The part that a whole text is.
pub const WHOLE: Part = 0;

/// A part, what it may be, and the kind of node that this makes, if any.
pub type Row = (&'static str, &'static str, Option<u8>);

#[derive(Clone, Copy, Debug, PartialEq, Eq)]
pub enum Symbol {
    Word(&'static str),
    Part(Part),
}

pub struct Rule {
    pub left: Part,
    pub right: Vec<Symbol>,
    pub kind: Option<u8>,
}

pub struct Grammar {
    sorts: Vec<Sort>,
    pub rules: Vec<Rule>,
}

impl Grammar {
    pub fn of(parts: &[(&'static str, Sort)], rows: &[Row]) -> Grammar {
        let part = |name: &str| parts.iter().position(|(part, _)| *part == name);
        let symbol = |name| part(name).map_or(Symbol::Word(name), Symbol::Part);
        let rule = |(left, right, kind): &Row| Rule {
            left: part(left).expect("a rule is for a part"),
            right: right.split(' ').map(symbol).collect(),
            kind: *kind,
        };
        Grammar {
            sorts: parts.iter().map(|(_, sort)| *sort).collect(),
            rules: rows.iter().map(rule).collect(),
        }
    }

    /// Whether a part is an expression or a statement.
    pub fn sort(&self, part: Part) -> Sort {
        self.sorts[part]
    }
}
