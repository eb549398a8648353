//! The grammar of texts as data, as the paper tells it.
//!
//! What groups to the left names itself first, what groups to the right
//! names itself last, and what doesn't chain doesn't name itself.

use crate::grammar::Grammar;
use crate::kinds::Sort;
use std::sync::OnceLock;

/// Each part of a text, the loosest first, and what may stand there.
const PARTS: [(&str, Sort); 9] = [
    ("Parallel", Sort::Statement),
    ("Sequence", Sort::Statement),
    ("Statement", Sort::Statement),
    ("Or", Sort::Expression),
    ("And", Sort::Expression),
    ("Comparison", Sort::Expression),
    ("Sum", Sort::Expression),
    ("Complement", Sort::Expression),
    ("Operand", Sort::Expression),
];

/// A part, what it may be, and the kind of node that this makes; what makes
/// none is the same as its one part. No rule is empty.
const RULES: [(&str, &str, Option<u8>); 26] = [
    ("Parallel", "Sequence || Parallel", Some(20)),
    ("Parallel", "Sequence", None),
    ("Sequence", "Statement ; Sequence", Some(19)),
    ("Sequence", "Statement", None),
    ("Statement", "ok", Some(16)),
    ("Statement", "tick NUMBER", Some(17)),
    ("Statement", "NAME := Or @ NUMBER", Some(18)),
    (
        "Statement",
        "if Or @ NUMBER then Parallel else Parallel end",
        Some(21),
    ),
    ("Statement", "while Or @ NUMBER do Parallel end", Some(22)),
    (
        "Statement",
        "repeat Parallel until Or @ NUMBER end",
        Some(23),
    ),
    ("Statement", "{ Parallel }", None),
    ("Or", "Or | And", Some(7)),
    ("Or", "And", None),
    ("And", "And & Comparison", Some(6)),
    ("And", "Comparison", None),
    ("Comparison", "Sum = Sum", Some(8)),
    ("Comparison", "Sum < Sum", Some(9)),
    ("Comparison", "Sum", None),
    ("Sum", "Sum + Complement", Some(4)),
    ("Sum", "Sum - Complement", Some(5)),
    ("Sum", "Complement", None),
    ("Complement", "! Complement", Some(3)),
    ("Complement", "Operand", None),
    ("Operand", "NUMBER", Some(1)),
    ("Operand", "NAME", Some(2)),
    ("Operand", "( Or )", None),
];

/// The grammar, its symbols told apart.
pub fn grammar() -> &'static Grammar {
    static GRAMMAR: OnceLock<Grammar> = OnceLock::new();
    GRAMMAR.get_or_init(|| Grammar::of(&PARTS, &RULES))
}
