//! The grammar of long texts as data, as docs/LANGUAGE.md tells it.

use crate::grammar::{Grammar, Row};
use crate::kinds::Sort;
use std::sync::OnceLock;

/// Each part of a long text, and what may stand there; what is neither an expression
/// nor a statement makes no node by itself.
const PARTS: [(&str, Sort); 20] = [
    ("Whole", Sort::Statement),
    ("Declaration", Sort::Statement),
    ("Declared", Sort::Statement),
    ("Constants", Sort::Statement),
    ("Constant", Sort::Statement),
    ("Value", Sort::Statement),
    ("Names", Sort::Statement),
    ("Parallel", Sort::Statement),
    ("Sequence", Sort::Statement),
    ("Statement", Sort::Statement),
    ("Delay", Sort::Statement),
    ("Number", Sort::Statement),
    ("Or", Sort::Expression),
    ("And", Sort::Expression),
    ("Not", Sort::Expression),
    ("Comparison", Sort::Expression),
    ("Sum", Sort::Expression),
    ("Complement", Sort::Expression),
    ("Operand", Sort::Expression),
    ("Negative", Sort::Expression),
];

/// What makes more than one node, or nodes in another order.
pub const GREATER: u8 = 201;
pub const UNEQUAL: u8 = 202;
pub const AT_MOST: u8 = 203;
pub const AT_LEAST: u8 = 204;
pub const NOT: u8 = 205;
pub const NEGATIVE: u8 = 206;
/// A name, which may be that of a word or of a constant.
pub const NAMED: u8 = 207;

/// No rule is empty: what may be left out stands in two rules.
const RULES: [Row; 69] = [
    ("Whole", "Declaration Whole", None),
    ("Whole", "Parallel", None),
    ("Declaration", "Declared ;", None),
    ("Declaration", "Declared", None),
    ("Declared", "constant Constants", None),
    ("Declared", "word Names", None),
    ("Declared", "array Names", None),
    ("Declared", "procedure NAME do Parallel end", None),
    ("Constants", "Constant , Constants", None),
    ("Constants", "Constant", None),
    ("Constant", "NAME = Value", None),
    ("Value", "Number", None),
    ("Value", "- Number", None),
    ("Names", "NAME , Names", None),
    ("Names", "NAME", None),
    ("Number", "NUMBER", None),
    ("Number", "NAME", None),
    ("Delay", "@ Number", None),
    ("Delay", "@ + Number", None),
    ("Parallel", "Sequence || Parallel", Some(20)),
    ("Parallel", "Sequence", None),
    ("Sequence", "Statement ; Sequence", Some(19)),
    ("Sequence", "Statement ;", None),
    ("Sequence", "Statement", None),
    ("Statement", "ok", Some(16)),
    ("Statement", "exit", Some(26)),
    ("Statement", "tick Number", Some(17)),
    ("Statement", "NAME := Or", Some(18)),
    ("Statement", "NAME := Or Delay", Some(18)),
    ("Statement", "NAME [ Or ] := Or", Some(24)),
    ("Statement", "NAME [ Or ] := Or Delay", Some(24)),
    ("Statement", "if Or then Parallel end", Some(21)),
    ("Statement", "if Or Delay then Parallel end", Some(21)),
    (
        "Statement",
        "if Or then Parallel else Parallel end",
        Some(21),
    ),
    (
        "Statement",
        "if Or Delay then Parallel else Parallel end",
        Some(21),
    ),
    ("Statement", "while Or do Parallel end", Some(22)),
    ("Statement", "while Or Delay do Parallel end", Some(22)),
    ("Statement", "repeat Parallel until Or end", Some(23)),
    ("Statement", "repeat Parallel until Or Delay end", Some(23)),
    ("Statement", "loop do Parallel end", Some(25)),
    ("Statement", "loop Delay do Parallel end", Some(25)),
    ("Statement", "call NAME", Some(27)),
    ("Statement", "call NAME Delay", Some(27)),
    ("Statement", "{ Parallel }", None),
    ("Or", "Or | And", Some(7)),
    ("Or", "And", None),
    ("And", "And & Not", Some(6)),
    ("And", "Not", None),
    ("Not", "not Not", Some(NOT)),
    ("Not", "Comparison", None),
    ("Comparison", "Sum = Sum", Some(8)),
    ("Comparison", "Sum < Sum", Some(9)),
    ("Comparison", "Sum > Sum", Some(GREATER)),
    ("Comparison", "Sum != Sum", Some(UNEQUAL)),
    ("Comparison", "Sum <= Sum", Some(AT_MOST)),
    ("Comparison", "Sum >= Sum", Some(AT_LEAST)),
    ("Comparison", "Sum", None),
    ("Sum", "Sum + Complement", Some(4)),
    ("Sum", "Sum - Complement", Some(5)),
    ("Sum", "Complement", None),
    ("Complement", "! Complement", Some(3)),
    ("Complement", "Operand", None),
    ("Operand", "NUMBER", Some(1)),
    ("Operand", "NAME", Some(NAMED)),
    ("Operand", "NAME [ Or ]", Some(10)),
    ("Operand", "( Or )", None),
    ("Operand", "Negative", None),
    ("Negative", "- NUMBER", Some(NEGATIVE)),
    ("Negative", "- NAME", Some(NEGATIVE)),
];

/// The grammar, its symbols told apart.
pub fn grammar() -> &'static Grammar {
    static GRAMMAR: OnceLock<Grammar> = OnceLock::new();
    GRAMMAR.get_or_init(|| Grammar::of(&PARTS, &RULES))
}
