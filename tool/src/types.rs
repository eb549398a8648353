//! The values that the modules hand to each other.

pub use crate::wiring::{Beside, Mode, Wiring};
pub use values::{Answer, Cell, End, Format, Refusal, Table, Words};

/// A node of a program: four bytes, kind, delay, n low, n high.
#[derive(Clone, Copy, Debug, PartialEq, Eq)]
pub struct Node {
    pub kind: u8,
    pub delay: u8,
    pub n: u16,
}

#[derive(Clone, Debug, PartialEq, Eq)]
pub struct Netlist {
    pub cells: Vec<Cell>,
    pub finish: u16,
    /// The instants for which a pulse is high.
    pub pulse: u8,
}

/// Where a cell comes from: a node of the program, none for what every netlist
/// has, what it does for that node, and for which word, where it is for one.
#[derive(Clone, Copy, Debug, PartialEq, Eq)]
pub struct Origin {
    pub node: Option<usize>,
    pub role: &'static str,
    pub word: Option<u16>,
}

/// Bytes of a text, from `start` up to `end`.
#[derive(Clone, Copy, Debug, PartialEq, Eq)]
pub struct Span {
    pub start: usize,
    pub end: usize,
}

/// What a command that fails returns.
#[derive(Clone, Debug, PartialEq, Eq)]
pub struct Fault {
    pub exit: i32,
    pub message: String,
}

/// What a command that is done returns: the exit status, and what it prints.
#[derive(Clone, Debug, PartialEq, Eq)]
pub struct Done {
    pub exit: i32,
    pub output: Vec<u8>,
}

/// The exit statuses.
pub const DONE: i32 = 0;
pub const REFUSED: i32 = 1;
pub const OPEN: i32 = 2;
pub const USAGE: i32 = 64;
pub const INTERNAL: i32 = 70;

impl Fault {
    /// A command line that can't be followed, or a file that can't be had.
    pub fn usage(message: impl Into<String>) -> Fault {
        Fault {
            exit: USAGE,
            message: message.into(),
        }
    }

    /// The tool and the product differ, which is the tool's fault.
    pub fn internal(message: impl Into<String>) -> Fault {
        Fault {
            exit: INTERNAL,
            message: format!("internal error: {}", message.into()),
        }
    }
}

impl Done {
    pub fn printing(output: impl Into<Vec<u8>>) -> Done {
        Done {
            exit: DONE,
            output: output.into(),
        }
    }
}
