//! The two circuits of a program: which one is asked for beside a program, and in
//! which mode a run is made.

use values::{Format, Given, Table};

pub use values::Circuit as Wiring;

/// What is given beside a program, with the circuit that is asked for.
#[derive(Clone, Copy, Debug, PartialEq, Eq)]
pub struct Beside<'a> {
    pub table: Table<'a>,
    pub procedures: usize,
    pub pulse: u8,
    pub wiring: Wiring,
}

impl<'a> Beside<'a> {
    /// No table, no procedures, pulses of one instant, and the imperative circuit.
    pub const NOTHING: Beside<'static> = Beside {
        table: None,
        procedures: 0,
        pulse: 1,
        wiring: Wiring::Imperative,
    };

    /// The functional circuit, and nothing else.
    pub const FUNCTIONAL: Beside<'static> = Beside {
        wiring: Wiring::Functional,
        ..Beside::NOTHING
    };

    /// A table that may be given, and nothing else.
    pub const fn table(table: Table<'a>) -> Beside<'a> {
        Beside {
            table,
            ..Beside::NOTHING
        }
    }

    /// So many procedures, and nothing else.
    pub const fn procedures(procedures: usize) -> Beside<'static> {
        Beside {
            procedures,
            ..Beside::NOTHING
        }
    }

    /// Pulses of this length, and nothing else.
    pub const fn pulse(pulse: u8) -> Beside<'static> {
        Beside {
            pulse,
            ..Beside::NOTHING
        }
    }

    /// As a call for imperative circuits takes it.
    pub fn given(self) -> Given<'a> {
        Given {
            table: self.table,
            procedures: self.procedures,
            pulse: self.pulse,
        }
    }
}

/// How a run is made: the format of its state, and whose words its answer shows, the
/// memories' or those of the last sixteen cells.
#[derive(Clone, Copy, Debug, PartialEq, Eq)]
pub struct Mode {
    pub format: Format,
    pub wiring: Wiring,
}

/// A run of an imperative circuit.
impl From<Format> for Mode {
    fn from(format: Format) -> Mode {
        Mode {
            format,
            wiring: Wiring::Imperative,
        }
    }
}

/// The word for a circuit.
pub fn name(wiring: Wiring) -> &'static str {
    match wiring {
        Wiring::Imperative => "imperative",
        Wiring::Functional => "functional",
    }
}
