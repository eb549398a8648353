//! What is given beside a program.

/// A table of operator times; with none the built-in one serves.
pub type Table<'a> = Option<&'a [u8]>;

/// All that is given beside a program, as one value.
#[derive(Clone, Copy, Debug, PartialEq, Eq)]
pub struct Given<'a> {
    pub table: Table<'a>,
    /// How many procedures stand before the main program.
    pub procedures: usize,
    /// The instants for which a pulse is high.
    pub pulse: u8,
}

impl<'a> Given<'a> {
    /// No table, no procedures, and pulses of one instant.
    pub const NOTHING: Given<'static> = Given {
        table: None,
        procedures: 0,
        pulse: 1,
    };

    /// A table that may be given, and nothing else.
    pub const fn table(table: Table<'a>) -> Given<'a> {
        Given {
            table,
            ..Given::NOTHING
        }
    }

    /// So many procedures, and nothing else.
    pub const fn procedures(procedures: usize) -> Given<'static> {
        Given {
            procedures,
            ..Given::NOTHING
        }
    }

    /// Pulses of this length, and nothing else.
    pub const fn pulse(pulse: u8) -> Given<'static> {
        Given {
            pulse,
            ..Given::NOTHING
        }
    }
}
