//! What the options say beside a program, as one value.

use crate::args::Args;
use crate::files;
use crate::types::{Beside, Fault, Wiring};

#[derive(Clone, Debug)]
pub struct Aside {
    /// The name and bytes of a table of operator times.
    pub times: Option<(String, Vec<u8>)>,
    /// How many procedures the program has, as --procedures says, an outline's headings
    /// or a long text.
    pub procedures: usize,
    /// The pulse length that it is compiled for.
    pub pulse: u8,
    /// The circuit that is made of it.
    pub wiring: Wiring,
}

impl Aside {
    /// Reads the options, and the file of --times.
    pub fn of(args: &Args) -> Result<Aside, Fault> {
        let times = match args.value("times") {
            Some(table) => Some((table.to_string(), files::read(table)?)),
            None => None,
        };
        Ok(Aside {
            times,
            procedures: args.number("procedures")?.unwrap_or(0) as usize,
            pulse: args.byte("pulse")?.unwrap_or(1),
            wiring: match args.flag("functional") {
                true => Wiring::Functional,
                false => Wiring::Imperative,
            },
        })
    }

    /// As the product takes it.
    pub fn lent(&self) -> Beside<'_> {
        let table = self.times.as_ref().map(|(_, bytes)| bytes.as_slice());
        Beside {
            table,
            procedures: self.procedures,
            pulse: self.pulse,
            wiring: self.wiring,
        }
    }
}

impl From<Beside<'_>> for Aside {
    fn from(beside: Beside) -> Aside {
        let named = |table: &[u8]| ("a table".to_string(), table.to_vec());
        Aside {
            times: beside.table.map(named),
            procedures: beside.procedures,
            pulse: beside.pulse,
            wiring: beside.wiring,
        }
    }
}
