//! The boundary behind which an implementation stands.
//!
//! A peer is twenty plain functions on numbers and slices of bytes or cells, and
//! eight more on functional circuits. Nothing is lent to them: each is given what a lent buffer holds at entry and
//! gives back what it holds afterwards, so two peers are compared by comparing
//! replies.

use values::{Answer, Cell, Circuit, End, Format, Given, Part, Refusal, Shape, Table};

/// What a call answered, and its lent buffers afterwards, in argument order.
#[derive(Clone, Debug, PartialEq, Eq)]
pub struct Reply<T, Element = u8> {
    pub result: Result<T, Refusal>,
    pub lent: Vec<Vec<Element>>,
}

impl<T> Reply<T> {
    /// Of a call that is lent nothing.
    pub fn lending_none(result: Result<T, Refusal>) -> Reply<T> {
        let lent = vec![];
        Reply { result, lent }
    }

    /// Of a call that is lent copies of two buffers.
    pub fn lending_two(
        first: &[u8],
        second: &[u8],
        call: impl FnOnce(&mut [u8], &mut [u8]) -> Result<T, Refusal>,
    ) -> Reply<T> {
        let (mut first, mut second) = (first.to_vec(), second.to_vec());
        let result = call(&mut first, &mut second);
        let lent = vec![first, second];
        Reply { result, lent }
    }
}

impl<T, Element: Clone> Reply<T, Element> {
    /// Of a call that is lent a copy of a buffer.
    pub fn lending(
        buffer: &[Element],
        call: impl FnOnce(&mut [Element]) -> Result<T, Refusal>,
    ) -> Reply<T, Element> {
        let mut buffer = buffer.to_vec();
        let result = call(&mut buffer);
        let lent = vec![buffer];
        Reply { result, lent }
    }
}

pub type Bytes<'a> = &'a [u8];

/// format of the state, netlist file, start words; lent: state
pub type Begin = fn(Format, Bytes, Bytes, Bytes) -> Reply<Answer>;
/// format of the state, netlist file, number of instants; lent: state
pub type Continue = fn(Format, Bytes, u32, Bytes) -> Reply<Answer>;
/// format of the state, netlist file; lent: state
pub type Start = fn(Format, Bytes, Bytes) -> Reply<Answer>;
/// netlist file, start words, budget; lent: state
pub type RunNetlist = fn(Bytes, Bytes, u32, Bytes) -> Reply<Answer>;

#[derive(Clone, Copy)]
pub struct Peer {
    pub name: &'static str,
    /// given, program
    pub check: fn(Given, Bytes) -> Reply<()>,
    /// given, program; lent: netlist file
    pub compile: fn(Given, Bytes, Bytes) -> Reply<Shape>,
    /// table, parts; lent: netlist file
    pub join: fn(Table, &[Part], Bytes) -> Reply<Shape>,
    /// given, text; lent: program; tells the program's bytes
    pub read_text: fn(Given, Bytes, Bytes) -> Reply<usize>,
    /// given, text; lent: netlist file
    pub compile_text: fn(Given, Bytes, Bytes) -> Reply<Shape>,
    /// pulse length, cells of six bytes, finish; lent: netlist file
    pub write_netlist: fn(u8, Bytes, u16, Bytes) -> Reply<Shape>,
    /// netlist file; lent: cells of six bytes
    pub read_netlist: fn(Bytes, Bytes) -> Reply<Shape>,
    /// cells, finish
    pub check_cells: fn(&[Cell], u16) -> Reply<()>,
    /// pulse length, cells, finish; lent: netlist file
    pub write_cells: fn(u8, &[Cell], u16, Bytes) -> Reply<Shape>,
    /// netlist file, number of the cells that it is read behind; lent: cells
    pub read_cells: fn(Bytes, usize, &[Cell]) -> Reply<Shape, Cell>,
    /// from, up to, by; lent: cells of six bytes; tells whether it has them
    pub renumber: fn(usize, usize, u16, Bytes) -> Reply<bool>,
    pub begin: Begin,
    pub continue_by: Continue,
    pub start: Start,
    /// given, program, start words, budget; lent: netlist file, state
    pub run_program: fn(Given, Bytes, Bytes, u32, Bytes, Bytes) -> Reply<Answer>,
    /// table, number of procedures, program, start words, budget; lent: values, work
    pub slow_run: fn(Table, usize, Bytes, Bytes, u32, Bytes, Bytes) -> Reply<Answer>,
    /// given, text, start words, budget; lent: netlist file, state
    pub run_text: fn(Given, Bytes, Bytes, u32, Bytes, Bytes) -> Reply<Answer>,
    pub run_netlist: RunNetlist,
    /// given, program, start words, budget; no end is one beyond the budget
    pub reference_run: fn(Given, Bytes, Bytes, u32) -> Reply<Option<End>>,
    /// standard input to standard output
    pub hubrun_text: fn(Bytes) -> Vec<u8>,
    /// standard input to standard output
    pub hubtext_bytes: fn(Bytes) -> Vec<u8>,
    pub functional: Functional,
}

/// The calls on functional circuits. Beside a program they are given a table alone.
#[derive(Clone, Copy)]
pub struct Functional {
    /// table, program
    pub check: fn(Table, Bytes) -> Reply<()>,
    /// table, program; lent: netlist file
    pub compile: fn(Table, Bytes, Bytes) -> Reply<Shape>,
    pub begin: Begin,
    pub continue_by: Continue,
    pub start: Start,
    /// table, program, start words, budget; lent: netlist file, state
    pub run_program: fn(Table, Bytes, Bytes, u32, Bytes, Bytes) -> Reply<Answer>,
    pub run_netlist: RunNetlist,
    /// table, program, start words, budget; no end is one beyond the budget
    pub reference_run: fn(Table, Bytes, Bytes, u32) -> Reply<Option<End>>,
}

/// The calls by the circuit that they are about.
impl Peer {
    pub fn begin_of(&self, circuit: Circuit) -> Begin {
        match circuit {
            Circuit::Imperative => self.begin,
            Circuit::Functional => self.functional.begin,
        }
    }

    pub fn continue_of(&self, circuit: Circuit) -> Continue {
        match circuit {
            Circuit::Imperative => self.continue_by,
            Circuit::Functional => self.functional.continue_by,
        }
    }

    pub fn start_of(&self, circuit: Circuit) -> Start {
        match circuit {
            Circuit::Imperative => self.start,
            Circuit::Functional => self.functional.start,
        }
    }

    pub fn run_netlist_of(&self, circuit: Circuit) -> RunNetlist {
        match circuit {
            Circuit::Imperative => self.run_netlist,
            Circuit::Functional => self.functional.run_netlist,
        }
    }
}

/// The peer of an implementation whose calls are the functions of `calls`,
/// `cell_calls` and `functional_calls` where this stands, and whose programs are
/// given.
macro_rules! implementation {
    (begin of $calls:ident) => {
        |format, file, words, state| {
            Reply::lending(state, |state| $calls::begin(format, file, words, state))
        }
    };
    (continue of $calls:ident) => {
        |format, file, n, state| {
            Reply::lending(state, |state| $calls::continue_by(format, file, state, n))
        }
    };
    (start of $calls:ident) => {
        |format, file, state| Reply::lending(state, |state| $calls::start(format, file, state))
    };
    (run of $calls:ident) => {
        |file, words, budget, state| {
            Reply::lending(state, |state| $calls::run_netlist(file, words, budget, state))
        }
    };
    ($($programs:tt)*) => {{
        use crate::peer::Reply;
        Peer {
            check: |given, program| Reply::lending_none(calls::check(given, program)),
            compile: |given, program, file| {
                Reply::lending(file, |file| calls::compile(given, program, file))
            },
            join: |table, parts, file| {
                Reply::lending(file, |file| calls::join(table, parts, file))
            },
            read_text: |given, text, program| {
                Reply::lending(program, |program| calls::read_text(given, text, program))
            },
            compile_text: |given, text, file| {
                Reply::lending(file, |file| calls::compile_text(given, text, file))
            },
            write_netlist: |pulse, cells, finish, file| {
                Reply::lending(file, |file| calls::write_netlist(pulse, cells, finish, file))
            },
            read_netlist: |file, cells| {
                Reply::lending(cells, |cells| calls::read_netlist(file, cells))
            },
            check_cells: |cells, finish| Reply::lending_none(cell_calls::check(cells, finish)),
            write_cells: |pulse, cells, finish, file| {
                Reply::lending(file, |file| cell_calls::write(pulse, cells, finish, file))
            },
            read_cells: |file, at, cells| {
                Reply::lending(cells, |cells| cell_calls::read(file, at, cells))
            },
            begin: implementation!(begin of calls),
            continue_by: implementation!(continue of calls),
            start: implementation!(start of calls),
            run_netlist: implementation!(run of calls),
            renumber: |from, end, by, cells| {
                Reply::lending(cells, |cells| {
                    Ok(cell_calls::renumber(cells, from, end, by))
                })
            },
            run_program: |given, program, words, budget, file, state| {
                Reply::lending_two(file, state, |file, state| {
                    calls::run_program(given, program, words, budget, file, state)
                })
            },
            slow_run: |table, procedures, program, words, budget, values, work| {
                Reply::lending_two(values, work, |values, work| {
                    calls::slow_run(table, procedures, program, words, budget, values, work)
                })
            },
            run_text: |given, text, words, budget, file, state| {
                Reply::lending_two(file, state, |file, state| {
                    calls::run_text(given, text, words, budget, file, state)
                })
            },
            reference_run: |given, program, words, budget| {
                Reply::lending_none(calls::reference_run(given, program, words, budget))
            },
            functional: crate::peer::Functional {
                check: |table, program| {
                    Reply::lending_none(functional_calls::check(table, program))
                },
                compile: |table, program, file| {
                    Reply::lending(file, |file| functional_calls::compile(table, program, file))
                },
                begin: implementation!(begin of functional_calls),
                continue_by: implementation!(continue of functional_calls),
                start: implementation!(start of functional_calls),
                run_program: |table, program, words, budget, file, state| {
                    Reply::lending_two(file, state, |file, state| {
                        functional_calls::run_program(table, program, words, budget, file, state)
                    })
                },
                run_netlist: implementation!(run of functional_calls),
                reference_run: |table, program, words, budget| {
                    Reply::lending_none(functional_calls::reference_run(
                        table, program, words, budget,
                    ))
                },
            },
            $($programs)*
        }
    }};
}

pub(crate) use implementation;
