//! Programs with their circuits, as commands have them.

use crate::programs::Program;
use hub::assemble;
use hub::input::{Circuit, Form, Given};
use hub::store::Store;
use hub::types::Beside;
use hub::wave::course::Course;
use hub::wave::{record, Waveforms, Wire};

/// The circuit of a program.
pub fn of_program(program: &Program) -> Circuit {
    of(Form::Program, program.beside(), &program.bytes)
}

/// The functional circuit of a program.
pub fn functional(program: &Program) -> Circuit {
    of(Form::Program, Beside::FUNCTIONAL, &program.bytes)
}

/// The functional circuit of a text.
pub fn functional_of_text(text: &str) -> Circuit {
    of(Form::Text, Beside::FUNCTIONAL, text.as_bytes())
}

/// The circuit of a text.
pub fn of_text(text: &str) -> Circuit {
    of(Form::Text, Beside::NOTHING, text.as_bytes())
}

/// The circuit of a list.
pub fn of_list(text: &str) -> Circuit {
    of(Form::List, Beside::NOTHING, text.as_bytes())
}

/// The circuit of an outline.
pub fn of_outline(text: &str) -> Circuit {
    let procedures = assemble::assemble(text).expect("an outline").procedures;
    of(
        Form::Outline,
        Beside::procedures(procedures),
        text.as_bytes(),
    )
}

fn of(form: Form, beside: Beside, bytes: &[u8]) -> Circuit {
    let mut given = Given {
        name: "a program".to_string(),
        form,
        bytes: bytes.to_vec(),
        aside: beside.into(),
        long: None,
    };
    if form == Form::Text {
        given.read_long().expect("a text");
        given.aside.procedures = given.source().expect("a text").procedures;
    }
    given.circuit().expect("an accepted program")
}

/// The waves of a run of a circuit that is started again at these instants.
pub fn recorded(
    circuit: &Circuit,
    (start, starts): (&Store, &[u32]),
    wires: Vec<Wire>,
    from: u32,
    to: u32,
) -> Waveforms {
    let mut course = Course::begin(&circuit.file, start, starts).expect("a run");
    let cells = circuit.netlist.cells.len();
    record::record(&mut course, cells, wires, from, to).expect("a run")
}
