//! The reply of every exported function that has one: without room for 48 bytes
//! nothing is done, and bytes past them are kept.

use bindings::exports::*;
use peers::SECOND;
use second::table::BUILT_IN;
use values::layout::REPLY as LENGTH;
use values::{Cell, Circuit, Format, Given};

/// The first byte of a reply, where a call was refused.
const REFUSED: u8 = 3;

const LENT_BYTE: u8 = 0xa5;

/// Case 2, as text and as bytes.
const TEXT: &[u8] = b"x0 := 5 @1";
const PROGRAM: [u8; 8] = [18, 1, 0, 0, 1, 0, 5, 0];

/// All that a call is given or lent.
#[derive(Clone, Debug, PartialEq, Eq)]
struct Memory {
    program: Vec<u8>,
    table: Vec<u8>,
    words: Vec<u8>,
    lengths: Vec<u32>,
    parts: Vec<u8>,
    bytes: Vec<u8>,
    cells: Vec<Cell>,
    finish: u16,
    lent_program: Vec<u8>,
    lent_file: Vec<u8>,
    lent_bytes: Vec<u8>,
    lent_cells: Vec<Cell>,
    lent_state: Vec<u8>,
    lent_work: Vec<u8>,
    plain: States,
    functional: States,
}

/// A netlist, and states of it: begun ones and such as a start may be given to.
#[derive(Clone, Debug, PartialEq, Eq)]
struct States {
    netlist: Vec<u8>,
    lent_state: Vec<u8>,
    idle_state: Vec<u8>,
    compact_state: Vec<u8>,
    idle_compact: Vec<u8>,
}

impl States {
    /// The states were begun from other words than those of the memory, so that a
    /// beginning shows too; a start is given at the end of that run.
    fn of(circuit: Circuit, netlist: Vec<u8>) -> States {
        let [(lent_state, idle_state), (compact_state, idle_compact)] =
            Format::BOTH.map(|format| {
                let begin = SECOND.begin_of(circuit);
                let begun = begin(format, &netlist, &[0; 544], &[LENT_BYTE; 3_000]);
                let ended = SECOND.continue_of(circuit)(format, &netlist, 10, &begun.lent[0]);
                (begun.lent[0].clone(), ended.lent[0].clone())
            });
        States {
            netlist,
            lent_state,
            idle_state,
            compact_state,
            idle_compact,
        }
    }
}

impl Memory {
    /// What every call accepts.
    fn new() -> Memory {
        let compiled = (SECOND.compile)(Given::NOTHING, &PROGRAM, &[0; 512]);
        let shape = compiled.result.expect("case 2 compiles");
        let functional = (SECOND.functional.compile)(None, &PROGRAM, &[0; 512]);
        let lent_cell = Cell::new(LENT_BYTE, LENT_BYTE, 0, 0);
        let count = usize::from(shape.cells);
        let read = (SECOND.read_cells)(&compiled.lent[0], 0, &vec![lent_cell; count]);
        Memory {
            program: PROGRAM.to_vec(),
            table: BUILT_IN.file().to_vec(),
            words: vec![1; 544],
            lengths: [PROGRAM.len() as u32, 512].repeat(2),
            parts: [&PROGRAM[..], &compiled.lent[0]].concat().repeat(2),
            bytes: Cell::all_bytes(&read.lent[0]),
            cells: read.lent[0].clone(),
            finish: shape.finish,
            lent_program: vec![LENT_BYTE; 100],
            lent_file: vec![LENT_BYTE; 600],
            lent_bytes: vec![LENT_BYTE; 6 * (count + 1)],
            lent_cells: vec![lent_cell; count + 2],
            lent_state: vec![LENT_BYTE; 3_000],
            lent_work: vec![LENT_BYTE; 512 * (2 * count + 1)],
            plain: States::of(Circuit::Imperative, compiled.lent[0].clone()),
            functional: States::of(Circuit::Functional, functional.lent[0].clone()),
        }
    }
}

/// Rows of a function and what it is given: `m` is the memory, and the reply
/// is lent last.
macro_rules! calls {
    ($m:ident: $($export:ident($($given:expr),*);)*) => {
        &[$((
            stringify!($export),
            |$m, reply| $export($($given,)* reply),
        )),*]
    };
}

type Call = fn(&mut Memory, &mut [u8]) -> bool;

/// The functions that lend nothing but the reply.
const ANSWERING: &[(&str, Call)] = calls! { m:
    hub_check(None, 0, 1, &m.program);
    hub_check(Some(&m.table), 0, 8, &m.program);
    hub_reference(None, 0, 1, &m.program, &m.words, 10);
    hub_reference(Some(&m.table), 0, 8, &m.program, &m.words, 10);
    hub_check_cells(&m.cells, m.finish);
    hub_check_functional(None, &m.program);
    hub_check_functional(Some(&m.table), &m.program);
    hub_reference_functional(None, &m.program, &m.words, 10);
    hub_reference_functional(Some(&m.table), &m.program, &m.words, 10);
};

/// The functions that write to another slice.
const WRITING: &[(&str, Call)] = calls! { m:
    hub_compile(None, 0, 1, &m.program, &mut m.lent_file);
    hub_compile(Some(&m.table), 0, 8, &m.program, &mut m.lent_file);
    hub_join(None, &m.lengths, &[1, 1], &m.parts, &mut m.lent_file);
    hub_join(Some(&m.table), &m.lengths, &[1, 1], &m.parts, &mut m.lent_file);
    hub_read_text(None, 0, 1, TEXT, &mut m.lent_program);
    hub_read_text(Some(&m.table), 0, 8, TEXT, &mut m.lent_program);
    hub_compile_text(None, 0, 1, TEXT, &mut m.lent_file);
    hub_compile_text(Some(&m.table), 0, 8, TEXT, &mut m.lent_file);
    hub_write(1, &m.bytes, m.finish, &mut m.lent_file);
    hub_read(&m.plain.netlist, &mut m.lent_bytes);
    hub_begin(&m.plain.netlist, &m.words, &mut m.plain.lent_state);
    hub_continue(&m.plain.netlist, &mut m.plain.lent_state, 1);
    hub_start(&m.plain.netlist, &mut m.plain.idle_state);
    hub_begin_compact(&m.plain.netlist, &m.words, &mut m.plain.compact_state);
    hub_continue_compact(&m.plain.netlist, &mut m.plain.compact_state, 1);
    hub_start_compact(&m.plain.netlist, &mut m.plain.idle_compact);
    hub_run_program(None, 0, 1, &m.program, &m.words, 10, &mut m.lent_file, &mut m.lent_state);
    hub_run_program(Some(&m.table), 0, 8, &m.program, &m.words, 10, &mut m.lent_file, &mut m.lent_state);
    hub_slow_run(None, 0, &m.program, &m.words, 10, &mut m.lent_file, &mut m.lent_work);
    hub_slow_run(Some(&m.table), 0, &m.program, &m.words, 10, &mut m.lent_file, &mut m.lent_work);
    hub_run_text(None, 0, 1, TEXT, &m.words, 10, &mut m.lent_file, &mut m.lent_state);
    hub_run_text(Some(&m.table), 0, 8, TEXT, &m.words, 10, &mut m.lent_file, &mut m.lent_state);
    hub_run_netlist(&m.plain.netlist, &m.words, 10, &mut m.plain.lent_state);
    hub_write_cells(8, &m.cells, m.finish, &mut m.lent_file);
    hub_read_cells(&m.plain.netlist, 2, &mut m.lent_cells);
    hub_compile_functional(None, &m.program, &mut m.lent_file);
    hub_compile_functional(Some(&m.table), &m.program, &mut m.lent_file);
    hub_begin_functional(&m.functional.netlist, &m.words, &mut m.functional.lent_state);
    hub_continue_functional(&m.functional.netlist, &mut m.functional.lent_state, 1);
    hub_start_functional(&m.functional.netlist, &mut m.functional.idle_state);
    hub_begin_functional_compact(&m.functional.netlist, &m.words, &mut m.functional.compact_state);
    hub_continue_functional_compact(&m.functional.netlist, &mut m.functional.compact_state, 1);
    hub_start_functional_compact(&m.functional.netlist, &mut m.functional.idle_compact);
    hub_run_functional(&m.functional.netlist, &m.words, 10, &mut m.functional.lent_state);
    hub_run_functional_program(None, &m.program, &m.words, 10, &mut m.lent_file, &mut m.lent_state);
    hub_run_functional_program(Some(&m.table), &m.program, &m.words, 10, &mut m.lent_file, &mut m.lent_state);
};

#[test]
fn without_room_for_a_reply_nothing_is_done() {
    let before = Memory::new();
    for (name, call) in ANSWERING.iter().chain(WRITING) {
        for length in 0..LENGTH {
            let (mut memory, mut reply) = (before.clone(), vec![LENT_BYTE; length]);
            assert!(!call(&mut memory, &mut reply), "{name}, {length} bytes");
            assert_eq!(memory, before, "{name}, {length} bytes");
            assert_eq!(reply, vec![LENT_BYTE; length], "{name}, {length} bytes");
        }
    }
}

/// What was left undone above is done with room, so that it could be seen.
#[test]
fn with_room_for_a_reply_the_calls_are_done() {
    let before = Memory::new();
    for (calls, writes) in [(ANSWERING, false), (WRITING, true)] {
        for (name, call) in calls {
            let (mut memory, mut reply) = (before.clone(), [LENT_BYTE; LENGTH]);
            assert!(call(&mut memory, &mut reply), "{name}");
            assert_ne!(reply[0], REFUSED, "{name}");
            assert_eq!(memory != before, writes, "{name}");
        }
    }
}

#[test]
fn bytes_past_a_reply_are_kept() {
    let before = Memory::new();
    for (name, call) in ANSWERING.iter().chain(WRITING) {
        let (mut reply, mut longer) = ([0; LENGTH], [LENT_BYTE; LENGTH + 20]);
        assert!(call(&mut before.clone(), &mut reply), "{name}");
        assert!(call(&mut before.clone(), &mut longer), "{name}");
        assert_eq!(longer[..LENGTH], reply, "{name}");
        assert_eq!(longer[LENGTH..], [LENT_BYTE; 20], "{name}");
    }
}
