//! Every call at the inputs that take it deepest, on the stack that is said to be
//! enough. Without the archive it is the second's calls that run, on a larger one.

use crate::expect::{start_with, state_length, START};
use crate::limits::{largest, MOST};
use crate::netlist::file;
use crate::nodes::*;
use peers::PROVED;
use second::table::BUILT_IN;
use values::{layout, Cell, Circuit, Format, Given, Part};

const STACK: usize = if cfg!(feature = "proved") {
    layout::STACK
} else {
    2 << 20
};

/// An overflow ends the whole test program.
fn on_a_small_stack(test: impl FnOnce() + Send + 'static) {
    let thread = std::thread::Builder::new().stack_size(STACK).spawn(test);
    thread.expect("a thread").join().expect("it passes");
}

/// A program around itself so many times.
fn nested(times: usize, inside: Vec<u8>, around: impl Fn(Vec<u8>) -> Vec<u8>) -> Vec<u8> {
    (0..times).fold(inside, |program, _| around(program))
}

/// 76 loops within each other around assignments to sixteen variables: 199 nodes.
pub fn deepest() -> Vec<u8> {
    let assignments = (1..16).fold(assign(0, variable(1), 1), |program, n| {
        sequence(program, assign(n, variable(0), 1))
    });
    (0..76).fold(assignments, |program, n| match n % 2 {
        0 => while_do(variable(0), 1, program),
        _ => repeat_until(program, variable(0), 1),
    })
}

/// Of each kind that has a child one within another, as deep as 200 nodes are.
fn deep() -> Vec<Vec<u8>> {
    let zero = || assign(0, constant(0), 1);
    let one = || assign(0, constant(1), 1);
    let value =
        |times, around: fn(Vec<u8>) -> Vec<u8>| assign(0, nested(times, variable(0), around), 255);
    vec![
        deepest(),
        nested(99, zero(), |p| while_do(variable(0), 1, p)),
        nested(99, one(), |p| repeat_until(p, variable(0), 1)),
        nested(66, tick(1), |p| if_then_else(constant(1), 1, p, ok())),
        nested(66, tick(1), |p| if_then_else(constant(0), 1, ok(), p)),
        nested(99, tick(1), |p| parallel(p, ok())),
        nested(99, tick(1), |p| parallel(ok(), p)),
        nested(99, tick(1), |p| sequence(p, ok())),
        nested(99, tick(1), |p| sequence(ok(), p)),
        value(198, |e| [node(3, 0, 0), e].concat()),
        value(99, |e| operation(6, e, variable(0))),
        value(99, |e| operation(6, variable(0), e)),
    ]
}

/// Those that no functional circuit has: 199 loops around an exit, elements of
/// elements, and eight bodies of loops around a call, each of the body before it.
fn deep_imperative() -> Vec<(usize, Vec<u8>)> {
    let loops = |times, inside| nested(times, inside, |p| loop_of(1, p));
    let first = loops(23, exit());
    let bodies = (0..7).flat_map(|number| loops(23, call(number, 1)));
    let main = loops(7, call(7, 1));
    let elements = |times| nested(times, variable(0), |e| element(0, e));
    vec![
        (0, loops(199, exit())),
        (0, assign(0, elements(63), 255)),
        (0, assign_element(0, elements(63), elements(63), 255)),
        (8, first.into_iter().chain(bodies).chain(main).collect()),
    ]
}

fn run_imperative(procedures: usize, program: &[u8]) {
    let table = BUILT_IN.file();
    let given = Given {
        table: Some(&table),
        ..Given::procedures(procedures)
    };
    let (room, state) = (vec![0; 6_656], vec![0; 42_000]);
    assert_eq!((PROVED.check)(given, program).result, Ok(()));
    assert!((PROVED.compile)(given, program, &room).result.is_ok());
    let ended = (PROVED.reference_run)(given, program, &START, 9_000);
    assert!(ended.result.is_ok());
    let ran = (PROVED.run_program)(given, program, &START, 9_000, &room, &state);
    assert!(ran.result.is_ok());
    let (values, work) = (vec![0; 2_048], vec![0; 1_049_088]);
    let slow = (PROVED.slow_run)(
        given.table,
        procedures,
        program,
        &START,
        900,
        &values,
        &work,
    );
    assert!(slow.result.is_ok());
}

fn run_functional(program: &[u8]) {
    let (table, functional) = (BUILT_IN.file(), PROVED.functional);
    let table = Some(&table[..]);
    let (room, state) = (vec![0; 100_352], vec![0; 300_000]);
    assert_eq!((functional.check)(table, program).result, Ok(()));
    assert!((functional.compile)(table, program, &room).result.is_ok());
    let ended = (functional.reference_run)(table, program, &START, 9_000);
    assert!(ended.result.is_ok());
    let ran = (functional.run_program)(table, program, &START, 9_000, &room, &state);
    assert!(ran.result.is_ok());
}

#[test]
fn programs() {
    for program in deep() {
        on_a_small_stack(move || {
            run_imperative(0, &program);
            run_functional(&program);
        });
    }
    for (procedures, program) in deep_imperative() {
        on_a_small_stack(move || run_imperative(procedures, &program));
    }
}

/// Two parts, the netlists of which are compiled before.
fn run_joined(programs: [Vec<u8>; 2]) {
    let room = vec![0; 6_656];
    let files = programs.each_ref().map(|program| {
        let compiled = (PROVED.compile)(Given::NOTHING, program, &room);
        let cells = usize::from(compiled.result.expect("it is accepted").cells);
        compiled.lent[0][..cells.div_ceil(84) * 512].to_vec()
    });
    let [first, second] = [0, 1].map(|part| Part {
        program: &programs[part],
        file: &files[part],
        pulse: 1,
    });
    let joined = (PROVED.join)(None, &[first, second], &room);
    assert!(joined.result.is_ok());
}

/// Of 98 nodes each, and as deep as can be beside one node.
#[test]
fn parts() {
    let many = || {
        (0..32).fold(assign(0, variable(1), 1), |program, n| {
            sequence(program, assign(n % 16, variable(0), 1))
        })
    };
    let loops = || nested(197, exit(), |p| loop_of(1, p));
    let whiles = || nested(98, ok(), |p| while_do(variable(0), 1, p));
    let sequences = || nested(98, ok(), |p| sequence(p, ok()));
    for programs in [
        [many(), many()],
        [loops(), ok()],
        [ok(), loops()],
        [whiles(), ok()],
        [ok(), sequences()],
    ] {
        on_a_small_stack(move || run_joined(programs));
    }
}

/// As long and as deep as a text may be.
#[test]
fn texts() {
    let nested = |[before, open, inside, close, after]: [&str; 5], times| {
        [
            before,
            &open.repeat(times),
            inside,
            &close.repeat(times),
            after,
        ]
        .concat()
    };
    for text in [
        nested(["x0:=", "(", "1", ")", "@1"], 2_044),
        nested(["", "{", "ok", "}", ""], 2_047),
        nested(["", "while x0@1 do ", "ok", " end", ""], 99),
        nested(["", "{ok||", "ok", "}", ""], 99),
        nested(["x0:=", "!", "1", "", "@255"], 198),
    ] {
        on_a_small_stack(move || {
            let (text, given) = (text.as_bytes(), Given::NOTHING);
            let (room, state) = (vec![0; 6_656], vec![0; 42_000]);
            assert!((PROVED.read_text)(given, text, &room).result.is_ok());
            assert!((PROVED.compile_text)(given, text, &room).result.is_ok());
            let ran = (PROVED.run_text)(given, text, &START, 9, &room, &state);
            assert!(ran.result.is_ok());
        });
    }
}

#[test]
fn netlists() {
    on_a_small_stack(|| {
        let (cells, finish) = largest();
        let (bytes, file) = (Cell::all_bytes(&cells), file(&cells, finish));
        assert!((PROVED.check_cells)(&cells, finish).result.is_ok());
        let written = (PROVED.write_cells)(1, &cells, finish, &file);
        assert!(written.result.is_ok());
        assert!((PROVED.write_netlist)(1, &bytes, finish, &file)
            .result
            .is_ok());
        assert!((PROVED.read_netlist)(&file, &bytes).result.is_ok());
        assert!((PROVED.read_cells)(&file, 0, &cells).result.is_ok());
        assert_eq!((PROVED.renumber)(0, MOST, 9, &bytes).result, Ok(true));
    });
}

/// A start is refused for what is in flight, after the whole state has been looked
/// at; on an idle state it is given.
#[test]
fn runs() {
    on_a_small_stack(|| {
        let (cells, finish) = largest();
        let file = file(&cells, finish);
        for circuit in Circuit::BOTH {
            for format in Format::BOTH {
                let state = vec![0; state_length(format, MOST)];
                let words = start_with([9]);
                let begun = PROVED.begin_of(circuit)(format, &file, &words, &state);
                assert!(begun.result.is_ok());
                let continued = PROVED.continue_of(circuit)(format, &file, 9_000, &begun.lent[0]);
                assert!(continued.result.is_ok_and(|answer| answer.ended));
                let started = PROVED.start_of(circuit)(format, &file, &continued.lent[0]);
                assert!(started.result.is_ok());
                let again = PROVED.start_of(circuit)(format, &file, &started.lent[0]);
                assert!(again.result.is_err_and(|refusal| refusal.number == 23));
            }
            let state = vec![0; state_length(Format::Full, MOST)];
            let ran = PROVED.run_netlist_of(circuit)(&file, &START, 9_000, &state);
            assert!(ran.result.is_ok_and(|answer| answer.ended));
        }
    });
}
