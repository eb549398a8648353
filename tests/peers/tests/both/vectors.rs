//! Every vector of tests/vectors against each implementation: numbers, places,
//! bytes, answers and text, exactly. Those of functional circuits stand in
//! `functional_vectors`.

use crate::expect::elements;
use crate::vector::*;
use peers::BOTH;
use second::calls;
use values::{Cell, Circuit, Given, Refusal, Shape};

/// More cells than any netlist has, all of a kind that none has.
static LENT_CELLS: [Cell; 16_500] = [Cell::new(0xa5, 0xa5, 0xa5a5, 0xa5a5); 16_500];

/// The folders with programs, with netlist files, and so on. Those of s05 have
/// arrays, those of s06 loops too, those of s07 second starts, those of s08
/// procedures, those of s09 compact states, those of s10 longer pulses, those of s11
/// functional circuits.
const PROGRAMS: [&str; 9] = [
    "program",
    "compile",
    "speed",
    "s05/compile",
    "s06/compile",
    "s07/compile",
    "s08/compile",
    "s10/compile",
    "s11/compile",
];
const NETLISTS: [&str; 6] = [
    "netlist",
    "s05/netlist",
    "s06/netlist",
    "s08/netlist",
    "s10/netlist",
    "s11/netlist",
];
const CALLS: [&str; 8] = [
    "calls",
    "s05/calls",
    "s06/calls",
    "s07/calls",
    "s08/calls",
    "s09/calls",
    "s10/calls",
    "s11/calls",
];
const STATES: [&str; 7] = [
    "state",
    "s05/state",
    "s07/state",
    "s08/state",
    "s09/state",
    "s10/state",
    "s11/state",
];
const RULES: [&str; 5] = [
    "s05/rules",
    "s06/rules",
    "s07/rules",
    "s08/rules",
    "s10/rules",
];
const HUBRUN: [&str; 4] = ["hubrun", "s05/hubrun", "s06/hubrun", "s08/hubrun"];

/// A program has what is told, or its netlist, or both.
#[test]
fn programs_are_compiled_or_refused_as_told() {
    for_each(&PROGRAMS, "prog", |vector, name| {
        if vector.circuit() == Circuit::Functional {
            return;
        }
        let (program, table) = (vector.bytes("prog"), vector.may_have("table"));
        let given = vector.given(&table);
        let compiled = (BOTH.compile)(given, &program, &LENT);
        let checked = (BOTH.check)(given, &program);
        assert_eq!(checked.result, compiled.result.map(drop), "{name}");
        let told = vector.may_have("expect").map(|_| vector.text("expect"));
        let shown = shape_text(compiled.result);
        assert_eq!(told.as_ref().unwrap_or(&shown), &shown, "{name}");
        match (vector.may_have("net"), compiled.result) {
            (Some(file), _) => assert_result(&compiled, &file, name),
            (None, Ok(_)) => assert!(told.is_some(), "{name}"),
            (None, Err(_)) => assert_result(&compiled, &[], name),
        }
    });
}

/// Under a table that is loaded, an operator's delay is its time or longer.
#[test]
fn tables_are_loaded_or_refused_as_told() {
    for_each(&["s05/table"], "table", |vector, name| {
        let (table, told) = (vector.bytes("table"), vector.text("expect"));
        let check = |program: &[u8]| (BOTH.check)(Given::table(Some(&table)), program).result;
        let Some(times) = told.strip_prefix("ok ") else {
            let refusal = check(&[]).expect_err("it is refused");
            return assert_eq!(refusal.to_string(), told, "{name}");
        };
        let times = times.split(' ').map(|time| time.parse().expect("a time"));
        for (kind, time) in (1..).zip(times).skip(2) {
            assert_eq!(check(&timed(kind, time)), Ok(()), "{name}: {kind}");
            let sooner = check(&timed(kind, time - 1));
            assert_eq!(sooner, Err(Refusal::new(7, 0)), "{name}: {kind}");
        }
    });
}

/// x0 := an operation on constants, with this delay.
fn timed(kind: u8, delay: u8) -> Vec<u8> {
    let operands = if [3, 10].contains(&kind) { 1 } else { 2 };
    let head = [[18, delay, 0, 0], [kind, 0, 0, 0]].concat();
    [head, [1, 0, 0, 0].repeat(operands)].concat()
}

#[test]
fn netlists_are_accepted_or_refused_as_told() {
    for_each(&NETLISTS, "net", |vector, name| {
        let file = vector.bytes("net");
        let read = (BOTH.read_netlist)(&file, &LENT);
        assert_eq!(shape_text(read.result), vector.text("expect"), "{name}");
        match read.result {
            Ok(shape) => assert_writing_restores(&file, shape, &read.lent[0], name),
            Err(_) => assert_result(&read, &[], name),
        }
    });
}

/// An accepted file is the one that writing its cells gives.
fn assert_writing_restores(file: &[u8], shape: Shape, cells: &[u8], name: &str) {
    let cells = &cells[..6 * usize::from(shape.cells)];
    let written = (BOTH.write_netlist)(pulse_of(file), cells, shape.finish, &LENT);
    assert_eq!(written.result, Ok(shape), "{name}");
    assert_result(&written, file, name);
}

#[test]
fn netlists_are_read_as_cells_and_written_back() {
    let compiled = &PROGRAMS[1..];
    let folders = [compiled, &NETLISTS, &CALLS, &STATES].concat();
    for_each(&folders, "net", |vector, name| {
        let file = vector.bytes("net");
        let read = (BOTH.read_cells)(&file, 0, &LENT_CELLS);
        let by_bytes = (BOTH.read_netlist)(&file, &LENT);
        assert_eq!(read.result, by_bytes.result, "{name}");
        let count = read.result.map_or(0, |shape| usize::from(shape.cells));
        let (cells, past) = read.lent[0].split_at(count);
        let bytes = &by_bytes.lent[0][..6 * count];
        assert!(Cell::all_bytes(cells) == bytes, "{name}: other cells");
        let kept = &LENT_CELLS[count..];
        assert!(past == kept, "{name}: cells past the result");
        if let Ok(shape) = read.result {
            assert_cells_restore(&file, shape, cells, name);
        }
    });
}

/// An accepted file's cells pass the check and are written as that file.
fn assert_cells_restore(file: &[u8], shape: Shape, cells: &[Cell], name: &str) {
    let finish = shape.finish;
    assert_eq!((BOTH.check_cells)(cells, finish).result, Ok(()), "{name}");
    let written = (BOTH.write_cells)(pulse_of(file), cells, finish, &LENT);
    assert_eq!(written.result, Ok(shape), "{name}");
    assert_result(&written, file, name);
}

/// The pulse length in an accepted file.
fn pulse_of(file: &[u8]) -> u8 {
    file[1] + 1
}

/// A file that is refused for its cells has them refused without a file too.
#[test]
fn cells_that_break_a_rule_are_refused_as_in_their_file() {
    for_each(&NETLISTS, "net", |vector, name| {
        let told = vector.text("expect");
        if told.starts_with("refused 12 ") {
            let (cells, finish) = cells_in(&vector.bytes("net"));
            let refusal = (BOTH.check_cells)(&cells, finish).result.err();
            let shown = refusal.map(|refusal| refusal.to_string());
            assert_eq!(shown, Some(told), "{name}");
            let written = (BOTH.write_cells)(1, &cells, finish, &LENT);
            assert_eq!(written.result.err(), refusal, "{name}");
            assert_result(&written, &[], name);
        }
    });
}

/// The cells and the finish in a file whose headers are right.
fn cells_in(file: &[u8]) -> (Vec<Cell>, u16) {
    let number = |at: usize| u16::from_le_bytes([file[at], file[at + 1]]);
    let blocks = file.chunks_exact(512);
    let cells = blocks.flat_map(|block| Cell::all_of(&block[8..]));
    let count = usize::from(number(2));
    (cells.take(count).collect(), number(4))
}

#[test]
fn calls_answer_and_leave_the_states_told() {
    for_each(&CALLS, "script", |vector, name| {
        let (script, states) = (vector.text("script"), vector.bytes("states"));
        let length = states.len() / script.lines().count();
        let mut state = LENT.to_vec();
        for ((call, answer), expected) in lines(&script).zip(states.chunks_exact(length)) {
            let reply = vector.call(call, &state);
            let name = format!("{name}: {call}");
            assert_eq!(answer_text(reply.result), answer, "{name}");
            assert_result(&reply, expected, &name);
            state.clone_from(&reply.lent[0]);
        }
    });
}

#[test]
fn states_of_any_origin_are_begun_continued_or_refused_as_told() {
    for_each(&STATES, "before", |vector, name| {
        let reply = vector.call(&vector.text("call"), &vector.bytes("before"));
        assert_eq!(answer_text(reply.result), vector.text("expect"), "{name}");
        assert!(
            reply.lent[0] == vector.bytes("after"),
            "{name}: other bytes"
        );
    });
}

/// The rules end as told, and so does the circuit, whose state shows the last
/// words of the arrays.
#[test]
fn rules_and_circuits_come_to_the_end_told() {
    for_each(&RULES, "prog", |vector, name| {
        let (program, words) = (vector.bytes("prog"), vector.bytes("words"));
        let (table, budget) = (vector.may_have("table"), vector.number("budget"));
        let given = vector.given(&table);
        let ended = (BOTH.reference_run)(given, &program, &words, budget).result;
        let ran = (BOTH.run_program)(given, &program, &words, budget, &LENT, &LENT);
        let answer = ran.result.expect("it is accepted");
        let Some(last) = vector.may_have("last") else {
            assert_eq!(vector.text("expect"), "open", "{name}");
            assert_eq!((ended, answer.ended), (Ok(None), false), "{name}");
            return;
        };
        let end = ended.expect("it is accepted").expect("it ends");
        assert_eq!(
            vector.text("expect"),
            format!("end {}", end.instant),
            "{name}"
        );
        assert_eq!(
            (answer.ended, answer.instant),
            (true, end.instant),
            "{name}"
        );
        assert_eq!(
            end.words.map(u16::to_le_bytes).concat(),
            last[..32],
            "{name}"
        );
        assert_eq!(answer.words, end.words, "{name}");
        assert_eq!(elements(&ran.lent), &last[32..], "{name}");
        let by_second = calls::last_moment(given, &program, &words, budget);
        let moment = by_second.ok().flatten().expect("it ends");
        assert_eq!(moment.contents.bytes(), last, "{name}");
    });
}

#[test]
fn hubrun_prints_the_text_told() {
    for_each(&HUBRUN, "in", |vector, name| {
        let text = (BOTH.hubrun_text)(&vector.bytes("in"));
        assert_eq!(text, vector.bytes("out"), "{name}");
    });
}
