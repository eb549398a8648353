//! Every vector of functional circuits. The wiring is free, so that each compiler's
//! netlist is run, by both simulators, and none is compared byte by byte.

use crate::expect::START;
use crate::functional::compiled;
use crate::run::Run;
use crate::vector::*;
use peers::BOTH;
use values::{Circuit, Format};

#[test]
fn programs_are_compiled_or_refused_as_told() {
    for_each(&["s11/compile"], "prog", |vector, name| {
        if vector.circuit() == Circuit::Imperative {
            return;
        }
        let (program, table) = (vector.bytes("prog"), vector.may_have("table"));
        let checked = (BOTH.functional.check)(table.as_deref(), &program).result;
        let told = checked.map_or_else(|refusal| refusal.to_string(), |()| "ok".to_string());
        assert_eq!(told, vector.text("expect"), "{name}");
        let compiled = (BOTH.functional.compile)(table.as_deref(), &program, &LENT);
        assert_eq!(compiled.result.map(drop), checked, "{name}");
        if checked.is_err() {
            assert_result(&compiled, &[], name);
        }
    });
}

/// A beginning without room for a state is refused for that alone where the file is
/// good.
#[test]
fn netlists_are_read_for_a_functional_run_or_refused_as_told() {
    for_each(&["s11/netlist"], "net", |vector, name| {
        let file = vector.bytes("net");
        let begun = (BOTH.functional.begin)(Format::Full, &file, &START, &[]);
        let refusal = begun.result.expect_err("no room for a state").to_string();
        let read = (BOTH.read_netlist)(&file, &LENT);
        let told = match refusal.as_str() {
            "refused 14 0" => shape_text(read.result),
            _ => refusal,
        };
        assert_eq!(told, vector.text("expectf"), "{name}");
    });
}

/// The rules and both circuits end as told.
#[test]
fn rules_and_circuits_come_to_the_end_told() {
    for_each(&["s11/functional"], "prog", |vector, name| {
        let (program, table) = (vector.bytes("prog"), vector.may_have("table"));
        let (words, budget) = (with_arrays(vector), vector.number("budget"));
        let ended = (BOTH.functional.reference_run)(table.as_deref(), &program, &words, budget);
        let end = ended.result.expect("it is accepted");
        let told = end.map_or("open".to_string(), |end| format!("end {}", end.instant));
        assert_eq!(told, vector.text("expect"), "{name}");
        let last = vector.may_have("last");
        let words_told = end.map(|end| end.words.map(u16::to_le_bytes).concat());
        assert_eq!(words_told, last, "{name}");
        for file in compiled(table.as_deref(), &program) {
            let lent = Run::lent(Circuit::Functional, Format::Full, &file).state;
            let ran = (BOTH.functional.run_netlist)(&file, &words, budget, &lent);
            let answer = ran.result.expect("it is accepted");
            let shown = answer.ended.then_some((answer.instant, answer.words));
            assert_eq!(shown, end.map(|end| (end.instant, end.words)), "{name}");
        }
    });
}

/// Start words of 32 bytes, with arrays that are 0.
fn with_arrays(vector: &Vector) -> Vec<u8> {
    let mut words = vector.bytes("words");
    words.resize(START.len(), 0);
    words
}

/// Where the words are free nothing is asked of them.
#[test]
fn calls_answer_as_told_on_states_of_both_formats() {
    for_each(&["s11/fcalls"], "script", |vector, name| {
        let (program, table) = (vector.bytes("prog"), vector.may_have("table"));
        let (words, script) = (with_arrays(vector), vector.text("script"));
        for file in compiled(table.as_deref(), &program) {
            for format in Format::BOTH {
                let mut run = Run::lent(Circuit::Functional, format, &file);
                for (line, answer) in lines(&script) {
                    let reply = call(
                        (Circuit::Functional, format),
                        line,
                        &file,
                        &words,
                        &run.state,
                    );
                    let shown = answer_text(reply.result);
                    let told = match answer.strip_suffix(" free") {
                        Some(told) => told.to_string() + &shown[told.len().min(shown.len())..],
                        None => answer.to_string(),
                    };
                    assert_eq!(shown, told, "{name}: {line}, {format:?}");
                    run.state.clone_from(&reply.lent[0]);
                }
            }
        }
    });
}
