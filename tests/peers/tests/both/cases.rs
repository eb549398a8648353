//! The paper's cases 1 to 12 as one table: as text and as bytes, by the rules
//! and, from the text, by the circuit.
//! The two runs that stay open have the full budget of 1,000,000 instants.

use crate::expect::{read, refused, start_with, words_with};
use crate::nodes::*;
use peers::BOTH;
use values::{Answer, End, Given, Shape};

const FULL_BUDGET: u32 = 1_000_000;

/// What the paper says of a program run from x0, all other words 0.
enum Told {
    /// The end, and x0 then.
    Ended(u32, u16),
    Open,
    Refused(u8, usize),
}

use Told::*;

/// x0 := x0 + n
fn add(n: u16, d: u8) -> Vec<u8> {
    assign(0, sum(variable(0), constant(n)), d)
}

/// x0 := x0 - 1
fn count_down() -> Vec<u8> {
    assign(0, difference(variable(0), constant(1)), 17)
}

fn repeat_count_down() -> Vec<u8> {
    repeat_until(count_down(), equal(variable(0), constant(0)), 6)
}

fn choice_of_ticks() -> Vec<u8> {
    if_then_else(variable(0), 0, tick(1), tick(9))
}

/// A sequence of `leaves` ok nodes, grouped to the right: 2 * leaves - 1 nodes.
fn ok_sequence(leaves: usize) -> Vec<u8> {
    let nodes = (1..leaves).flat_map(|_| [node(19, 0, 0), ok()].concat());
    nodes.chain(ok()).collect()
}

/// 200 nodes: an if of 4 whose branch is a sequence of 197.
fn two_hundred_nodes() -> Vec<u8> {
    if_then_else(constant(1), 0, ok(), ok_sequence(99))
}

/// A case of the paper: its program as text and as bytes, x0 at the start, and
/// what is told.
struct Case {
    name: &'static str,
    text: String,
    program: Vec<u8>,
    x0: u16,
    told: Told,
}

fn case(name: &'static str, text: &str, program: Vec<u8>, x0: u16, told: Told) -> Case {
    Case {
        name,
        text: text.to_string(),
        program,
        x0,
        told,
    }
}

const COUNT_DOWN: &str = "repeat x0 := x0 - 1 @17 until x0 = 0 @6 end";
const CHOICE: &str = "if x0 @0 then tick 1 else tick 9 end";
const CLASH: &str = "x1 := 1 @1 || x2 := x1 @1";
const SIDE_BY_SIDE: &str = "while x0 @1 do x0 := x0 - 1 @17 || tick 2 end";

fn table() -> Vec<Case> {
    let side = parallel(count_down(), tick(2));
    let clash = parallel(assign(1, constant(1), 1), assign(2, variable(1), 1));
    let three = "x0 := x0 + 3 @16; x0 := x0 + 4 @16";
    let small = sequence(add(3, 16), add(4, 15));
    let small_text = "x0 := x0 + 3 @16; x0 := x0 + 4 @15";
    let counting = while_do(variable(0), 1, count_down());
    let counting_text = "while x0 @1 do x0 := x0 - 1 @17 end";
    let ever = while_do(constant(1), 1, ok());
    let at_once = while_do(constant(1), 0, ok());
    let two_hundred = format!("if 1 @0 then ok else {} end", ok_text(99));
    vec![
        case("1", "ok", ok(), 0, Ended(0, 0)),
        case("2", "x0 := 5 @1", assign(0, constant(5), 1), 0, Ended(2, 5)),
        case(
            "3",
            three,
            sequence(add(3, 16), add(4, 16)),
            0,
            Ended(34, 7),
        ),
        case("3, 15", small_text, small, 0, Refused(7, 5)),
        case(
            "4",
            "tick 3 || tick 5",
            parallel(tick(3), tick(5)),
            0,
            Ended(5, 0),
        ),
        case("5", "ok || ok", parallel(ok(), ok()), 0, Ended(0, 0)),
        case("6", counting_text, counting, 3, Ended(58, 0)),
        case("7 from 3", COUNT_DOWN, repeat_count_down(), 3, Ended(72, 0)),
        case("7 from 0", COUNT_DOWN, repeat_count_down(), 0, Open),
        case("8 from 0", CHOICE, choice_of_ticks(), 0, Ended(9, 0)),
        case(
            "8 from 65535",
            CHOICE,
            choice_of_ticks(),
            65_535,
            Ended(1, 65_535),
        ),
        case("9", "x0 := x0 + 1 @16", add(1, 16), 65_535, Ended(17, 0)),
        case("10", "while 1 @1 do ok end", ever, 0, Open),
        case("10, d 0", "while 1 @0 do ok end", at_once, 0, Refused(7, 0)),
        case("11", CLASH, clash, 0, Refused(8, 0)),
        case(
            "12",
            SIDE_BY_SIDE,
            while_do(variable(0), 1, side),
            2,
            Ended(39, 0),
        ),
        case(
            "201 nodes",
            &ok_text(101),
            ok_sequence(101),
            0,
            Refused(1, 0),
        ),
        case(
            "200 nodes",
            &two_hundred,
            two_hundred_nodes(),
            0,
            Ended(0, 0),
        ),
    ]
}

/// The text of `ok_sequence`.
fn ok_text(leaves: usize) -> String {
    vec!["ok"; leaves].join(";")
}

/// A refused program is refused as text too.
#[test]
fn the_texts_are_read_to_the_programs() {
    for case in table() {
        let checked = (BOTH.check)(Given::NOTHING, &case.program).result;
        let expected = checked.map(|()| case.program);
        assert_eq!(read(&case.text), expected, "case {}", case.name);
    }
}

#[test]
fn the_rules_keep_the_cases() {
    for case in table() {
        let expected = match case.told {
            Ended(instant, x0) => Ok(Some(End {
                instant,
                words: words_with([x0]),
            })),
            Open => Ok(None),
            Refused(number, place) => refused(number, place),
        };
        let words = start_with([case.x0]);
        let found = (BOTH.reference_run)(Given::NOTHING, &case.program, &words, FULL_BUDGET);
        assert_eq!(found.result, expected, "case {}", case.name);
    }
}

#[test]
fn the_circuit_keeps_the_cases() {
    for case in table() {
        let expected = match case.told {
            Ended(instant, x0) => Ok((true, instant, instant + 1, Some(words_with([x0])))),
            Open => Ok((false, FULL_BUDGET, FULL_BUDGET + 1, None)),
            Refused(number, place) => refused(number, place),
        };
        let (file, state) = (vec![0; 6656], vec![0; 50_000]);
        let (text, words) = (case.text.as_bytes(), start_with([case.x0]));
        let found = (BOTH.run_text)(Given::NOTHING, text, &words, FULL_BUDGET, &file, &state);
        // Of the words of an open run the paper tells nothing.
        let shown = |answer: Answer| {
            let words = answer.ended.then_some(answer.words);
            (answer.ended, answer.instant, answer.count, words)
        };
        assert_eq!(found.result.map(shown), expected, "case {}", case.name);
    }
}

#[test]
fn no_nodes_are_refusal_1() {
    assert_eq!((BOTH.check)(Given::NOTHING, &[]).result, refused(1, 0));
}

#[test]
fn case_2_has_31_cells_and_finish_4() {
    let compiled = (BOTH.compile)(Given::NOTHING, &assign(0, constant(5), 1), &[0; 512]);
    let expected = Shape {
        cells: 31,
        finish: 4,
    };
    assert_eq!(compiled.result, Ok(expected));
}

#[test]
fn a_delay_of_0_is_too_small_except_in_an_if() {
    let too_small = [
        tick(0),
        assign(0, constant(0), 0),
        assign_element(0, constant(0), constant(0), 0),
        while_do(constant(0), 0, ok()),
        repeat_until(ok(), constant(1), 0),
        loop_of(0, exit()),
    ];
    for program in too_small {
        assert_eq!((BOTH.check)(Given::NOTHING, &program).result, refused(7, 0));
    }
    let choice = if_then_else(constant(0), 0, ok(), ok());
    assert_eq!((BOTH.check)(Given::NOTHING, &choice).result, Ok(()));
}
