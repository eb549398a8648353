//! Tables of operator times: refusals 19 to 21 with their places, refusal 7
//! under other times, and runs under them.

use crate::expect::{refused, words_with, START};
use crate::nodes::*;
use peers::BOTH;
use values::{End, Given, Refusal};

const LENGTH: usize = 512;
const CHECK: [usize; 2] = [6, 7];

/// The built-in times, and the least and the most that a table may give.
const USUAL: Times = [0, 0, 1, 16, 17, 1, 1, 6, 17, 4];
const LEAST: Times = [0, 0, 1, 1, 1, 1, 1, 1, 1, 1];
const MOST: Times = [0, 0, 200, 200, 200, 200, 200, 200, 200, 200];

/// The times of kinds 1 to 10; that of the last is the element's.
type Times = [u8; 10];

/// A text for each operator, by kind from 3 on.
const OPERATIONS: [&str; 7] = [
    "!x0", "x0 + x1", "x0 - x1", "x0 & x1", "x0 | x1", "x0 = x1", "x0 < x1",
];

const OK: [u8; 4] = [16, 0, 0, 0];

/// x0 := (x0 + 1) = x1 @40, so of the times of + and = together at most 40.
const TIMED: [u8; 24] = [
    18, 40, 0, 0, 8, 0, 0, 0, 4, 0, 0, 0, 2, 0, 0, 0, 1, 0, 1, 0, 2, 0, 1, 0,
];

/// The table of ten times, with the check that makes its words sum to 0.
fn table(times: Times) -> Vec<u8> {
    let mut table = vec![0; LENGTH];
    table[2] = 10;
    table[8..18].copy_from_slice(&times);
    mended(table)
}

fn mended(mut table: Vec<u8>) -> Vec<u8> {
    table[6..8].fill(0);
    let words = table.chunks(2);
    let sum: u32 = words
        .map(|word| u32::from(word[0]) + 256 * u32::from(word[1]))
        .sum();
    let check = sum.wrapping_neg() as u16;
    table[6..8].copy_from_slice(&check.to_le_bytes());
    table
}

/// The usual table with other bytes at some places, unmended.
fn changed(changes: &[(usize, u8)]) -> Vec<u8> {
    let mut table = table(USUAL);
    for &(place, byte) in changes {
        table[place] = byte;
    }
    table
}

/// Whether the paper lets a byte stand at a place; the check's are apart.
fn is_good(place: usize, byte: u8) -> bool {
    match place {
        2 => byte == 10,
        10..=17 => (1..=200).contains(&byte),
        _ => byte == 0,
    }
}

/// What a good table replies to the check of the program above.
fn timed(table: &[u8]) -> Result<(), Refusal> {
    let time = u32::from(table[11]) + u32::from(table[15]);
    if time > 40 {
        return refused(7, 0);
    }
    Ok(())
}

/// The check under a table of a program that every good table accepts; the
/// same refusal meets the one that not all accept.
fn loaded(table: &[u8]) -> Result<(), Refusal> {
    let [loaded, checked] = [&OK[..], &TIMED].map(|program| check(table, program));
    assert_eq!(checked, loaded.and_then(|()| timed(table)));
    loaded
}

fn check(table: &[u8], program: &[u8]) -> Result<(), Refusal> {
    (BOTH.check)(Given::table(Some(table)), program).result
}

/// The bytes of a text's program, which need not be accepted.
fn program(text: &str) -> Vec<u8> {
    second::text::program(text.as_bytes()).unwrap_or_else(|refusal| panic!("{text}: {refusal}"))
}

/// The check of a text's program under these times.
fn checked(times: Times, text: &str) -> Result<(), Refusal> {
    check(&table(times), &program(text))
}

#[test]
fn the_built_in_times_are_a_table() {
    for times in [USUAL, LEAST, MOST] {
        assert_eq!(loaded(&table(times)), Ok(()), "{times:?}");
    }
}

#[test]
fn another_length_is_19() {
    let long = table(USUAL).repeat(3);
    for length in (0..=long.len()).filter(|&length| length != LENGTH) {
        assert_eq!(loaded(&long[..length]), refused(19, 0), "{length}");
    }
}

#[test]
fn another_byte_alone_is_20() {
    for place in 0..LENGTH {
        let usual = table(USUAL)[place];
        for byte in (0..=255).filter(|&byte| byte != usual) {
            let table = changed(&[(place, byte)]);
            assert_eq!(loaded(&table), refused(20, 0), "{byte} at {place}");
        }
    }
}

#[test]
fn a_wrong_byte_with_a_right_check_is_21_at_its_place() {
    for place in (0..LENGTH).filter(|place| !CHECK.contains(place)) {
        for byte in 0..=255 {
            let expected = match is_good(place, byte) {
                true => Ok(()),
                false => refused(21, place),
            };
            let table = mended(changed(&[(place, byte)]));
            assert_eq!(loaded(&table), expected, "{byte} at {place}");
        }
    }
}

#[test]
fn of_two_wrong_bytes_the_first_counts() {
    let places: Vec<usize> = (0..20)
        .chain([255, 256, 510, 511])
        .filter(|place| !CHECK.contains(place))
        .collect();
    for (index, &first) in places.iter().enumerate() {
        for &second in &places[index + 1..] {
            let table = mended(changed(&[(first, 255), (second, 255)]));
            assert_eq!(loaded(&table), refused(21, first), "{first}, {second}");
        }
    }
}

/// The table of S-4, without a time for elements.
#[test]
fn a_table_of_nine_times_is_21_at_its_number() {
    let table = mended(changed(&[(2, 9), (17, 0)]));
    assert_eq!(loaded(&table), refused(21, 2));
}

#[test]
fn wrong_bytes_that_leave_the_sum_right_are_21() {
    let table = changed(&[(300, 1), (302, 255), (303, 255)]);
    assert_eq!(loaded(&table), refused(21, 300));
}

/// All calls under a table, with a budget and buffers that are refused last.
fn all_calls(table: &[u8], program: &[u8], text: &[u8]) -> [Result<(), Refusal>; 7] {
    let (given, words, budget) = (Given::table(Some(table)), &[], 1_000_001);
    let run_program = (BOTH.run_program)(given, program, words, budget, &[], &[]);
    let reference_run = (BOTH.reference_run)(given, program, words, budget);
    let run_text = (BOTH.run_text)(given, text, words, budget, &[], &[]);
    [
        (BOTH.check)(given, program).result,
        (BOTH.compile)(given, program, &[]).result.map(drop),
        run_program.result.map(drop),
        reference_run.result.map(drop),
        (BOTH.read_text)(given, text, &[]).result.map(drop),
        (BOTH.compile_text)(given, text, &[]).result.map(drop),
        run_text.result.map(drop),
    ]
}

#[test]
fn a_table_is_refused_before_texts_and_programs() {
    let wrong = changed(&[(0, 1)]);
    let tables = [
        (&wrong[1..], refused(19, 0)),
        (&wrong[..], refused(20, 0)),
        (&mended(wrong.clone())[..], refused(21, 0)),
    ];
    for (table, expected) in tables {
        for (program, text) in [(&[][..], "_ ok ok"), (&[][..], "ok ok"), (&OK, "ok")] {
            let found = all_calls(table, program, text.as_bytes());
            assert_eq!(found, [expected; 7], "{text}");
        }
    }
}

#[test]
fn under_a_good_table_texts_and_programs_are_refused_in_their_order() {
    let long = vec!["ok"; 101].join(";");
    let texts = [
        ("_ ok ok", refused(17, 0)),
        ("ok ok", refused(18, 3)),
        (&long[..], refused(1, 0)),
    ];
    for (text, expected) in texts {
        let found = all_calls(&table(MOST), &[], text.as_bytes());
        assert_eq!(found[..4], [refused(1, 0); 4]);
        assert_eq!(found[4..], [expected; 3], "{text}");
    }
    let [check, full @ ..] = all_calls(&table(MOST), &OK, b"ok");
    let [compile, run, reference, read, compile_text, run_text] = full;
    assert_eq!(check, Ok(()));
    assert_eq!([compile, read, compile_text], [refused(14, 0); 3]);
    assert_eq!([run, reference, run_text], [refused(13, 0); 3]);
}

#[test]
fn each_operator_has_the_time_of_its_own_byte() {
    for (kind, operation) in OPERATIONS.iter().enumerate() {
        for time in [2, 16, 17, 100, 199, 200] {
            let mut times = LEAST;
            times[2 + kind] = time;
            let with_delay = |delay| format!("ok; x2 := {operation} @{delay}");
            assert_eq!(checked(times, &with_delay(time)), Ok(()));
            let sooner = checked(times, &with_delay(time - 1));
            assert_eq!(sooner, refused(7, 2), "{operation}");
        }
    }
}

#[test]
fn a_time_does_not_touch_other_operators() {
    for kind in 0..7 {
        let mut times = LEAST;
        times[2 + kind] = 200;
        let others = (0..7).filter(|&other| other != kind);
        for operation in others.map(|other| OPERATIONS[other]) {
            let text = format!("x2 := {operation} @1");
            assert_eq!(checked(times, &text), Ok(()), "{text}");
        }
    }
}

#[test]
fn times_add_up_along_the_slower_child() {
    let times = [0, 0, 3, 10, 20, 1, 1, 50, 7, 1];
    for (expression, time) in [
        ("!(x0 + (x1 - x2))", 33),
        ("(x0 - x1) + !x2", 30),
        ("!x2 + (x0 - x1)", 30),
        ("(x0 = x1) & (x2 < 5)", 51),
        ("(x0 = x1) + (x2 = 5) - 1", 80),
    ] {
        let statements = [
            ("x0 := ", ""),
            ("if ", " then ok else ok end"),
            ("while ", " do ok end"),
            ("repeat ok until ", " end"),
        ];
        for (before, after) in statements {
            let with_delay = |delay: u8| format!("{before}{expression} @{delay}{after}");
            assert_eq!(checked(times, &with_delay(time)), Ok(()));
            let sooner = checked(times, &with_delay(time - 1));
            assert_eq!(sooner, refused(7, 0), "{expression}");
        }
    }
}

/// Elements have no text. An index takes its time too, and of index and value
/// of an element assignment the slower one counts.
#[test]
fn an_element_has_the_time_of_the_tenth_byte() {
    for time in [1, 4, 5, 100] {
        let mut times = LEAST;
        times[9] = time;
        let table = table(times);
        let read = || element(1, variable(0));
        let nested = || element(0, sum(read(), constant(1)));
        let slow = 2 * time + 1;
        for (least, statement) in [
            (time, assign(2, read(), 0)),
            (slow, assign(2, nested(), 0)),
            (slow, assign_element(2, nested(), read(), 0)),
            (slow, assign_element(2, read(), nested(), 0)),
            (slow, while_do(nested(), 0, ok())),
            (1, assign_element(2, variable(0), constant(7), 0)),
        ] {
            let with_delay = |delay: u8| {
                let mut statement = statement.clone();
                statement[1] = delay;
                check(&table, &sequence(ok(), statement))
            };
            assert_eq!(with_delay(least), Ok(()), "{time}: {statement:?}");
            let sooner = with_delay(least - 1);
            assert_eq!(sooner, refused(7, 2), "{time}: {statement:?}");
        }
    }
}

#[test]
fn times_beyond_a_byte_are_refused() {
    // 198 complements of 200 take 39,600, and so do elements.
    for depth in 1..=198 {
        let text = format!("x0 := {}x0 @255", "!".repeat(depth));
        let expected = if depth == 1 { Ok(()) } else { refused(7, 0) };
        assert_eq!(checked(MOST, &text), expected, "{depth}");
        let index = [node(10, 0, 0).repeat(depth), variable(0)].concat();
        let read = check(&table(MOST), &assign(0, index, 255));
        assert_eq!(read, expected, "{depth} elements");
    }
}

#[test]
fn a_kind_needs_its_delay_under_every_table() {
    for text in [
        "tick 0",
        "x0 := 1 @0",
        "while 0 @0 do ok end",
        "repeat ok until 1 @0 end",
    ] {
        assert_eq!(checked(LEAST, text), refused(7, 0), "{text}");
    }
    assert_eq!(checked(MOST, "if x0 @0 then ok else ok end"), Ok(()));
}

/// The end of a text under these times, on which rules and circuit agree, as
/// do the text and its program.
fn end(times: Times, text: &str) -> Result<Option<End>, Refusal> {
    let (table, program, words) = (table(times), program(text), START);
    let (given, text) = (Given::table(Some(&table)), text.as_bytes());
    let (file, state) = (vec![0; 2_000], vec![0; 5_000]);
    let by_text = (BOTH.run_text)(given, text, &words, 1_000, &file, &state);
    let by_program = (BOTH.run_program)(given, &program, &words, 1_000, &file, &state);
    assert_eq!(by_text, by_program);
    let by_circuit = by_program.result.map(|answer| {
        let (instant, words) = (answer.instant, answer.words);
        answer.ended.then_some(End { instant, words })
    });
    let by_rules = (BOTH.reference_run)(given, &program, &words, 1_000);
    assert_eq!(by_circuit, by_rules.result);
    by_circuit
}

fn ended(instant: u32, x0: u16) -> Result<Option<End>, Refusal> {
    let words = words_with([x0]);
    Ok(Some(End { instant, words }))
}

#[test]
fn programs_run_by_their_delays_under_every_table_that_takes_them() {
    let slow = "x0 := x0 + 3 @200; x0 := x0 + 4 @200";
    for times in [USUAL, LEAST, MOST] {
        assert_eq!(end(times, slow), ended(402, 7), "{times:?}");
    }
    let fast = "x0 := x0 + 3 @1; repeat x0 := x0 - 1 @1 until x0 = 0 @1 end";
    assert_eq!(end(LEAST, fast), ended(11, 0));
    assert_eq!(end(USUAL, fast), refused(7, 1));
    assert_eq!(end(MOST, fast), refused(7, 1));
}

#[test]
fn a_table_changes_no_byte_of_a_netlist() {
    let text = b"x0 := x0 + 3 @200; if x0 < 4 @255 then ok else x0 := !x0 @201 end";
    let compiled = |times| {
        let table = table(times);
        let given = Given::table(Some(&table));
        let compiled = (BOTH.compile_text)(given, text, &[7; 1_024]);
        assert!(compiled.result.is_ok(), "{times:?}");
        compiled
    };
    assert_eq!(compiled(MOST), compiled(LEAST));
}

#[test]
fn without_a_table_the_built_in_serves() {
    for text in [
        "x0 := x0 + 1 @16",
        "x0 := x0 + 1 @15",
        "x0 := !x0 @1",
        "x0 := x0 < 1 @16",
    ] {
        let program = program(text);
        let without = (BOTH.check)(Given::NOTHING, &program).result;
        assert_eq!(without, checked(USUAL, text), "{text}");
        let without = (BOTH.reference_run)(Given::NOTHING, &program, &START, 1_000).result;
        assert_eq!(without, end(USUAL, text), "{text}");
    }
}
