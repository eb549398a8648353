//! Good texts: their bytes and grouping, and the calls on texts.

use crate::expect::{read, refused, START};
use peers::BOTH;
use values::Given;

fn bytes(text: &str) -> Vec<u8> {
    read(text).unwrap_or_else(|refusal| panic!("{text:?}: {refusal}"))
}

/// Texts with few brackets beside the same with all of them.
fn assert_same(pairs: &[(&str, &str)]) {
    for (plain, bracketed) in pairs {
        assert_eq!(bytes(plain), bytes(bracketed), "{plain:?}");
    }
}

/// An assignment of an expression, as text.
fn assigned(expression: &str) -> String {
    format!("x0 := {expression} @255")
}

fn assert_same_expressions(pairs: &[(&str, &str)]) {
    for (plain, bracketed) in pairs {
        let (plain, bracketed) = (assigned(plain), assigned(bracketed));
        assert_same(&[(&plain, &bracketed)]);
    }
}

#[test]
fn each_statement_has_its_bytes() {
    let table: [(&str, &[u8]); 11] = [
        ("ok", &[16, 0, 0, 0]),
        ("tick 255", &[17, 255, 0, 0]),
        ("x15 := 65535 @255", &[18, 255, 15, 0, 1, 0, 255, 255]),
        ("x0 := 0 @1", &[18, 1, 0, 0, 1, 0, 0, 0]),
        ("ok; tick 1", &[19, 0, 0, 0, 16, 0, 0, 0, 17, 1, 0, 0]),
        ("ok || tick 1", &[20, 0, 0, 0, 16, 0, 0, 0, 17, 1, 0, 0]),
        (
            "if x3 @4 then ok else tick 1 end",
            &[21, 4, 0, 0, 2, 0, 3, 0, 16, 0, 0, 0, 17, 1, 0, 0],
        ),
        (
            "if 0 @0 then ok else ok end",
            &[21, 0, 0, 0, 1, 0, 0, 0, 16, 0, 0, 0, 16, 0, 0, 0],
        ),
        (
            "while 256 @4 do ok end",
            &[22, 4, 0, 0, 1, 0, 0, 1, 16, 0, 0, 0],
        ),
        (
            "repeat ok until x3 @4 end",
            &[23, 4, 0, 0, 2, 0, 3, 0, 16, 0, 0, 0],
        ),
        ("{ ok }", &[16, 0, 0, 0]),
    ];
    for (text, expected) in table {
        assert_eq!(bytes(text), expected, "{text:?}");
    }
}

#[test]
fn each_operator_has_its_kind() {
    let table = [("+", 4), ("-", 5), ("&", 6), ("|", 7), ("=", 8), ("<", 9)];
    for (sign, kind) in table {
        let text = assigned(&format!("x1 {sign} 2"));
        let expected = [18, 255, 0, 0, kind, 0, 0, 0, 2, 0, 1, 0, 1, 0, 2, 0];
        assert_eq!(bytes(&text), expected, "{text:?}");
    }
    let expected = [18, 255, 0, 0, 3, 0, 0, 0, 2, 0, 1, 0];
    assert_eq!(bytes(&assigned("!x1")), expected);
}

#[test]
fn statements_group_to_the_right_and_sequences_first() {
    assert_same(&[
        ("ok; tick 1; tick 2", "ok; {tick 1; tick 2}"),
        ("ok || tick 1 || tick 2", "ok || {tick 1 || tick 2}"),
        ("ok; tick 1 || tick 2", "{ok; tick 1} || tick 2"),
        ("ok || tick 1; tick 2", "ok || {tick 1; tick 2}"),
        (
            "ok; tick 1 || tick 2; tick 3 || ok; ok",
            "{ok; tick 1} || {{tick 2; tick 3} || {ok; ok}}",
        ),
    ]);
    assert_ne!(bytes("{ok; tick 1}; tick 2"), bytes("ok; tick 1; tick 2"));
    assert_ne!(bytes("{ok || ok} || ok"), bytes("ok || ok || ok"));
    assert_ne!(bytes("ok; {tick 1 || ok}"), bytes("ok; tick 1 || ok"));
}

#[test]
fn operators_group_to_the_left_and_by_their_ranks() {
    assert_same_expressions(&[
        ("1 - 2 - 3", "(1 - 2) - 3"),
        ("1 - 2 + 3 - 4", "((1 - 2) + 3) - 4"),
        ("1 & 2 & 3", "(1 & 2) & 3"),
        ("1 | 2 | 3", "(1 | 2) | 3"),
        ("!1 + 2", "(!1) + 2"),
        ("1 - !2 - 3", "(1 - (!2)) - 3"),
        ("!!x0", "!(!x0)"),
        ("1 + 2 = 3 - 4", "(1 + 2) = (3 - 4)"),
        ("1 < 2 + 3", "1 < (2 + 3)"),
        ("1 = 2 & 3 < 4", "(1 = 2) & (3 < 4)"),
        ("1 & 2 = 3 & 4", "(1 & (2 = 3)) & 4"),
        ("1 | 2 & 3", "1 | (2 & 3)"),
        ("1 & 2 | 3", "(1 & 2) | 3"),
        ("1 | 2 & 3 | 4", "(1 | (2 & 3)) | 4"),
        ("(1 = 2) = 3", "((1 = 2) = (3))"),
        ("1 = (2 < 3)", "((1) = (2 < 3))"),
        ("1 = 2 | 3 = 4 & 5 < 6", "(1 = 2) | ((3 = 4) & (5 < 6))"),
        ("!1 = 2 + 3 & 4 | 5", "((((!1) = (2 + 3)) & 4) | 5)"),
    ]);
    let grouped = [("1 - (2 - 3)", "1 - 2 - 3"), ("1 = (2 = 3)", "(1 = 2) = 3")];
    for (one, other) in grouped {
        assert_ne!(bytes(&assigned(one)), bytes(&assigned(other)));
    }
}

#[test]
fn bodies_are_whole_statements() {
    assert_same(&[
        (
            "if 1 @1 then ok || ok; ok else ok; ok || ok end",
            "if 1 @1 then {ok || {ok; ok}} else {{ok; ok} || ok} end",
        ),
        (
            "while 1 @1 do ok || ok end; ok",
            "{while 1 @1 do {ok || ok} end}; ok",
        ),
        (
            "repeat ok || ok; ok until 1 | 2 @1 end",
            "repeat {ok || {ok; ok}} until (1 | 2) @1 end",
        ),
    ]);
}

#[test]
fn words_need_blanks_only_between_runs() {
    assert_same(&[
        (
            "x0:=!(x1)+2@20;tick 1||ok",
            "x0 := ! ( x1 ) + 2 @ 20 ; tick 1 || ok",
        ),
        ("\n ok\n;\n\nok \n", "ok;ok"),
        ("if(1)@1 then{ok}else{ok}end", "if 1 @1 then ok else ok end"),
        ("tick\n7", "tick 7"),
        ("x0:=1@\n\n 7", "x0 := 1 @7"),
    ]);
}

#[test]
fn a_lent_buffer_is_written_as_far_as_the_program_goes() {
    let program = [18, 1, 0, 0, 1, 0, 5, 0];
    for room in [8, 10] {
        let mut expected = vec![7; room];
        expected[..8].copy_from_slice(&program);
        let read = (BOTH.read_text)(Given::NOTHING, b"x0 := 5 @1", &vec![7; room]);
        assert_eq!(read.result, Ok(8));
        assert_eq!(read.lent, [expected]);
    }
}

#[test]
fn a_refused_text_leaves_the_buffer_as_it_was() {
    let table: [(&[u8], u8, usize); 5] = [
        (b"x0 := 5 @1", 14, 0),
        (b"x0 := 5 @0", 7, 0),
        (b"x0 := 5 @", 18, 9),
        (b"x0 := 5 @_", 17, 9),
        (b"x0 := 5 @256", 17, 9),
    ];
    for (text, number, place) in table {
        let read = (BOTH.read_text)(Given::NOTHING, text, &[7; 7]);
        assert_eq!(read.result, refused(number, place));
        assert_eq!(read.lent, [[7; 7]]);
    }
}

#[test]
fn a_text_compiles_and_runs_as_its_program() {
    let text = "x0 := 5 @1; while x0 @1 do x0 := x0 - 1 @17 end";
    let (program, text) = (bytes(text), text.as_bytes());
    let (file, state, words) = (vec![7; 2_000], vec![7; 9_000], START);
    let compiled = (BOTH.compile)(Given::NOTHING, &program, &file);
    assert!(compiled.result.is_ok());
    assert_eq!((BOTH.compile_text)(Given::NOTHING, text, &file), compiled);

    let ran = (BOTH.run_program)(Given::NOTHING, &program, &words, 500, &file, &state);
    assert!(ran.result.is_ok_and(|answer| answer.ended));
    let ran_text = (BOTH.run_text)(Given::NOTHING, text, &words, 500, &file, &state);
    assert_eq!(ran_text, ran);
}

#[test]
fn a_text_is_refused_before_its_run() {
    let run = |text: &[u8]| (BOTH.run_text)(Given::NOTHING, text, &[], 1_000_001, &[], &[]).result;
    assert_eq!(run(b"ok ok"), refused(18, 3));
    assert_eq!(run(b"ok _"), refused(17, 3));
    assert_eq!(run(b"tick 0"), refused(7, 0));
    assert_eq!(run(b"ok"), refused(13, 0));
    let compiled = |text: &[u8]| (BOTH.compile_text)(Given::NOTHING, text, &[]).result;
    assert_eq!(compiled(b"ok;"), refused(18, 3));
    assert_eq!(compiled(b"ok"), refused(14, 0));
}

#[test]
fn hubtext_prints_the_bytes_or_the_refusal() {
    let printed = BOTH.hubtext_bytes;
    assert_eq!(printed(b"x0 := 5 @1\n"), [18, 1, 0, 0, 1, 0, 5, 0]);
    assert_eq!(printed(b""), b"refused 18 0\n");
    assert_eq!(printed(b"ok\tok"), b"refused 17 2\n");
    assert_eq!(printed(b"tick 0"), b"refused 7 0\n");
    let longest = format!("if 1 @1 then ok else {} end", ["ok"; 99].join(";"));
    assert_eq!(printed(longest.as_bytes()).len(), 800);
    assert_eq!(printed(&[b'('; 4_097]), b"refused 17 4096\n");
}
