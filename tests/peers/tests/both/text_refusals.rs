//! Refusals 17 and 18 with their places. A `^` in a text marks the place and
//! is no part of it.

use crate::expect::{read, refused};
use peers::BOTH;
use values::Given;

/// A text without its mark, and the mark's place.
fn unmarked(marked: &str) -> (String, usize) {
    let place = marked.find('^').expect("a marked place");
    (marked.replace('^', ""), place)
}

fn assert_refused(number: u8, marked: &[&str]) {
    for marked in marked {
        let (text, place) = unmarked(marked);
        assert_eq!(read(&text), refused(number, place), "{marked:?}");
    }
}

#[test]
fn words_outside_are_refusal_17() {
    let runs = [
        "^Ok",
        "^OK",
        "^x",
        "^x01",
        "^x00",
        "^x16",
        "^x100",
        "^X0",
        "^00",
        "^01",
        "^1x",
        "^5then",
        "^skip",
        "^okok",
        "^ok1",
        "^x0x",
        "^x1y",
        "^tick1",
        "^loop",
        "^exit",
        "^call",
        "x0 := ^y1 @1",
        "ok ^x99999999999999999999",
    ];
    assert_refused(17, &runs);
}

#[test]
fn characters_outside_are_refusal_17() {
    let signs = [
        "^_",
        "^\t",
        "^\r",
        "^:",
        "^\0",
        "^\u{7f}",
        "^\"",
        "^[",
        "ok ^>",
        "ok^,",
        "ok ^/ ok",
        "ok^_",
        "ok\n^\r\n",
        "ok^]",
        "ok ^*",
        "ok ^é",
        "ok ^: =",
        "ok ^::=",
        "ok := ^:",
        "x0 ^: = 1 @1",
    ];
    assert_refused(17, &signs);
    for byte in 128..=255 {
        let read = (BOTH.read_text)(Given::NOTHING, &[b'o', b'k', byte], &[]);
        assert_eq!(read.result, refused(17, 2), "{byte}");
    }
}

#[test]
fn numbers_have_the_limit_of_the_word_before() {
    let above = [
        "^65536",
        "^99999",
        "^100000",
        "^4294967296",
        "^18446744073709551616",
        "@^256",
        "@ ^300",
        "@\n\n^65535",
        "tick ^256",
        "tick\n^1000",
        "@@^256",
        "tick ^00",
        "@^01",
    ];
    assert_refused(17, &above);
    let within = [
        "^65535",
        "^256",
        "^@255",
        "^@(256",
        "tick ^(256",
        "tick ^- 65535",
        "tick 255 ^256",
        "tick ^x15",
        "x0 := 1 @^x15",
    ];
    assert_refused(18, &within);
}

#[test]
fn the_longest_sign_counts() {
    let marked = [
        "x0 := 1 ^|| 2 @1",
        "x0 := 1 ^||| 2 @1",
        "x0 := 1 | ^| 2 @1",
        "ok ||^| ok",
        "ok ^| | ok",
        "ok ||^|| ok",
        "x0 :=^= 1",
    ];
    assert_refused(18, &marked);
}

#[test]
fn a_text_that_ends_too_early_is_refused_at_its_length() {
    let marked = [
        "^",
        " ^",
        "\n \n^",
        "ok;^",
        "ok ; \n^",
        "ok ||^",
        "{^",
        "{ok^",
        "{ok} ; {ok ^",
        "tick^",
        "tick ^",
        "x0^",
        "x0 :=^",
        "x0 := 1^",
        "x0 := 1 @ ^",
        "x0 := !^",
        "x0 := (^",
        "x0 := (1^",
        "x0 := 1 +^",
        "x0 := 1 = 2^",
        "if^",
        "if 1 @1^",
        "if 1 @1 then^",
        "if 1 @1 then ok^",
        "if 1 @1 then ok else ok  ^",
        "while 1 @1 do ok^",
        "repeat^",
        "repeat ok^",
        "repeat ok until 1 @1\n^",
    ];
    assert_refused(18, &marked);
}

#[test]
fn a_word_where_no_statement_goes_on_is_refused() {
    let marked = [
        "^;",
        "^||",
        "^}",
        "^:=",
        "^1",
        "^@",
        "^end",
        "^then",
        "^(ok)",
        "ok ^ok",
        "ok ^}",
        "ok ^end",
        "ok ^@ 1",
        "ok ^:= 1",
        "ok; ^; ok",
        "ok; ^|| ok",
        "ok ^& ok",
        "{^}",
        "{ok; ^}",
        "{ok ^)",
        "{ok} ^ok",
        "{ok} ^{ok}",
        "tick ^tick 1",
        "tick 1 ^2",
        "tick ^@1",
        "tick 1 ^@1",
        "x0 ^= 1",
        "x0 ^x1",
        "x0 ^; ok",
        "if ^then",
        "if 1 ^then",
        "if 1 @1 ^ok",
        "if 1 @1 then ^else",
        "if 1 @1 then ok ^end",
        "if 1 @1 then ok; ^else ok end",
        "if 1 @1 then ok else ^end",
        "if 1 @1 then ok else ok ^else",
        "if 1 @1 then {ok ^else",
        "while 1 @1 ^then",
        "while 1 @1 do ^end",
        "while 1 @1 do ok ^until",
        "repeat ^until",
        "repeat ok ^end",
        "repeat ok until 1 ^end",
        "repeat ok until 1 @1 ^ok",
        "repeat ok until 1 @1 ^;",
        "ok ^else ok",
        "while 1 @1 do ok end ^end",
    ];
    assert_refused(18, &marked);
}

#[test]
fn a_word_where_no_expression_goes_on_is_refused() {
    let marked = [
        "x0 := ^@1",
        "x0 := ^ok",
        "x0 := ^- 1",
        "x0 := ^{1} @1",
        "x0 := ^) @1",
        "x0 := (^) @1",
        "x0 := (1 ^@1",
        "x0 := (1 ^} @1",
        "x0 := 1^) @1",
        "x0 := 1 + ^+ 2",
        "x0 := 1 ^! 2",
        "x0 := 1 ^x1",
        "x0 := 1 ^(2)",
        "x0 := (1) ^2",
        "x0 := !^@1",
        "x0 := 1 ^; ok",
        "x0 := 1 @2 ^@3",
        "x0 := 1 @2 ^+ 3",
        "x0 := 1 @2 ^3",
        "x0 := 1 @^@",
        "x0 := x1 ^:= 2 @1",
        "x0 := 1 & ^& 2",
    ];
    assert_refused(18, &marked);
}

#[test]
fn comparisons_do_not_chain() {
    let marked = [
        "x0 := 1 = 2 ^< 3 @9",
        "x0 := 1 < 2 ^= 3",
        "x0 := 1 = 2 ^= 3",
        "x0 := 1 = 2 + 3 ^= 4",
        "x0 := 1 = (2) ^< 3",
        "x0 := 1 = !2 ^< 3",
        "x0 := 1 & 2 = 3 ^= 4",
        "x0 := 1 = 2 & 3 = 4 ^= 5",
        "x0 := (1 = 2 ^= 3",
        "if 1 < 2 ^< 3 @1",
    ];
    assert_refused(18, &marked);
}

#[test]
fn words_are_refused_before_grammar_before_program() {
    assert_refused(17, &["ok ok ^_", "^x16 ok ok", "; ok ^00", "tick 0 ok ^_"]);
    assert_refused(18, &["tick 0 ^ok"]);
    let table = [
        ("tick 0", 7, 0),
        ("ok; x0 := 1 + 1 @15", 7, 2),
        ("x1 := 1 @1 || x2 := x1 @1", 8, 0),
        ("repeat tick 0 until 1 @1 end", 7, 2),
    ];
    for (text, number, place) in table {
        let read = (BOTH.read_text)(Given::NOTHING, text.as_bytes(), &[]);
        assert_eq!(read.result, refused(number, place), "{text:?}");
    }
}
