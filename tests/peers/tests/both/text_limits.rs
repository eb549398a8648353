//! Texts at the limits of length and depth, and every small change of one: some
//! with the reply told, and all with replies alike.

use crate::expect::{read, refused};
use peers::BOTH;
use values::Given;

const MOST_LENGTH: usize = 4096;

/// What nests or goes on: before, each time, inside, each time, after.
const PATTERNS: [[&str; 5]; 15] = [
    ["x0:=", "(", "1", ")", "@1"],
    ["", "{", "ok", "}", ""],
    ["", "ok;", "ok", "", ""],
    ["", "ok||", "ok", "", ""],
    ["", "{ok;", "ok", "}", ""],
    ["", "{", "ok", "};ok", ""],
    ["", "while 1@1 do ", "ok", " end", ""],
    ["", "repeat ", "ok", " until 1@1 end", ""],
    ["", "if 1@1 then ok else ", "ok", " end", ""],
    ["", "if 1@1 then ", "ok", " else ok end", ""],
    ["x0:=", "!", "1", "", "@255"],
    ["x0:=1", "-1", "", "", "@255"],
    ["x0:=", "1|(", "1", ")", "@255"],
    ["x0:=", "(", "1", "=1)", "@255"],
    ["x0:=1", "&1=1", "", "", "@255"],
];

/// A pattern with these numbers of its repeated parts.
fn text([before, open, inside, close, after]: [&str; 5], opened: usize, closed: usize) -> String {
    let (open, close) = (open.repeat(opened), close.repeat(closed));
    [before, &open, inside, &close, after].concat()
}

/// The most times that a pattern repeats in an accepted length.
fn most([before, open, inside, close, after]: [&str; 5]) -> usize {
    let once = [before, inside, after].concat().len();
    (MOST_LENGTH - once) / (open.len() + close.len())
}

/// Both implementations read it alike, whatever that is.
fn assert_alike(text: &[u8]) {
    (BOTH.read_text)(Given::NOTHING, text, &[0xa5; 1_000]);
}

#[test]
fn brackets_nest_as_deep_as_a_text_is_long() {
    let parentheses = text(["x0:=", "(", "1", ")", "@1"], 2_044, 2_044);
    assert_eq!(read(&parentheses), read("x0 := 1 @1"));
    let braces = text(["", "{", "ok", "}", ""], 2_047, 2_047);
    assert_eq!(braces.len(), MOST_LENGTH);
    assert_eq!(read(&braces), Ok(vec![16, 0, 0, 0]));
}

#[test]
fn brackets_that_are_not_closed_are_refused_at_the_end() {
    for [before, open] in [["", "{"], ["x0:=", "("], ["x0:=", "!"]] {
        let opened = MOST_LENGTH - before.len();
        let text = text([before, open, "", "", ""], opened, 0);
        assert_eq!(read(&text), refused(18, MOST_LENGTH), "{open}");
    }
}

#[test]
fn more_than_4096_bytes_are_refused_before_all_else() {
    let padded = |text: &str, length: usize| format!("{text:<length$}");
    assert_eq!(read(&padded("ok", MOST_LENGTH)), Ok(vec![16, 0, 0, 0]));
    for text in ["ok", "_", "ok ok", ""] {
        let long = padded(text, MOST_LENGTH + 1);
        assert_eq!(read(&long), refused(17, MOST_LENGTH), "{text:?}");
    }
    let broken = padded("ok;", MOST_LENGTH);
    assert_eq!(read(&broken), refused(18, MOST_LENGTH));
}

/// All but the brackets have a node each time, so far too many.
#[test]
fn long_texts_of_each_grouping_are_read() {
    for &pattern in &PATTERNS[2..] {
        let text = text(pattern, most(pattern), most(pattern));
        assert_eq!(read(&text), refused(1, 0), "{}", &text[..20]);
    }
}

#[test]
fn long_and_deep_texts_are_read_alike() {
    for pattern in PATTERNS {
        let most = most(pattern);
        for times in [1, 2, 49, 50, 66, 67, 99, 100, 198, 199, most, most + 1] {
            assert_alike(text(pattern, times, times).as_bytes());
        }
    }
}

#[test]
fn texts_that_open_and_close_unequally_are_read_alike() {
    for pattern in PATTERNS {
        let most = most(pattern);
        for (opened, closed) in [
            (1, 0),
            (0, 1),
            (2, 3),
            (most, 0),
            (most, most - 1),
            (most - 1, most),
        ] {
            assert_alike(text(pattern, opened, closed).as_bytes());
        }
    }
}

#[test]
fn every_cut_of_a_text_is_read_alike() {
    let text = "if x0 = 1 & !(x2 - 3) < 4 @40 then {x1 := 2 | 5 @9 || tick 255}; ok
        else repeat while x15 + 7 @16 do ok end until 65535 @1 end || tick 1 end \n";
    assert!(read(text).is_ok());
    for length in 0..=text.len() {
        assert_alike(&text.as_bytes()[..length]);
    }
}

#[test]
fn every_byte_at_a_place_of_a_text_is_read_alike() {
    let text = b"x0 := 1 @10; tick 25 || ok";
    for place in 0..text.len() {
        for byte in 0..=255 {
            let mut changed = *text;
            changed[place] = byte;
            assert_alike(&changed);
        }
    }
}
