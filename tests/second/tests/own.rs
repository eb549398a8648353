//! What `second` computes and no call shows: programs that would be refused,
//! and an end beyond the last instant of a run. All that calls show is tested
//! beside the proved implementation, in peers/tests.

use second::contents::{Contents, CONTENTS_LENGTH};
use second::rules::{self, Moment};
use second::table::BUILT_IN;
use second::{check, text};
use values::Circuit;

/// A text with a part repeated so often before and after another.
fn nested([before, open, inside, close, after]: [&str; 5], times: usize) -> String {
    let (open, close) = (open.repeat(times), close.repeat(times));
    [before, &open, inside, &close, after].concat()
}

/// A text is at most 4,096 bytes long, its program at most 200 nodes.
#[test]
fn a_long_text_is_read_to_more_nodes_than_a_program_may_have() {
    let chains = [
        (["", "ok;", "ok", "", ""], 1_364, 2_729),
        (["", "ok||", "ok", "", ""], 1_023, 2_047),
        (["x0:=1", "-1", "", "", "@1"], 2_044, 4_090),
        (["x0:=1", "&1=1", "", "", "@1"], 1_022, 4_090),
        (["x0:=", "!", "1", "", "@1"], 4_089, 4_091),
        (["", "while 1@1 do ", "ok", " end", ""], 240, 481),
        (["", "repeat ", "ok", " until 1@1 end", ""], 194, 389),
    ];
    for (parts, times, nodes) in chains {
        let program = text::program(nested(parts, times).as_bytes());
        assert_eq!(program.map(|bytes| bytes.len()), Ok(4 * nodes), "{parts:?}");
    }
}

#[test]
fn the_text_of_a_refused_program_is_read_to_its_bytes() {
    let table: [(&str, &[u8]); 4] = [
        ("x0 := 0 @0", &[18, 0, 0, 0, 1, 0, 0, 0]),
        (
            "while 1 @0 do ok end",
            &[22, 0, 0, 0, 1, 0, 1, 0, 16, 0, 0, 0],
        ),
        (
            "x0 := x0 + 3 @15",
            &[18, 15, 0, 0, 4, 0, 0, 0, 2, 0, 0, 0, 1, 0, 3, 0],
        ),
        (
            "x1 := 1 @1 || x2 := x1 @1",
            &[
                20, 0, 0, 0, 18, 1, 1, 0, 1, 0, 1, 0, 18, 1, 2, 0, 2, 0, 1, 0,
            ],
        ),
    ];
    for (text, program) in table {
        let read = text::program(text.as_bytes());
        assert_eq!(read.as_deref(), Ok(program), "{text:?}");
        assert!(check::check(program, 0, 1, &BUILT_IN).is_err(), "{text:?}");
    }
}

/// Case 7 from 0 goes round 65,536 times, 24 instants each.
#[test]
fn an_open_run_may_end_later() {
    let text = b"repeat x0 := x0 - 1 @17 until x0 = 0 @6 end";
    let program = text::program(text).expect("case 7 is read");
    let rounds = check::check(&program, 0, 1, &BUILT_IN).expect("case 7 is accepted");
    let contents = Contents::of_bytes(&[0; CONTENTS_LENGTH]);
    let end = rules::run(&rounds, Circuit::Imperative, contents, 2_000_000);
    let expected = Moment {
        instant: 1_572_864,
        contents,
    };
    assert_eq!(end, Some(expected));
}

/// The file that gives the built-in times: the number of kinds, the check and
/// the ten times, zero elsewhere.
#[test]
fn the_built_in_times_have_a_file() {
    let mut expected = [0; 512];
    expected[2] = 10;
    expected[6..18].copy_from_slice(&[210, 228, 0, 0, 1, 16, 17, 1, 1, 6, 17, 4]);
    assert_eq!(BUILT_IN.file(), expected);
}
