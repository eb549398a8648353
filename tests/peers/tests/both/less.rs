//! Less compares words as two's complement, by the rules and by the circuit.

use crate::expect::{read, start_with};
use peers::BOTH;
use values::{End, Given};

/// A budget above the end of every program here.
const BUDGET: u32 = 40;

/// Both sides of both borders, in their order.
const BORDERS: [i16; 4] = [-32_768, -1, 0, 32_767];

/// x2 at a program's end, on which rules and circuit agree.
fn x2_after(text: &str, x0: i16, x1: i16) -> u16 {
    let program = read(text).expect("a good text");
    let (file, state) = ([0; 1024], [0; 4000]);
    let words = start_with([x0 as u16, x1 as u16]);
    let ran = (BOTH.run_program)(Given::NOTHING, &program, &words, BUDGET, &file, &state);
    let answer = ran.result.expect("a good program");
    let end = End {
        instant: answer.instant,
        words: answer.words,
    };
    let by_the_rules = (BOTH.reference_run)(Given::NOTHING, &program, &words, BUDGET);
    assert_eq!(by_the_rules.result, Ok(Some(end)), "{text} from {x0}, {x1}");
    answer.words[2]
}

fn less(x0: i16, x1: i16) -> u16 {
    x2_after("x2 := x0 < x1 @17", x0, x1)
}

#[test]
fn the_examples_of_the_paper() {
    assert_eq!(less(-1, 0), 1);
    assert_eq!(less(32_767, -32_768), 0);
}

#[test]
fn words_at_the_borders_are_compared_with_their_signs() {
    for (place_of_a, a) in BORDERS.into_iter().enumerate() {
        for (place_of_b, b) in BORDERS.into_iter().enumerate() {
            let expected = u16::from(place_of_a < place_of_b);
            assert_eq!(less(a, b), expected, "{a} < {b}");
        }
    }
}

#[test]
fn constants_are_compared_with_their_signs() {
    assert_eq!(x2_after("x2 := 65535 < 0 @17", 0, 0), 1);
    assert_eq!(x2_after("x2 := 32767 < 32768 @17", 0, 0), 0);
}

#[test]
fn a_condition_below_zero_holds() {
    for x0 in BORDERS {
        let chosen = x2_after("if x0 @0 then x2 := 1 @1 else x2 := 2 @1 end", x0, 0);
        assert_eq!(chosen, if x0 == 0 { 2 } else { 1 }, "{x0}");
    }
}
