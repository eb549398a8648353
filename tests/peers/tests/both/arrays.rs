//! Elements of arrays: read and assigned by the rules and by the circuit, their
//! refusals, and an array on the sides of a parallel node.

use crate::expect::{elements, refused, state_length, START};
use crate::nodes::*;
use peers::BOTH;
use second::calls;
use values::{Format, Given};

/// A budget above the end of every program here.
const BUDGET: u32 = 2_000;

/// Start words of which none is another: 1,000 and the number of the word,
/// where the elements follow the sixteen words, array by array.
fn start() -> Vec<u16> {
    (1_000..1_272).collect()
}

/// Where the start words have an element.
fn place(array: usize, index: usize) -> usize {
    16 + 64 * array + index
}

/// The program ends at this instant, with the start words changed so, by the
/// rules and by the circuit, whose state shows the elements.
fn assert_ends(program: &[u8], instant: u32, changes: &[(usize, u16)]) {
    let mut last = start();
    for &(place, word) in changes {
        last[place] = word;
    }
    let bytes = |words: &[u16]| -> Vec<u8> { words.iter().flat_map(|w| w.to_le_bytes()).collect() };
    let (start, last) = (bytes(&start()), bytes(&last));
    let ran = (BOTH.run_program)(
        Given::NOTHING,
        program,
        &start,
        BUDGET,
        &[0; 1_024],
        &[0; 5_000],
    );
    let answer = ran
        .result
        .unwrap_or_else(|refusal| panic!("{program:?}: {refusal}"));
    assert_eq!(
        (answer.ended, answer.instant),
        (true, instant),
        "{program:?}"
    );
    let words = answer.words.map(u16::to_le_bytes).concat();
    let shown = [&words, elements(&ran.lent)].concat();
    assert_eq!(shown, last, "{program:?}");
    let ended = (BOTH.reference_run)(Given::NOTHING, program, &start, BUDGET).result;
    let end = ended.ok().flatten().expect("it ends by the rules");
    assert_eq!(
        (end.instant, end.words),
        (instant, answer.words),
        "{program:?}"
    );
    let by_second = calls::last_moment(Given::NOTHING, program, &start, BUDGET);
    let moment = by_second.ok().flatten().expect("it ends by the rules");
    assert_eq!(moment.contents.bytes(), last, "{program:?}");
}

/// x0 := the element of an array at an index that is a constant.
fn fetch(array: u16, index: u16) -> Vec<u8> {
    assign(0, element(array, constant(index)), 4)
}

/// The element of an array at an index := a value, both constants.
fn store(array: u16, index: u16, value: u16) -> Vec<u8> {
    assign_element(array, constant(index), constant(value), 1)
}

fn check(program: &[u8]) -> Result<(), values::Refusal> {
    (BOTH.check)(Given::NOTHING, program).result
}

#[test]
fn only_the_low_six_bits_of_an_index_count() {
    for (index, low) in [
        (0, 0),
        (63, 63),
        (64, 0),
        (69, 5),
        (127, 63),
        (128, 0),
        (65_535, 63),
    ] {
        for array in 0..4 {
            let there = place(array.into(), low);
            assert_ends(&fetch(array, index), 5, &[(0, 1_000 + there as u16)]);
            assert_ends(&store(array, index, 7), 2, &[(there, 7)]);
        }
    }
}

#[test]
fn an_element_is_read_after_it_is_assigned() {
    let program = sequence(store(2, 65, 7), fetch(2, 1));
    assert_ends(&program, 7, &[(place(2, 1), 7), (0, 7)]);
    let other_array = sequence(store(2, 65, 7), fetch(1, 1));
    let read = start()[place(1, 1)];
    assert_ends(&other_array, 7, &[(place(2, 1), 7), (0, read)]);
}

#[test]
fn of_two_assignments_the_later_one_counts() {
    let twice = sequence(store(0, 3, 7), store(0, 67, 8));
    assert_ends(&twice, 4, &[(place(0, 3), 8)]);
    let apart = sequence(store(0, 3, 7), store(0, 4, 8));
    assert_ends(&apart, 4, &[(place(0, 3), 7), (place(0, 4), 8)]);
}

/// Element 3 of array 0 is 1,019, whose low six bits are 59.
#[test]
fn an_index_may_read_an_element() {
    let inner = || element(0, constant(3));
    let there = place(1, 59);
    let read = assign(0, element(1, inner()), 8);
    assert_ends(&read, 9, &[(0, start()[there])]);
    let written = assign_element(1, inner(), constant(7), 4);
    assert_ends(&written, 5, &[(there, 7)]);
    let same_array = assign_element(0, inner(), element(0, inner()), 8);
    let read = start()[place(0, 59)];
    assert_ends(&same_array, 9, &[(place(0, 59), read)]);
}

/// Index and value are those of the instant at which d begins.
#[test]
fn an_element_assignment_may_read_what_it_changes() {
    let own = || element(3, constant(9));
    let one_more = assign_element(3, constant(9), sum(own(), constant(1)), 20);
    let before = start()[place(3, 9)];
    assert_ends(&one_more, 21, &[(place(3, 9), before + 1)]);
}

/// while a1[0] @4 do a1[0] := a1[0] - 1 @21, from 3: four tests of 4 and three
/// rounds of 22, before it an assignment of 2.
#[test]
fn a_condition_may_read_an_element() {
    let own = || element(1, constant(0));
    let down = assign_element(1, constant(0), difference(own(), constant(1)), 21);
    let program = sequence(store(1, 0, 3), while_do(own(), 4, down));
    assert_ends(&program, 84, &[(place(1, 0), 0)]);
}

#[test]
fn the_sides_of_a_parallel_node_may_have_an_array_each() {
    let third = || element(2, constant(5));
    let side = |array| assign_element(array, constant(1), third(), 4);
    let both = parallel(side(0), sequence(side(1), store(1, 2, 7)));
    let read = start()[place(2, 5)];
    let changes = [(place(0, 1), read), (place(1, 1), read), (place(1, 2), 7)];
    assert_ends(&both, 7, &changes);
}

/// Array k is no variable k.
#[test]
fn an_array_and_a_variable_of_its_number_are_apart() {
    for number in 0..4 {
        let program = parallel(assign(number, constant(9), 1), store(number, 0, 7));
        let changes = [(number.into(), 9), (place(number.into(), 0), 7)];
        assert_ends(&program, 2, &changes);
    }
}

#[test]
fn an_array_on_both_sides_is_8_if_one_assigns_to_it() {
    let clashing = [
        store(1, 0, 7),
        fetch(1, 60),
        assign(0, element(0, element(1, constant(60))), 8),
        assign_element(0, element(1, constant(60)), constant(7), 4),
        assign_element(0, constant(7), element(1, constant(60)), 4),
        if_then_else(element(1, constant(60)), 4, ok(), ok()),
        while_do(element(1, constant(60)), 4, ok()),
        repeat_until(ok(), element(1, constant(60)), 4),
    ];
    for side in clashing {
        let left = parallel(store(1, 5, 7), side.clone());
        assert_eq!(check(&left), refused(8, 0), "{side:?}");
        let right = sequence(ok(), parallel(side.clone(), store(1, 5, 7)));
        assert_eq!(check(&right), refused(8, 2), "{side:?}");
    }
    for array in [0, 2, 3] {
        assert_eq!(check(&parallel(store(1, 5, 7), store(array, 5, 7))), Ok(()));
    }
    let both_read = parallel(fetch(1, 5), assign(1, element(1, constant(5)), 4));
    assert_eq!(check(&both_read), Ok(()));
}

#[test]
fn there_are_four_arrays() {
    for number in [4, 15, 16, 256, 65_535] {
        assert_eq!(check(&store(number, 0, 7)), refused(4, 0), "{number}");
        assert_eq!(check(&fetch(number, 0)), refused(4, 1), "{number}");
    }
    let nested = assign(0, element(3, element(4, constant(0))), 8);
    assert_eq!(check(&nested), refused(4, 2));
}

#[test]
fn an_element_has_no_delay_and_two_assigned_have_one() {
    let mut delayed = fetch(0, 0);
    delayed[5] = 4;
    assert_eq!(check(&delayed), refused(3, 1));
    assert_eq!(check(&assign(0, element(0, constant(0)), 3)), refused(7, 0));
    let [slow, fast] = [element(0, constant(0)), constant(0)];
    for [index, value] in [[slow.clone(), fast.clone()], [fast, slow]] {
        let assigned = |d| check(&assign_element(0, index.clone(), value.clone(), d));
        assert_eq!((assigned(3), assigned(4)), (refused(7, 0), Ok(())));
    }
}

#[test]
fn an_element_has_one_child_and_its_assignment_two() {
    let one = || constant(0);
    assert_eq!(check(&node(24, 1, 0)), refused(6, 1));
    assert_eq!(check(&[node(24, 1, 0), one()].concat()), refused(6, 2));
    assert_eq!(check(&[store(0, 0, 0), one()].concat()), refused(6, 3));
    assert_eq!(check(&assign(0, node(10, 0, 0), 4)), refused(6, 2));
    assert_eq!(check(&assign_element(0, ok(), one(), 1)), refused(5, 1));
    assert_eq!(check(&assign_element(0, one(), ok(), 1)), refused(5, 2));
    assert_eq!(check(&element(0, one())), refused(5, 0));
    assert_eq!(check(&assign(0, store(0, 0, 0), 1)), refused(5, 1));
}

/// All calls that take start words take 272 of them.
#[test]
fn every_start_word_reaches_the_state() {
    let words: Vec<u8> = start().iter().flat_map(|word| word.to_le_bytes()).collect();
    let compiled = (BOTH.compile)(Given::NOTHING, &ok(), &[0; 512]);
    let file = &compiled.lent[0];
    let begun = (BOTH.begin)(
        Format::Full,
        file,
        &words,
        &[7; state_length(Format::Full, 27)],
    );
    assert_eq!(begun.lent[0][8 + 40 * 27..], words[32..]);
    let ran = (BOTH.run_netlist)(file, &words, 0, &[7; state_length(Format::Full, 27)]);
    assert_eq!(ran.lent, begun.lent);
    let from_zero = (BOTH.begin)(
        Format::Full,
        file,
        &START,
        &[7; state_length(Format::Full, 27)],
    );
    assert_eq!(from_zero.lent[0][8 + 40 * 27..], [0; 512]);
}
