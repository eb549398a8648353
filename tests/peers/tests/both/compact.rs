//! Compact states: a number for each line, what refusal 15 names in them, their
//! length, and that they show what full states show.

use crate::expect::{cell_length, start_with, state_length, START};
use crate::netlist::{file_of_idle, FIRST_ARRAY, FREE};
use crate::nodes::*;
use crate::run::*;
use peers::BOTH;
use second::cells::{DELAY, MERGE, RETURN};
use values::{Cell, Format, Given};

/// The last instant of all.
const LAST: u32 = 1_000_000;

/// The first delay of a program's netlist.
const FIRST_DELAY: u16 = 3;

/// A run of the idle cells and these, begun from zero words.
fn wired(cells: &[Cell], finish: u16) -> Run {
    Run::begin_in(Format::Compact, &file_of_idle(cells, finish), &START)
}

fn of_program(program: &[u8]) -> Run {
    Run::of_program(program, &START).compact(&START)
}

/// The numbers of a line at the present instant and at so many more.
fn lefts(run: &mut Run, line: u16, instants: u32) -> Vec<u8> {
    let mut lefts = vec![run.left(line)];
    for _ in 0..instants {
        run.go(1);
        lefts.push(run.left(line));
    }
    lefts
}

#[test]
fn a_line_tells_the_instants_until_its_pulse_comes_out() {
    for (d, expected) in [(1, &[1, 0, 0][..]), (2, &[2, 1, 0]), (3, &[3, 2, 1, 0, 0])] {
        let mut run = of_program(&tick(d));
        let found = lefts(&mut run, FIRST_DELAY, expected.len() as u32 - 1);
        assert_eq!(found, expected, "tick {d}");
    }
    let mut run = of_program(&tick(255));
    let all: Vec<u8> = (0..=255).rev().collect();
    assert_eq!(lefts(&mut run, FIRST_DELAY, 255), all);
    assert_eq!(run.now(FIRST_DELAY), 1);
}

/// The pulse is out in the instant in which the number becomes 0.
#[test]
fn a_pulse_of_which_one_instant_is_left_comes_out_next() {
    let mut run = wired(&[Cell::new(DELAY, 9, 1, 0)], FREE);
    let left = run.at(FREE, LEFT);
    run.state[left] = 2;
    run.tell_in_flight(1);
    let shown = |run: &Run| (run.left(FREE), run.now(FREE), run.in_flight());
    run.go(1);
    assert_eq!(shown(&run), (1, 0, 1));
    let answer = run.go(100);
    assert_eq!((answer.ended, answer.instant), (true, 2));
    assert_eq!(shown(&run), (0, 1, 0));
}

/// A loop of 1 whose body takes no time: the number stays 1.
#[test]
fn a_line_that_is_entered_as_its_pulse_comes_out_starts_anew() {
    let mut run = of_program(&loop_of(1, ok()));
    assert_eq!(lefts(&mut run, FIRST_DELAY, 5), [1; 6]);
    let mut run = of_program(&loop_of(3, ok()));
    assert_eq!(lefts(&mut run, FIRST_DELAY, 6), [3, 2, 1, 3, 2, 1, 3]);
}

/// A compact state as a full one shows it: without its lines.
fn shown(run: &Run) -> Vec<u8> {
    let (cells, arrays) = run.state.split_at(run.state.len() - 512);
    let cells = cells[8..].chunks_exact(cell_length(run.format));
    let values = cells.flat_map(|cell| &cell[..6]).copied();
    [&run.state[..8], &values.collect::<Vec<u8>>(), arrays].concat()
}

/// The same calls on both states: starts as soon as the hub is idle, and
/// continuings by one.
#[test]
fn both_states_show_the_same_at_every_instant() {
    let count_up = || assign(0, sum(variable(0), constant(1)), 16);
    let down = || assign(0, difference(variable(0), constant(1)), 17);
    let store = assign_element(2, variable(0), sum(variable(0), constant(9)), 16);
    let called = [tick(2), sequence(call(0, 1), call(0, 3))].concat();
    let programs = [
        (0, parallel(tick(3), sequence(tick(5), count_up()))),
        (0, while_do(variable(0), 1, parallel(down(), tick(2)))),
        (0, sequence(count_up(), store)),
        (0, loop_of(2, if_then_else(variable(0), 0, exit(), ok()))),
        (1, called),
    ];
    for (procedures, program) in programs {
        let words = start_with([2, 7]);
        let given = Given::procedures(procedures);
        let mut full = Run::of_given(given, &program, &words);
        let mut compact = full.compact(&words);
        for _ in 0..200 {
            assert_eq!(shown(&full), shown(&compact), "{program:?}");
            match full.in_flight() {
                0 => assert_eq!(full.start(), compact.start()),
                _ => assert_eq!(full.go(1), compact.go(1)),
            }
        }
    }
}

/// A line counts once, whatever its number is, and so does each held bit.
#[test]
fn the_number_in_flight_counts_a_line_once() {
    let mut run = of_program(&parallel(tick(200), tick(3)));
    for (instants, number) in [(0, 2), (3, 2), (196, 2), (1, 0)] {
        run.go(instants);
        assert_eq!(run.in_flight(), number);
    }
}

#[test]
fn a_state_has_8_bytes_for_each_cell() {
    let run = of_program(&tick(3));
    let length = run.state.len();
    assert_eq!(length, 8 + 8 * 28 + 512);
    let mut idle = run.clone();
    idle.go(100);
    let calls = |state: &[u8], idle: &[u8]| {
        let file = &run.file;
        [
            (BOTH.begin)(Format::Compact, file, &START, state),
            (BOTH.continue_by)(Format::Compact, file, 2, state),
            (BOTH.start)(Format::Compact, file, idle),
        ]
    };
    let exact = calls(&run.state, &idle.state);
    let past = [7; 9];
    let longer = |state: &[u8]| [state, &past].concat();
    for (exact, long) in exact
        .iter()
        .zip(calls(&longer(&run.state), &longer(&idle.state)))
    {
        assert!(exact.result.is_ok());
        assert_eq!(exact.result, long.result);
        assert_eq!(long.lent, [longer(&exact.lent[0])]);
    }
    for missing in [1, 8, 512, length] {
        let (state, idle) = (&run.state[missing..], &idle.state[missing..]);
        for (short, lent) in calls(state, idle).iter().zip([state, state, idle]) {
            assert_eq!(short.result, crate::expect::refused(14, 0));
            assert_eq!(short.lent, [lent]);
        }
    }
}

/// A beginning looks at no byte of the lent state.
#[test]
fn a_beginning_writes_every_byte() {
    let run = of_program(&parallel(tick(3), tick(5)));
    let begun = (BOTH.begin)(
        Format::Compact,
        &run.file,
        &START,
        &vec![0xff; run.state.len()],
    );
    assert_eq!(begun.lent, [&run.state[..]]);
}

#[test]
fn what_refusal_15_names_is_refused_and_nothing_else() {
    let (delay, merge, back, sum) = (FREE, FREE + 1, FREE + 2, FREE + 3);
    let cells = [
        Cell::new(DELAY, 5, 0, 0),
        Cell::new(MERGE, 0, 0, 1),
        Cell::new(RETURN, 0, 1, 1),
        Cell::new(4, 0, 2, 2),
    ];
    let begun = wired(&cells, 1);
    assert_eq!((begun.in_flight(), begun.left(delay)), (2, 5));
    let second = LEFT + 1;
    let unlawful = [
        // Above the delay, or where there is no line.
        (delay, LEFT, 6),
        (delay, LEFT, 255),
        (merge, LEFT, 1),
        (back, LEFT, 1),
        (sum, LEFT, 1),
        (0, LEFT, 1),
        (1, LEFT, 255),
        (2, LEFT, 1),
        (FIRST_DELAY, LEFT, 1),
        (FIRST_ARRAY, LEFT, 1),
        (FIRST_ARRAY + 2, LEFT, 1),
        (FIRST_ARRAY + 7, LEFT, 1),
        // No pulse where the number in flight tells one.
        (delay, LEFT, 0),
        // The second zero byte.
        (delay, second, 1),
        (merge, second, 128),
        (sum, second, 1),
        (FIRST_ARRAY + 1, second, 1),
        // As in a full state.
        (delay, NOW, 2),
        (delay, AGO + 1, 1),
        (back, AGO, 2),
        (delay, HELD_A, 1),
        (merge, HELD_A, 2),
        (merge, HELD_B, 1),
        (back, HELD_B, 1),
        (sum, HELD_A, 1),
    ];
    for (cell, byte, value) in unlawful {
        let mut other = begun.clone();
        let place = other.at(cell, byte);
        other.state[place] = value;
        for n in [0, 1, 50] {
            other.assert_refused(n, 15);
        }
        other.assert_start_refused(15);
    }
    for number in [0, 1, 3, 6, 2 + 256, 2 + (1 << 24)] {
        let mut other = begun.clone();
        other.tell_in_flight(number);
        other.assert_refused(1, 15);
    }
    let taken = [
        (delay, LEFT, 1),
        (delay, LEFT, 4),
        (delay, NOW, 1),
        (delay, AGO, 1),
        (sum, NOW + 1, 255),
        (sum, AGO + 1, 255),
        (FIRST_ARRAY, NOW, 5),
        (sum + 1, 0, 255),
        (sum + 1, 511, 255),
    ];
    for (cell, byte, value) in taken {
        let mut other = begun.clone();
        let place = other.at(cell, byte);
        other.state[place] = value;
        other.go(1);
    }
}

/// Everything is wrong at first, and one thing after the other is put right.
#[test]
fn refusals_come_in_the_order_14_15_16_23() {
    let mut run = of_program(&tick(3));
    run.tell_instant(LAST);
    let line = run.at(FIRST_DELAY, LEFT);
    run.state[line] = 4;
    let last = run.state.pop().expect("a state");
    run.assert_refused(1, 14);
    run.assert_start_refused(14);
    run.state.push(last);
    run.assert_refused(1, 15);
    run.assert_start_refused(15);
    run.state[line] = 3;
    run.assert_refused(1, 16);
    run.assert_start_refused(16);
    run.tell_instant(LAST - 1);
    run.assert_start_refused(23);
    run.state[line] = 0;
    run.tell_in_flight(0);
    assert_eq!(run.start().instant, LAST);
    run.assert_refused(1, 16);
}

#[test]
fn a_netlist_is_refused_before_its_state() {
    let mut run = of_program(&tick(3));
    run.file[8] ^= 1;
    run.state.truncate(3);
    run.assert_refused(1, 10);
    run.assert_start_refused(10);
    run.file.clear();
    run.assert_refused(1, 9);
}

/// Its cells are taken for others, so that the pulse in flight isn't found; and a
/// compact state is too short for a full one.
#[test]
fn a_state_of_the_other_format_is_refused() {
    let full = Run::of_program(&tick(3), &START);
    let compact = full.compact(&START);
    assert_eq!(full.state.len(), state_length(Format::Full, 28));
    let mixed_up = |format, run: &Run| Run {
        format,
        ..run.clone()
    };
    let taken = mixed_up(Format::Compact, &full);
    taken.assert_refused(0, 15);
    taken.assert_refused(1, 15);
    taken.assert_start_refused(15);
    mixed_up(Format::Full, &compact).assert_refused(0, 14);
}
