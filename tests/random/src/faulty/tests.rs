//! The comparisons tell every faulty peer from a good one.

use super::arrays::*;
use super::cells::*;
use super::compact::*;
use super::functional::*;
use super::loops::*;
use super::parts::*;
use super::procedures::*;
use super::pulses::*;
use super::runs::*;
use super::slow::*;
use super::starts::*;
use super::tables::*;
use super::texts::*;
use crate::against_peer::Pair;
use crate::job::{self, Job};
use crate::texts::has_loops;
use crate::xorshift::Random;
use crate::{against_equations, against_full, against_functional, against_rules};
use crate::{against_parts, against_slow, against_tables, against_text, generate, netlists};
use peers::{Peer, SECOND};
use values::{Circuit, Format};

const JOBS: u64 = 40;

fn disagrees_with_rules(peer: &Peer) -> bool {
    (0..4 * JOBS).any(|seed| against_rules::compare(peer, &Job::of_seed(seed)).is_err())
}

/// Whether a comparison on random netlists, from random words, fails.
fn disagrees_on_netlists(
    compare: impl Fn(&[u8], &[u8], &mut Random) -> Result<(), String>,
) -> bool {
    // Every other one has longer pulses, and so no compact state.
    (0..2 * JOBS).any(|seed| {
        let random = &mut Random::new(seed);
        let (file, words) = (netlists::netlist(random), generate::start_words(random));
        compare(&file, &words, random).is_err()
    })
}

fn disagrees_with_equations(peer: &Peer) -> bool {
    disagrees_with_equations_of(Format::Full, peer)
}

fn disagrees_with_equations_of(format: Format, peer: &Peer) -> bool {
    disagrees_on_netlists(|file, words, random| {
        against_equations::compare(peer, format, file, words, random.bits()).map(drop)
    })
}

fn disagrees_with_tables(peer: &Peer) -> bool {
    // A damaged table is rare.
    (0..10 * JOBS).any(|seed| against_tables::compare(peer, &Job::of_seed(seed)).is_err())
}

fn disagrees_with_texts(peer: &Peer) -> bool {
    // A text of exactly the most bytes is rare, and texts take little time.
    (0..10 * JOBS).any(|seed| against_text::compare(peer, &Job::of_seed(seed)).is_err())
}

fn with_second(peer: &Peer) -> Pair<'_> {
    Pair {
        left: &SECOND,
        right: peer,
    }
}

fn disagrees_with_second(peer: &Peer) -> bool {
    let pair = with_second(peer);
    // Reading behind so many cells that numbers wrap is rare.
    (0..10 * JOBS).any(|seed| pair.compare(&Job::of_seed(seed)).is_err())
}

fn disagrees_with_second_on_netlists(peer: &Peer) -> bool {
    let pair = with_second(peer);
    disagrees_on_netlists(|file, words, random| {
        pair.compare_netlist(file, words, &job::calls(file[1] + 1, random), random.bits())
    })
}

/// A comparison accepts a good peer and tells each of these.
fn assert_tells(disagrees: impl Fn(&Peer) -> bool, faulty: &[Peer]) {
    assert!(!disagrees(&SECOND));
    for peer in faulty {
        assert!(disagrees(peer), "{}", peer.name);
    }
}

#[test]
fn rules_tell_faulty_circuits() {
    let faulty = [SLOW_PARALLEL, EARLY_OPEN, COPYING, STOCK_NETLIST];
    assert_tells(disagrees_with_rules, &faulty);
}

/// Of a compiled program no word is taken at the instant of a write, so that
/// a stale read shows on its wire alone.
#[test]
fn rules_tell_faulty_arrays() {
    assert!(!disagrees_with_rules(&WALKING));
    assert_tells(disagrees_with_rules, &[ADDRESS_OF_THE_FALL, SEVEN_BITS]);
}

#[test]
fn equations_and_a_good_peer_tell_faulty_arrays() {
    for disagrees in [disagrees_with_equations, disagrees_with_second_on_netlists] {
        assert!(!disagrees(&WALKING));
        assert_tells(disagrees, &[ADDRESS_OF_THE_FALL, SEVEN_BITS, STALE_READ]);
    }
}

/// The circuits of programs that are accepted, and end otherwise.
#[test]
fn rules_tell_faulty_loops() {
    // An exit that something follows is rare.
    let disagrees = |peer: &Peer| {
        let jobs = (0..20 * JOBS).map(Job::of_seed);
        let mut with_loops = jobs.filter(|job| has_loops(&job.program));
        with_loops.any(|job| against_rules::compare(peer, &job).is_err())
    };
    assert_tells(disagrees, &[DELAY_SPENT, OUTER_LEFT, REST_RUN]);
}

/// The circuits of programs with calls, and a call's merge in them.
#[test]
fn rules_tell_faulty_procedures() {
    let faulty = [LONE_B_KEPT, NOT_CLEARED, DELAY_SKIPPED];
    assert_tells(disagrees_with_rules, &faulty);
}

#[test]
fn equations_and_a_good_peer_tell_faulty_merges_of_calls() {
    for disagrees in [disagrees_with_equations, disagrees_with_second_on_netlists] {
        assert_tells(disagrees, &[LONE_B_KEPT, NOT_CLEARED]);
    }
}

fn disagrees_with_full_runs(peer: &Peer) -> bool {
    (0..4 * JOBS).any(|seed| against_slow::compare(peer, &Job::of_seed(seed)).is_err())
}

/// What is late must be there when it is used, and no answer tells more.
#[test]
fn full_runs_tell_faulty_slow_runs() {
    assert!(!disagrees_with_full_runs(&BY_ROWS));
    assert_tells(disagrees_with_full_runs, &[LATE_ORS, ONE_MORE]);
    assert!(!disagrees_with_full_runs(&LATE_RESULTS));
    assert!(!disagrees_with_full_runs(&READS_AT_ONCE));
}

#[test]
fn a_good_peer_tells_faulty_slow_runs() {
    let disagrees = |peer: &Peer| {
        let pair = with_second(peer);
        (0..10 * JOBS).any(|seed| pair.same_slow_run(&Job::of_seed(seed)).is_err())
    };
    assert!(!disagrees(&BY_ROWS));
    let faulty = [LATE_RESULTS, LATE_ORS, READS_AT_ONCE, ONE_MORE];
    assert_tells(disagrees, &faulty);
}

#[test]
fn a_good_peer_tells_faulty_joining() {
    let disagrees = |peer: &Peer| {
        // A netlist of another program that is as long is rare.
        (0..40 * JOBS)
            .any(|seed| against_parts::compare(peer, &SECOND, &mut Random::new(seed)).is_err())
    };
    assert!(!disagrees(&BY_MOVING));
    let faulty = [ORS_BY_PARTS, START_STAYS, AS_LONG, PULSES_LAST];
    assert_tells(disagrees, &faulty);
}

/// Compiled programs, started again as soon as they are idle.
#[test]
fn rules_tell_faulty_starts() {
    let faulty = [STALE_COUNT, HASTY, FORGETTING];
    assert_tells(disagrees_with_rules, &faulty);
}

/// Programs that are over soon, and then go on to the last instant.
#[test]
fn rules_tell_a_start_beyond_the_last_instant() {
    let disagrees = |peer: &Peer| {
        let programs = [[16, 0, 0, 0], [17, 9, 0, 0]].into_iter();
        let mut pulsed = programs.flat_map(|program| [1, 8].map(|pulse| (program, pulse)));
        pulsed.any(|(program, pulse)| {
            let job = Job {
                table: None,
                procedures: 0,
                pulse,
                program: program.to_vec(),
                calls: job::to_the_last(pulse).collect(),
                ..Job::of_seed(0)
            };
            against_rules::compare(peer, &job).is_err()
        })
    };
    assert_tells(disagrees, &[UNCOUNTED]);
}

#[test]
fn equations_tell_faulty_starts() {
    assert_tells(disagrees_with_equations, &[STALE_COUNT, HASTY]);
}

/// Compiled programs with longer pulses, started again as soon as they are idle.
#[test]
fn rules_tell_faulty_pulses() {
    let faulty = [
        DROPPED_AT_OUTPUT,
        DUE_ONCE,
        REMAINING_UNCOUNTED,
        HIGH_FINISH,
    ];
    assert_tells(disagrees_with_rules, &faulty);
}

#[test]
fn equations_and_a_good_peer_tell_faulty_pulses() {
    let simulators = [DROPPED_AT_OUTPUT, REMAINING_UNCOUNTED];
    for disagrees in [disagrees_with_equations, disagrees_with_second_on_netlists] {
        assert_tells(disagrees, &simulators);
    }
    assert_tells(disagrees_with_equations, &[HIGH_FINISH]);
    let readers = [FIRST_BLOCK_ALONE, COMPACT_AT_ANY_LENGTH];
    assert_tells(disagrees_with_second_on_netlists, &readers);
}

/// Compiled programs, of which a loop's line is entered as its pulse comes out.
#[test]
fn full_states_tell_faulty_compact_ones() {
    let disagrees = |peer: &Peer| {
        (0..4 * JOBS).any(|seed| {
            against_full::compare(peer, Circuit::Imperative, &Job::of_seed(seed)).is_err()
        })
    };
    assert_tells(disagrees, &[ONE_OFF, NARROW, COMPACT_AT_ANY_LENGTH]);
}

#[test]
fn equations_and_a_good_peer_tell_faulty_compact_states() {
    let faulty = [ONE_OFF, LATE, BAD_INSTANT, NARROW];
    assert_tells(
        |peer| disagrees_with_equations_of(Format::Compact, peer),
        &faulty,
    );
    assert_tells(disagrees_with_second_on_netlists, &faulty);
}

/// Whether the functional circuits of jobs that pass fail, of the peer's own compiler
/// on its own simulator.
fn disagrees_with_functional_rules(peer: &Peer, mut jobs: impl Iterator<Item = Job>) -> bool {
    jobs.any(|job| against_functional::compare(peer, peer, &job).is_err())
}

/// Programs that are short, since a walk over all cells takes long.
#[test]
fn functional_rules_tell_faulty_circuits() {
    let disagrees = |peer: &Peer| {
        let jobs = (0..20 * JOBS).map(Job::of_seed);
        disagrees_with_functional_rules(peer, jobs.filter(|job| job.program.len() <= 120))
    };
    let circuits = [WORD_OF_THE_NEXT_INSTANT, SELECTED_BY_PULSE, PRESENT_WORDS];
    assert_tells(disagrees, &circuits);
    assert_tells(disagrees, &[SLOW_ASSIGNMENT, IMPERATIVE_TIMES]);
}

/// An exit that no loop has is rare.
#[test]
fn functional_rules_tell_a_check_that_looks_for_exits_first() {
    let disagrees = |peer: &Peer| {
        let jobs = (0..200 * JOBS).map(Job::of_seed);
        disagrees_with_functional_rules(peer, jobs.filter(|job| has_loops(&job.program)))
    };
    assert_tells(disagrees, &[EXITS_FIRST]);
}

#[test]
fn equations_and_a_good_peer_tell_faulty_latches() {
    for disagrees in [disagrees_with_equations, disagrees_with_second_on_netlists] {
        assert_tells(disagrees, &[WORD_OF_THE_NEXT_INSTANT]);
    }
}

#[test]
fn a_good_peer_tells_a_reader_of_fifteen_last_cells() {
    assert_tells(disagrees_with_second_on_netlists, &[FIFTEEN_LASTS]);
}

/// Of the calls that are compared only the check: a clash of arrays is rare, and so
/// are two sides that share a procedure through others, and a bad table beside a
/// length that no pulse has.
#[test]
fn a_good_peer_tells_what_a_check_misses() {
    let disagrees = |peer: &Peer| {
        (0..200 * JOBS).map(Job::of_seed).any(|job| {
            let check = |peer: &Peer| (peer.check)(job.given(), &job.program);
            with_second(peer).same("check", &[], check).is_err()
        })
    };
    let faulty = [ARRAYS_APART, THROUGH_PARALLEL, NOT_THROUGH_CALLS];
    assert_tells(disagrees, &faulty);
    assert_tells(disagrees, &[DELAY_OF_THE_LENGTH, TABLE_FIRST]);
}

#[test]
fn equations_tell_faulty_simulators() {
    assert_tells(disagrees_with_equations, &[EARLY_OPEN, COPYING]);
}

#[test]
fn texts_tell_faulty_readers() {
    let faulty = [MIXED_UP, TRIMMING, SHORT_TEXTS, LATE_PLACE, TEXT_FIRST];
    assert_tells(disagrees_with_texts, &faulty);
}

#[test]
fn tables_tell_faulty_checks_and_compilers() {
    assert_tells(disagrees_with_tables, &[UNTIMED, TIMED_NETLIST]);
}

#[test]
fn a_good_peer_tells_every_faulty_one() {
    let runs = [SLOW_PARALLEL, EARLY_OPEN, COPYING, STOCK_NETLIST, REFUSING];
    let readers = [MIXED_UP, TRIMMING, LATE_PLACE];
    let tables = [UNTIMED, TIMED_NETLIST];
    let moves = [MOVED_CONSTANTS, STAYING_B, UNWRAPPED, MOVED_FINISH];
    let lists = [ROOM_TO_SPARE, ABSENT_FINISH];
    let loops = [DELAY_SPENT, OUTER_LEFT, REST_RUN];
    let starts = [STALE_COUNT, HASTY, FORGETTING, UNCOUNTED];
    let procedures = [LONE_B_KEPT, NOT_CLEARED, DELAY_SKIPPED];
    let pulses = [
        DUE_ONCE,
        REMAINING_UNCOUNTED,
        HIGH_FINISH,
        FIRST_BLOCK_ALONE,
    ];
    let faulty = [
        &runs[..],
        &readers,
        &tables,
        &moves,
        &lists,
        &loops,
        &starts,
        &procedures,
        &pulses,
    ]
    .concat();
    assert_tells(disagrees_with_second, &faulty);
}
