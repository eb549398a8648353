//! A peer's functional circuits against the functional rules: what its calls refuse,
//! and demand 3 with the times of functional circuits, on states of both formats, for
//! the netlist of its own compiler and for that of another.

use crate::job::{Job, FUNCTIONAL, MOST_INSTANT};
use crate::lend::*;
use crate::list::{expect, List, Seen};
use peers::Peer;
use second::calls;
use values::{Format, Given, Refusal};

/// The kinds of nodes that document 01 doesn't have.
const ADDED: [u8; 5] = [10, 24, 25, 26, 27];

/// The refusals of a program that come before 28, those of a table among them.
const BEFORE: [u8; 9] = [19, 20, 21, 1, 2, 3, 4, 5, 6];

const NO_ROOM: Refusal = Refusal::new(14, 0);

/// Compares; the error says which call disagrees, and how.
pub fn compare(compiler: &Peer, peer: &Peer, job: &Job) -> Result<Seen, String> {
    let (table, program) = (job.lent_table(), &job.program);
    let expected = expected(job);
    let checked = (peer.functional.check)(table, program).result;
    expect("functional check", checked, expected)?;
    let room = lent(MOST_FUNCTIONAL_FILE);
    let compiled = (compiler.functional.compile)(table, program, &room);
    expect("functional compile", compiled.result.map(drop), expected)?;
    check_room(peer, job, expected)?;
    let (Ok(shape), Some(words)) = (compiled.result, job.words.get(..WORDS)) else {
        let refused = (peer.functional.reference_run)(table, program, &job.words, 0).result;
        expect(
            "functional rules",
            refused.map(drop),
            expected.and(Err(NO_ROOM)),
        )?;
        return Ok(Seen::refused());
    };
    let file = &compiled.lent[0][..file_length(shape.cells.into())];
    let [full, compact] = FUNCTIONAL.map(|mode| List::new(peer, mode, job, words, file));
    compact?.compare()?;
    full?.compare()
}

/// A compiling with room for all and with a byte too few, and a full run with what
/// room the job has: each writes all or nothing.
fn check_room(peer: &Peer, job: &Job, expected: Result<(), Refusal>) -> Result<(), String> {
    let (table, program) = (job.lent_table(), &job.program);
    let compile = |room: usize| (peer.functional.compile)(table, program, &lent(room));
    let most = compile(MOST_FUNCTIONAL_FILE);
    let cells = most.result.map_or(0, |shape| usize::from(shape.cells));
    let length = file_length(cells);
    for room in [length, length + 9, length.saturating_sub(1)] {
        let compiled = compile(room);
        let written = match compiled.result {
            Ok(_) => lent_with(&most.lent[0][..length], room),
            Err(_) => lent(room),
        };
        expect("functional compile: bytes", &compiled.lent[0], &written)?;
        let fits = expected.and(Some(()).filter(|()| room >= length).ok_or(NO_ROOM));
        expect("functional compile: room", compiled.result.map(drop), fits)?;
    }
    let (file, state) = (lent(job.file_length), lent(job.state_length));
    let run = peer.functional.run_program;
    let ran = run(table, program, &job.words, job.budget, &file, &state);
    let has_room = job.words.len() >= WORDS
        && job.file_length >= length
        && job.state_length >= state_length(Format::Full, cells);
    let refused = match expected {
        Err(refusal) => Some(refusal),
        Ok(()) if job.budget > MOST_INSTANT => Some(Refusal::new(13, 0)),
        Ok(()) => Some(NO_ROOM).filter(|_| !has_room),
    };
    expect("functional run: refusal", ran.result.err(), refused)?;
    match refused {
        Some(_) => expect("functional run: bytes", ran.lent, vec![file, state]),
        None => Ok(()),
    }
}

/// What the check of a functional circuit tells, as that of an imperative one with
/// nothing but the table beside the program foretells it.
fn expected(job: &Job) -> Result<(), Refusal> {
    let checked = calls::check(Given::table(job.lent_table()), &job.program);
    let before = matches!(checked, Err(refusal) if BEFORE.contains(&refusal.number));
    let mut nodes = job.program.chunks_exact(4);
    match nodes.position(|node| ADDED.contains(&node[0])) {
        Some(place) if !before => Err(Refusal::new(28, place)),
        _ => checked,
    }
}
