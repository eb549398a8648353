//! What is given beside a job's program: a damaged table, or a length that no
//! pulse has, is refused by every call before all else, and a good table decides
//! only whether a program is accepted.

use crate::job::Job;
use crate::lend::{lent, MOST_FILE};
use peers::{Peer, Reply};
use second::table::Times;
use values::{Given, Refusal};

/// The table that accepts whatever any table accepts.
const FASTEST: Times = Times([0, 0, 1, 1, 1, 1, 1, 1, 1, 1]);

/// Compares; a job with nothing refused and no table has nothing to compare.
pub fn compare(peer: &Peer, job: &Job) -> Result<(), String> {
    match (job.refused_beside(), &job.table) {
        (Some(refused), _) => refused_by_all(peer, job, refused),
        (None, Some(_)) => same_as_under_the_fastest(peer, job),
        (None, None) => Ok(()),
    }
}

/// The calls on programs; those on texts are compared with the texts.
fn refused_by_all(peer: &Peer, job: &Job, refused: Refusal) -> Result<(), String> {
    let (given, program, words, budget) = (job.given(), &job.program, &job.words, job.budget);
    let (file, state) = (lent(job.file_length), lent(job.state_length));
    let unwritten = [file.clone(), state.clone()];
    let checked = (peer.check)(given, program);
    expect("check", checked, refused, &[])?;
    let compiled = (peer.compile)(given, program, &file);
    expect("compile", compiled, refused, &unwritten[..1])?;
    let run = (peer.run_program)(given, program, words, budget, &file, &state);
    expect("run_program", run, refused, &unwritten)?;
    let ended = (peer.reference_run)(given, program, words, budget);
    expect("reference_run", ended, refused, &[])
}

fn expect<T>(
    name: &str,
    found: Reply<T>,
    refused: Refusal,
    unwritten: &[Vec<u8>],
) -> Result<(), String> {
    if found.result.err() != Some(refused) {
        return Err(format!("{name}: what is given isn't {refused:?}"));
    }
    if found.lent != unwritten {
        return Err(format!("{name}: refused, yet lent bytes changed"));
    }
    Ok(())
}

/// An accepted program compiles to the same bytes under any faster table.
fn same_as_under_the_fastest(peer: &Peer, job: &Job) -> Result<(), String> {
    let room = lent(MOST_FILE);
    let compiled = (peer.compile)(job.given(), &job.program, &room);
    let fastest = FASTEST.file();
    let faster = Given {
        table: Some(&fastest),
        ..job.given()
    };
    let fastest = (peer.compile)(faster, &job.program, &room);
    if compiled.result.is_ok() && compiled != fastest {
        return Err("compile: another netlist under a faster table".to_string());
    }
    Ok(())
}
