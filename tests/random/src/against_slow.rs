//! A program's run in which operators take their time, beside its full run: the same
//! refusal or the same answer, whatever the table; and at the last instant the same values
//! on every control wire and every memory.

use crate::job::{Job, MOST_INSTANT};
use crate::lend::*;
use peers::Peer;
use values::{Format, Given};

/// The most instants that are run: histories are kept whole.
const MOST: u32 = 600;

/// The cells of any program's imperative circuit are no more than these.
const MOST_CELLS: usize = 627;

/// The bytes that so many cells are lent to work in.
const fn work_length(cells: usize) -> usize {
    512 * (2 * cells + 1)
}

/// A job's budget, unless it is refused or too long.
pub fn budget(job: &Job) -> u32 {
    match job.budget {
        MOST..=MOST_INSTANT => MOST,
        budget => budget,
    }
}

pub fn compare(peer: &Peer, job: &Job) -> Result<(), String> {
    let given = Given {
        pulse: 1,
        ..job.given()
    };
    let (program, words, budget) = (&job.program, &job.words, budget(job));
    let (file, state) = (lent(MOST_FILE), lent(MOST_STATE));
    let ideal = (peer.run_program)(given, program, words, budget, &file, &state);
    let (values, work) = (lent(2 * MOST_CELLS), lent(work_length(MOST_CELLS) + 9));
    let (table, procedures) = (given.table, given.procedures);
    let slow = (peer.slow_run)(table, procedures, program, words, budget, &values, &work);
    if slow.result != ideal.result {
        let (slow, ideal) = (slow.result, ideal.result);
        return Err(format!("slow_run answers {slow:?}, run_program {ideal:?}"));
    }
    if slow.result.is_err() {
        let kept = slow.lent == [values, work];
        return kept
            .then_some(())
            .ok_or("slow_run: refused, yet lent bytes changed".to_string());
    }
    let cells = usize::from(u16::from_le_bytes([ideal.lent[0][2], ideal.lent[0][3]]));
    worked(&slow.lent[1], cells)?;
    let file = &ideal.lent[0][..file_length(cells)];
    let kinds = (peer.read_netlist)(file, &lent(6 * cells)).lent.remove(0);
    agree(&kinds, &slow.lent[0], &ideal.lent[1], cells)
}

/// What was worked in is left 0, and what follows as it was.
fn worked(work: &[u8], cells: usize) -> Result<(), String> {
    let (worked, past) = work.split_at(work_length(cells));
    let zeros = worked.iter().all(|&byte| byte == 0);
    if !zeros || past != lent(past.len()) {
        return Err("slow_run: what it worked in isn't left as told".to_string());
    }
    Ok(())
}

/// Control wires and memories; operators, and what they feed, may differ.
fn agree(kinds: &[u8], values: &[u8], state: &[u8], cells: usize) -> Result<(), String> {
    for cell in 0..cells {
        let slow = &values[2 * cell..][..2];
        let ideal = &state[HEADER + cell_length(Format::Full) * cell..][..2];
        if matches!(kinds[6 * cell], 32..=40) && slow != ideal {
            return Err(format!("slow_run: cell {cell} shows another value"));
        }
    }
    let past = &values[2 * cells..];
    if past != lent(past.len()) {
        return Err("slow_run: bytes past the values changed".to_string());
    }
    Ok(())
}
