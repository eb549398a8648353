//! A peer's imperative circuit against its rules: the whole of demand 3 for one job,
//! with what is given beside its program.
//!
//! From the program's end and the length of its pulses alone it follows what a
//! beginning and every call after it must answer, and which of them are refused: a
//! second start before the end, or while a finish that is longer than an instant is
//! high, and after that none, for the program then runs anew from its last words,
//! counted from that pulse. The last words of the arrays, which no answer shows, are
//! those of the second's rules.

use crate::job::{Job, PLAIN};
use crate::lend::*;
use crate::list::{expect, List, Seen};
use peers::Peer;
use values::{Answer, Given, Refusal};

/// Compares; the error says which call disagrees, and how.
pub fn compare(peer: &Peer, job: &Job) -> Result<Seen, String> {
    let checked = (peer.check)(job.given(), &job.program).result;
    let compiled = (peer.compile)(job.given(), &job.program, &lent(MOST_FILE));
    expect("compile", compiled.result.map(drop), checked)?;
    let (Ok(shape), Some(words)) = (compiled.result, job.words.get(..WORDS)) else {
        return Ok(Seen::refused());
    };
    let file = &compiled.lent[0][..file_length(shape.cells.into())];
    let seen = List::new(peer, PLAIN[0], job, words, file)?.compare()?;
    check_hubrun(peer, job, words)?;
    Ok(seen)
}

/// Where there is nothing beside the program, hubrun prints the full run in which
/// every element is 0 at first.
fn check_hubrun(peer: &Peer, job: &Job, words: &[u8]) -> Result<(), String> {
    if job.given() != Given::NOTHING {
        return Ok(());
    }
    let (program, budget) = (&job.program, job.budget);
    let (file, state) = (lent(MOST_FILE), lent(MOST_STATE));
    let words = &words[..WORDS - ARRAYS];
    let input = [words, &budget.to_le_bytes(), program].concat();
    let text = String::from_utf8((peer.hubrun_text)(&input));
    let start = [words, &[0; ARRAYS]].concat();
    let ran = (peer.run_program)(Given::NOTHING, program, &start, budget, &file, &state);
    expect("hubrun", text, Ok(hubrun_lines(ran.result)))
}

/// What hubrun prints of a full run.
fn hubrun_lines(result: Result<Answer, Refusal>) -> String {
    match result {
        Ok(answer) => {
            let outcome = if answer.ended { "end" } else { "open" };
            let words = answer.words.map(|word| word.to_string()).join(" ");
            format!("{outcome} {}\n{words}\n", answer.instant)
        }
        Err(refusal) => format!("{refusal}\n"),
    }
}
