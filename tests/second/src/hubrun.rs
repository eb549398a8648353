//! The text that `hubrun` prints for its input.

use crate::calls;
use crate::contents::{CONTENTS_LENGTH, WORDS_LENGTH};
use crate::netfile::MOST_CELLS;
use crate::state;
use crate::word::number4;
use values::{Answer, Format, Given, Refusal};

const BUDGET_LENGTH: usize = 4;

/// No accepted program outgrows it.
const NETLIST_ROOM: usize = 6656;

/// The lines for an input of start words, budget and program. It tells no number
/// of procedures, so that there are none.
pub fn text(input: &[u8]) -> String {
    match run(input) {
        Ok(answer) => answer_text(answer),
        Err(refusal) => format!("{refusal}\n"),
    }
}

fn run(input: &[u8]) -> Result<Answer, Refusal> {
    let header = WORDS_LENGTH + BUDGET_LENGTH;
    let Some(program) = input.get(header..) else {
        return Err(Refusal::new(1, 0));
    };
    let budget = number4(input, WORDS_LENGTH);
    let room = state::length(Format::Full, MOST_CELLS);
    let (mut netlist, mut state) = (vec![0; NETLIST_ROOM], vec![0; room]);
    let words = with_elements(&input[..WORDS_LENGTH]);
    let (file, state) = (&mut netlist, &mut state);
    calls::run_program(Given::NOTHING, program, &words, budget, file, state)
}

/// The sixteen start words, and 0 for every element.
fn with_elements(words: &[u8]) -> Vec<u8> {
    let mut contents = words.to_vec();
    contents.resize(CONTENTS_LENGTH, 0);
    contents
}

fn answer_text(answer: Answer) -> String {
    let outcome = if answer.ended { "end" } else { "open" };
    let words = answer.words.map(|word| word.to_string()).join(" ");
    format!("{outcome} {}\n{words}\n", answer.instant)
}
