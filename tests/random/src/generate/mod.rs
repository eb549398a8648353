//! Random programs that the check accepts under given operator times, others whose
//! parallel sides have too much to do with each other, and start words.

mod author;
mod expressions;
mod forms;
mod loops;
mod procedures;
mod scope;
mod statements;
#[cfg(test)]
mod tests;
mod words;

pub use words::start_words;

use crate::xorshift::Random;
use author::Author;
use scope::{Scope, Set, FIRST_ARRAY};
use second::table::Times;

/// A program, and how many procedures stand before its main part.
#[derive(Clone, Debug)]
pub struct Program {
    pub procedures: usize,
    pub bytes: Vec<u8>,
}

const MOST_NODES: usize = 200;

/// A program of up to 200 nodes, whose delays are long enough for these times and
/// for pulses of this length.
pub fn program(random: &mut Random, times: &Times, pulse: u8) -> Program {
    written(random, times, pulse, Sides::Apart)
}

/// The same, of which the sides of a parallel node may clash.
pub fn clashing_program(random: &mut Random, times: &Times, pulse: u8) -> Program {
    written(random, times, pulse, Sides::Clashing)
}

/// The same, of which exits in a side of a parallel node may be meant for a loop
/// around that node.
pub fn leaving_program(random: &mut Random, times: &Times, pulse: u8) -> Program {
    written(random, times, pulse, Sides::Leaving)
}

/// The same, of which both sides of a parallel node may reach one procedure.
pub fn sharing_program(random: &mut Random, times: &Times, pulse: u8) -> Program {
    written(random, times, pulse, Sides::Sharing)
}

/// What the sides of a parallel node have to do with each other.
#[derive(PartialEq)]
enum Sides {
    Apart,
    Clashing,
    Leaving,
    Sharing,
}

fn written(random: &mut Random, times: &Times, pulse: u8, sides: Sides) -> Program {
    let limit = match random.below(10) {
        0..=3 => random.between(1, 12),
        4..=7 => random.between(13, 60),
        _ => random.between(61, MOST_NODES),
    };
    // Few variables meet more often than sixteen do. A third of the programs have
    // no arrays, loops or procedures, since those alone have a text.
    let variables = (1 << random.between(1, 16)) - 1;
    let (has_arrays, loops, procedures) = random.pick(&[
        (0, false, false),
        (0, false, false),
        (0, false, false),
        (0, true, false),
        (1, false, false),
        (1, true, false),
        (0, false, true),
        (0, true, true),
        (1, true, true),
    ]);
    let arrays = has_arrays * random.between(1, 15) as Set;
    let all = variables | arrays << FIRST_ARRAY;
    let mut author = Author {
        random,
        times,
        pulse,
        sides,
        loops,
        bodies: Vec::new(),
        bytes: Vec::new(),
    };
    let scope = Scope {
        reads: all,
        writes: all,
        reaches: Set::MAX,
        exits: false,
    };
    if procedures && limit > 1 {
        author.bodies(limit, scope);
    }
    author.statement(limit, scope);
    Program {
        procedures: author.bodies.len(),
        bytes: author.bytes,
    }
}
